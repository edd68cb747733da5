"""The processors that the library is made for: how test programs are compiled for them and run."""

import os
import shutil
import subprocess
import tempfile
from pathlib import Path

ROOT = Path(__file__).resolve().parents[2]
TESTS = ROOT / "targets/test"
WORK = ROOT / "target/test-targets"
WARNINGS = ["-std=gnu99", "-O2", "-Wall", "-Wextra", "-Werror"]
BOARD = ["-mcpu=cortex-m4", "-mthumb", "-mfloat-abi=hard", "-mfpu=fpv4-sp-d16"]

# The cross compilers of Linux targets, and for each target the commands that its tests need with their Debian packages.
LINUX = {"aarch64": "aarch64-linux-gnu", "riscv64": "riscv64-linux-gnu", "armhf": "arm-linux-gnueabihf"}
NEEDS = {
    "aarch64": {"qemu-aarch64": "qemu-user", "aarch64-linux-gnu-gcc": "gcc-aarch64-linux-gnu libc6-dev-arm64-cross"},
    "riscv64": {"qemu-riscv64": "qemu-user", "riscv64-linux-gnu-gcc": "gcc-riscv64-linux-gnu libc6-dev-riscv64-cross"},
    "armhf": {"qemu-arm": "qemu-user", "arm-linux-gnueabihf-gcc": "gcc-arm-linux-gnueabihf libc6-dev-armhf-cross"},
    "cortex-m4": {"qemu-system-arm": "qemu-system-arm", "arm-none-eabi-gcc": "gcc-arm-none-eabi libnewlib-arm-none-eabi"},
    "wasm32": {"node": "nodejs"},
}


class Failure(Exception):
    """A test failed."""


def run(words, **options):
    """The output of a command; raises Failure with the command if it fails."""
    done = subprocess.run([str(word) for word in words], cwd=ROOT, stdout=subprocess.PIPE, stderr=subprocess.STDOUT, text=True, check=False, **options)
    if done.returncode:
        raise Failure("%s: status %d\n%s" % (" ".join(map(str, words)), done.returncode, done.stdout[-2000:]))
    return done.stdout


def missing(target):
    return {command: packages for command, packages in NEEDS[target].items() if not shutil.which(command)}


def compiled(target, program, archive, folder=None, flags=()):
    """Links a test program for a target with an archive of the library. Returns its path."""
    source, out = [TESTS / (program + ".c"), TESTS / "os_libc.c"], (folder or WORK / target) / program
    out.parent.mkdir(parents=True, exist_ok=True)
    words = [*WARNINGS, *flags, "-I", ROOT / "include"]
    if target == "wasm32":
        return compiled_to_wasm(program, out)
    if target == "cortex-m4":
        words += [*BOARD, "--specs=rdimon.specs", "-nostartfiles", TESTS / "board.c", "-T", TESTS / "board.ld", "-Wl,--no-warn-rwx-segments"]
        run(["arm-none-eabi-gcc", *words, *source, archive, "-o", out])
    else:
        run([LINUX[target] + "-gcc" if target in LINUX else "gcc", *words, "-static", *source, archive, "-o", out])
    return out


def clang():
    """The kit's compiler."""
    return Path(run(["targets/kit"]).strip()) / "toolchain/bin/clang"


def compiled_to_wasm(program, out):
    """A test program that imports the library's calls and memory: its own memory starts at 1 MiB, above the library's."""
    objects = []
    for name in (program, "os_wasm"):
        objects.append(out.parent / ("%s-%s.o" % (program, name)))
        words = ["--target=wasm32", "-ffreestanding", "-fno-delete-null-pointer-checks", *WARNINGS, "-I", TESTS / "wasm", "-I", ROOT / "include"]
        run([clang(), *words, "-c", TESTS / (name + ".c"), "-o", objects[-1]])
    # one binary, which is a linker under this name; rt works in no repository that has links, so it stands outside
    with tempfile.TemporaryDirectory() as folder:
        linker = Path(folder) / "wasm-ld"
        linker.symlink_to(clang())
        run([linker, "--no-entry", "--import-memory", "--allow-undefined", "--global-base=1048576", "-z", "stack-size=65536", *objects, "-o", out])
    return out


def on(target, program, *words, wasm=None, timeout=1800):
    """The output of a program on its processor."""
    environment = dict(os.environ, **({"BLOCKTREE_WASM": str(wasm)} if wasm else {}))
    return run([TESTS / "on", target, program, *words], env=environment, stdin=subprocess.DEVNULL, timeout=timeout)


def stack_used(target, program, rounds, wasm=None):
    """The most stack in bytes that each function used, on trees of eight levels."""
    printed = on(target, program, "1", str(rounds), "stack", wasm=wasm)
    return {line.split()[0]: int(line.split()[1]) for line in printed.splitlines() if line.startswith("bt_")}

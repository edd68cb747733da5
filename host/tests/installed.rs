//! `make install` and `make uninstall`, the installed library used from C and Python, and the scripts around them.

use std::fs;
use std::path::{Path, PathBuf};
use std::process::{Command, Output};

fn repository() -> PathBuf {
    Path::new(env!("CARGO_MANIFEST_DIR")).join("..")
}

/// A folder of this test's own.
fn folder(name: &str) -> PathBuf {
    let folder = Path::new(env!("CARGO_TARGET_TMPDIR")).join(name);
    let _ = fs::remove_dir_all(&folder);
    fs::create_dir_all(&folder).expect("a folder");
    folder
}

fn output(command: &mut Command) -> Output {
    let output = command.output().unwrap_or_else(|error| panic!("{command:?}: {error}"));
    assert!(output.status.success(), "{command:?}: {}{}", String::from_utf8_lossy(&output.stdout), String::from_utf8_lossy(&output.stderr));
    output
}

/// Runs make with the tool and the archive under test. Returns its output.
fn make(root: &Path, target: &str) -> String {
    let set = |name: &str, value: &Path| format!("{name}={}", value.display());
    let values = [
        set("PREFIX", root),
        set("TOOL", Path::new(env!("CARGO_BIN_EXE_codebook"))),
        set("ARCHIVE", Path::new(env!("BLOCKTREE_ARCHIVE"))),
        set("SHARED", &root.join("built.so")),
    ];
    let done = output(Command::new("make").arg("-s").arg("-C").arg(repository()).args(values).arg(target));
    String::from_utf8_lossy(&done.stdout).into_owned()
}

/// The soname of the shared library, which has the first number of the version.
const SONAME: &str = concat!("libblocktree.so.", env!("CARGO_PKG_VERSION_MAJOR"));

/// Whether the loader must be told of an installed library; with an `ldconfig` that prints the given text.
#[test]
fn the_loader() {
    let folder = folder("loader");
    let said = |known: &str, searched: &str| {
        let script =
            format!("#!/bin/sh\ncase $1 in -p) echo '\tlibblocktree.so.1 (libc6,x86-64) => {known}' ;; *) echo '{searched}: (from x)' ;; esac\n");
        fs::write(folder.join("ldconfig"), script).expect("a file");
        fs::set_permissions(folder.join("ldconfig"), std::os::unix::fs::PermissionsExt::from_mode(0o755)).expect("permissions");
        let path = format!("{}:{}", folder.display(), std::env::var("PATH").unwrap_or_default());
        let done = output(Command::new(repository().join("host/loader")).args(["/srv/lib", "libblocktree.so.1"]).env("PATH", path));
        String::from_utf8_lossy(&done.stdout).into_owned()
    };
    assert_eq!(said("/srv/lib/libblocktree.so.1", "/srv/lib"), "");
    assert_eq!(said("/lib/libblocktree.so.1", "/srv/lib"), "run ldconfig as root, so that programs find /srv/lib/libblocktree.so.1\n");
    assert!(said("/lib/libblocktree.so.1", "/usr/srv/lib").starts_with("the loader does not search /srv/lib: "));
}

/// All files below a folder, by name.
fn files(folder: &Path) -> Vec<String> {
    let mut names = Vec::new();
    for entry in fs::read_dir(folder).expect("a folder").map(|entry| entry.expect("an entry").path()) {
        if entry.is_dir() {
            names.extend(files(&entry));
        } else {
            names.push(entry.file_name().unwrap_or_default().to_string_lossy().into_owned());
        }
    }
    names.sort();
    names
}

#[test]
fn install_and_uninstall() {
    let root = folder("installed");
    let said = make(&root, "install");
    assert!(said.starts_with(&format!("the loader does not search {}: link programs with -Wl,-rpath,", root.join("lib").display())), "{said}");
    let installed = [
        "CHANGELOG.md",
        "FORMAT.md",
        "JSON.md",
        "LICENSE",
        "README.md",
        "TOUR.md",
        "_codebook",
        "blocktree.h",
        "blocktree.magic",
        "blocktree.pc",
        "blocktree.py",
        "built.so",
        "codebook",
        "codebook",
        "codebook.1",
    ];
    let libraries = ["libblocktree.a", "libblocktree.so", SONAME, concat!("libblocktree.so.", env!("CARGO_PKG_VERSION"))];
    assert_eq!(files(&root), [installed.as_slice(), &libraries].concat());
    if let Ok(told) = Command::new("readelf").arg("-d").arg(root.join("lib/libblocktree.so")).output() {
        let told = String::from_utf8_lossy(&told.stdout).into_owned();
        assert!(told.contains(&format!("Library soname: [{SONAME}]")), "{told}");
    }
    assert!(output(Command::new(root.join("bin/codebook")).arg("--version")).stdout.starts_with(b"codebook "));
    c_program(&root);
    python_module(&root.join("share/blocktree"));
    pip_install(&root);
    make(&root, "uninstall");
    assert_eq!(files(&root), ["built.so"]);
}

/// The example in C, by the names that pkg-config gives, with the static library and with the shared one.
fn c_program(root: &Path) {
    let told = Command::new("pkg-config").args(["--cflags", "--libs", "blocktree"]).env("PKG_CONFIG_PATH", root.join("lib/pkgconfig")).output();
    let Ok(told) = told else {
        println!("pkg-config is not installed: not tried");
        return;
    };
    let flags = String::from_utf8_lossy(&told.stdout).into_owned();
    assert!(flags.contains("-lblocktree") && flags.contains("/include"), "{flags}");
    for (name, more) in [("shared", "-Wl,-rpath"), ("static", "-static")] {
        let more = if name == "shared" { format!("{more},{}", root.join("lib").display()) } else { more.to_owned() };
        let program = root.join(name);
        let source = repository().join("examples/c/read_row.c");
        output(Command::new("gcc").arg("-std=c99").arg(source).args(flags.split_whitespace()).arg(more).arg("-o").arg(&program));
        assert_eq!(output(&mut Command::new(&program)).stdout, b"text 112 bytes, tree 1060 bytes\nrow 7: CH0503 324122\n");
        fs::remove_file(program).expect("a file");
    }
}

/// The module finds the library that was installed with it.
fn python_module(path: &Path) {
    let line = "import blocktree; print(blocktree.Tree(blocktree.build(b'A 1\\nB 2\\n', 2, 2, 2)).row(2).decode())";
    match Command::new("python3").args(["-B", "-c", line]).env("PYTHONPATH", path).env_remove("BLOCKTREE_LIBRARY").output() {
        Err(_) => println!("python3 is not installed: not tried"),
        Ok(output) => assert_eq!(output.stdout, b"B 2\n", "{}", String::from_utf8_lossy(&output.stderr)),
    }
}

/// `pip install ./python` without a network gives the module and its hints; it finds the library that is installed beside the tool.
fn pip_install(root: &Path) {
    let target = folder("pip");
    let mut pip = Command::new("python3");
    pip.args(["-m", "pip"]).env("PIP_DISABLE_PIP_VERSION_CHECK", "1").env("PYTHONDONTWRITEBYTECODE", "1");
    if !Command::new("python3").args(["-m", "pip", "--version"]).output().is_ok_and(|done| done.status.success()) {
        println!("pip is not installed: not tried");
        return;
    }
    output(pip.args(["install", "--quiet", "--no-index", "--target"]).arg(&target).arg(repository().join("python")));
    assert!(target.join("blocktree/py.typed").exists());
    let line = "import blocktree; print(blocktree.__version__, blocktree.Tree(blocktree.build(b'A 1\\nB 2\\n')).row(2).decode())";
    let path = format!("{}:{}", root.join("bin").display(), std::env::var("PATH").unwrap_or_default());
    let mut python = Command::new("python3");
    python.args(["-B", "-c", line]).current_dir(&target).env("PYTHONPATH", &target).env("PATH", path).env_remove("BLOCKTREE_LIBRARY");
    assert_eq!(String::from_utf8_lossy(&output(&mut python).stdout), format!("{} B 2\n", env!("CARGO_PKG_VERSION")));
}

/// The output of file(1) for a tree, a book, and other trees.
#[test]
fn the_kind_of_file() {
    let magic = repository().join("host/share/blocktree.magic");
    let kind = |path: &str| Command::new("file").arg("-b").arg("-m").arg(&magic).arg(repository().join(path)).output();
    let Ok(told) = kind("conformance/build.txt") else {
        println!("file is not installed: not tried");
        return;
    };
    assert!(!told.stdout.starts_with(b"block tree"));
    let build = std::fs::read_to_string(repository().join("conformance/build.txt")).expect("a file");
    for tree in build.lines().filter_map(|line| line.split(" => ").nth(1)).filter(|answer| answer.starts_with("good/")) {
        let told = kind(&format!("conformance/{tree}")).expect("file").stdout;
        assert!(told.starts_with(b"block tree of layout 2, "), "{tree}: {}", String::from_utf8_lossy(&told));
    }
}

/// The module passes the public cases.
#[test]
fn python_cases() {
    let root = folder("python");
    make(&root, "shared");
    let test = repository().join("python/test_blocktree.py");
    match Command::new("python3").arg("-B").arg(test).env("BLOCKTREE_LIBRARY", root.join("built.so")).output() {
        Err(_) => println!("python3 is not installed: not tried"),
        Ok(output) => {
            let said = String::from_utf8_lossy(&output.stdout).into_owned();
            assert!(output.status.success() && said.ends_with(" cases passed\n"), "{said}{}", String::from_utf8_lossy(&output.stderr));
        }
    }
}

/// The module has the text of every refusal, and the greatest length of what list writes.
#[test]
fn python_reasons() {
    let module = fs::read_to_string(repository().join("python/blocktree.py")).expect("the module");
    for refusal in (1..).map_while(codebook::Refusal::from_number) {
        let words = refusal.to_string();
        let (_, words) = words.split_once("): ").expect("words");
        assert!(module.contains(&format!("    {}: \"{words}\",\n", refusal.number())), "{words}");
    }
    assert!(module.contains(&format!("\nLIST_LENGTH = {}\n", codebook::LIST_LENGTH)), "LIST_LENGTH");
}

/// The module's version is the tool's, and so are the settings that it tries.
#[test]
fn python_version_and_settings() {
    let module = fs::read_to_string(repository().join("python/blocktree.py")).expect("the module");
    assert!(module.contains(concat!("\n__version__ = \"", env!("CARGO_PKG_VERSION"), "\"\n")));
    assert!(module.contains(&format!("\nSHORT_LIST = {:?}\n", codebook::SHORT_LIST)));
}

/// The lists that `bench/run settings` evaluates are those of the tool.
#[test]
fn settings_of_the_benchmark() {
    let program = fs::read_to_string(repository().join("bench/settings.cpp")).expect("the program");
    for list in [&codebook::SHORT_LIST, &codebook::SMALL_LIST] {
        let written = format!("{list:?}").replace('(', "{").replace(')', "}").replace('[', "{").replace(']', "}");
        assert!(program.contains(&format!("\n    {written},\n")), "{written}");
    }
}

/// A missing program is reported at once.
#[test]
fn needs() {
    let empty = folder("no-tools");
    for tool in ["sed", "dirname", "cat", "bash", "env"] {
        let path = output(Command::new("sh").args(["-c", &format!("command -v {tool}")])).stdout;
        std::os::unix::fs::symlink(String::from_utf8_lossy(&path).trim(), empty.join(tool)).expect("a link");
    }
    let done = Command::new(repository().join("host/needs")).args(["rt", "cargo", "gcc"]).env("PATH", &empty).output().expect("a script");
    let said = String::from_utf8_lossy(&done.stderr).into_owned();
    assert_eq!(done.status.code(), Some(1), "{said}");
    for tool in ["rt", "cargo", "gcc"] {
        assert!(said.contains(&format!("{tool} is not installed: ")), "{said}");
    }
    // another version of rt is reported, and is no failure
    fs::write(empty.join("rt"), "#!/bin/sh\necho another\n").expect("a file");
    fs::set_permissions(empty.join("rt"), std::os::unix::fs::PermissionsExt::from_mode(0o755)).expect("permissions");
    let done = Command::new(repository().join("host/needs")).arg("rt").env("PATH", &empty).output().expect("a script");
    assert!(done.status.success() && done.stderr.starts_with(b"warning: rt is 'another'; "), "{done:?}");
}

/// The demo, without proving and building: its book is long and repeats itself, so that its tree is the smaller of the two.
#[test]
fn the_demo() {
    let root = folder("demo");
    for name in ["host/target/release", "tools", "books"] {
        fs::create_dir_all(root.join(name)).expect("a folder");
    }
    for name in ["demo", "toolchain", "host/needs", "host/make-archive", "host/Cargo.toml", "books/make_repeating"] {
        fs::copy(repository().join(name), root.join(name)).expect("a file");
    }
    std::os::unix::fs::symlink(env!("CARGO_BIN_EXE_codebook"), root.join("host/target/release/codebook")).expect("a link");
    fs::write(root.join("tools/cargo"), "#!/bin/sh\n").expect("a file");
    fs::set_permissions(root.join("tools/cargo"), std::os::unix::fs::PermissionsExt::from_mode(0o755)).expect("permissions");
    let path = format!("{}:{}", root.join("tools").display(), std::env::var("PATH").unwrap_or_default());
    let done = output(Command::new(root.join("demo")).env("PATH", path).env("BLOCKTREE_ARCHIVE", env!("BLOCKTREE_ARCHIVE")));
    let said = String::from_utf8_lossy(&done.stdout).into_owned();
    assert!(said.ends_with("\nthe tree's text is the book\n"), "{said}");
    let size = |name: &str| fs::metadata(root.join("target").join(name)).expect("a file").len();
    assert!(size("repeating.txt") >= 256 * 1024 && size("repeating.tree") < size("repeating.txt"), "{said}");
    assert!(!String::from_utf8_lossy(&done.stderr).contains("warning: the tree is no smaller"), "{said}");
}

/// Only crates that changed are proved again; tested with an `rt` that records its calls.
#[test]
fn the_archive_is_made_of_the_present_crates() {
    let root = folder("archive");
    for name in ["host", "targets", "tools", "crates/abi", "crates/abi_c"] {
        fs::create_dir_all(root.join(name)).expect("a folder");
    }
    for name in ["host/make-archive", "targets/below"] {
        fs::copy(repository().join(name), root.join(name)).expect("the script");
    }
    fs::write(root.join("crates.txt"), "text:\nabi: text # the calls\nabi_c staticlib: abi\nother: abi\n").expect("a file");
    fs::write(root.join("crates/abi/source"), "1").expect("a file");
    // `rt lib` is called in the folder of abi_c
    let rt = "#!/bin/sh\n[ \"$1\" = version ] && exec echo one\necho proved >> ../../calls\n[ -e ../../fails ] && { echo no proof; exit 1; }\n\
              echo 'rt: chose --jobs 2 for text'; echo 'fn text::f: proved'; sleep 2; echo 'rt: chose --jobs 2 for abi'; echo 'rt: chose --jobs 2 for abi_c'\n\
              mkdir -p out && cp ../abi/source out/libabi_c.a\n";
    fs::write(root.join("tools/rt"), rt).expect("a file");
    fs::set_permissions(root.join("tools/rt"), std::os::unix::fs::PermissionsExt::from_mode(0o755)).expect("permissions");
    let path = format!("{}:{}", root.join("tools").display(), std::env::var("PATH").unwrap_or_default());
    let run = || Command::new(root.join("host/make-archive")).env("PATH", &path).env_remove("BLOCKTREE_ARCHIVE").output().expect("the script");
    let calls = || fs::read_to_string(root.join("calls")).unwrap_or_default().lines().count();
    let archive = || fs::read_to_string(root.join("target/libblocktree.a")).unwrap_or_default();
    let said = String::from_utf8_lossy(&run().stderr).into_owned();
    // a line for each crate, with the time so far, where there is no terminal too
    let said: Vec<&str> = said.lines().map(|line| line.trim_start_matches([' ', '0', '1', '2', '3', '4', '5', '6', '7', '8', '9'])).collect();
    assert_eq!(said.len(), 5, "{said:?}");
    assert!(said[0].starts_with("proving the library, 3 crates: this takes long the first time"), "{said:?}");
    assert_eq!(said[1..4], ["s   1 of 3  text", "s   2 of 3  abi", "s   3 of 3  abi_c"]);
    assert!(said[4].starts_with("the library is proved: 3 crates, "), "{said:?}");
    assert!(run().stderr.is_empty());
    assert_eq!((calls(), archive()), (1, "1".to_owned()));
    fs::write(root.join("crates/abi/source"), "2").expect("a file");
    assert!(run().status.success());
    assert_eq!((calls(), archive()), (2, "2".to_owned()));
    fs::write(root.join("crates/abi/source"), "3").expect("a file");
    fs::write(root.join("fails"), "").expect("a file");
    let failed = run();
    assert!(!failed.status.success() && String::from_utf8_lossy(&failed.stderr).ends_with("no proof\n"), "{failed:?}");
}

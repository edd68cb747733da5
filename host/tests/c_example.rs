//! The C header and the example in C, compiled with gcc and run.

use std::path::{Path, PathBuf};
use std::process::{Command, Output};

const ARCHIVE: &str = env!("BLOCKTREE_ARCHIVE");
const STRICT: [&str; 4] = ["-pedantic", "-Wall", "-Wextra", "-Werror"];

fn repository() -> PathBuf {
    Path::new(env!("CARGO_MANIFEST_DIR")).join("..")
}

fn output(command: &mut Command) -> Output {
    let output = command.output().unwrap_or_else(|error| panic!("{command:?}: {error}"));
    assert!(output.status.success(), "{command:?}: {}", String::from_utf8_lossy(&output.stderr));
    output
}

/// The output of an example, compiled without a warning. It is the same as C and as C++.
fn printed(example: &str) -> String {
    let printed: Vec<String> = standards().into_iter().map(|standard| printed_by(standard, example)).collect();
    assert!(printed.iter().all(|text| *text == printed[0]), "{printed:?}");
    printed[0].clone()
}

fn printed_by(standard: &str, example: &str) -> String {
    run(standard, &repository().join(format!("examples/c/{example}.c")))
}

/// The output of a program, compiled by a standard of C or of C++.
fn run(standard: &str, source: &Path) -> String {
    let (compiler, language) = if standard.contains("++") { ("g++", "c++") } else { ("gcc", "c") };
    let name = format!("{}-{}", source.file_stem().unwrap_or_default().to_string_lossy(), &standard[5..]);
    let program = Path::new(env!("CARGO_TARGET_TMPDIR")).join(name);
    output(
        Command::new(compiler)
            .args([standard, "-x", language])
            .args(STRICT)
            .arg("-I")
            .arg(repository().join("include"))
            .arg(source)
            .args(["-x", "none"])
            .arg(ARCHIVE)
            .arg("-o")
            .arg(&program),
    );
    String::from_utf8_lossy(&output(&mut Command::new(program)).stdout).into_owned()
}

/// The standards of C, and of C++ where its compiler is installed.
fn standards() -> Vec<&'static str> {
    match Command::new("g++").arg("--version").output() {
        Ok(_) => vec!["-std=c99", "-std=c++11"],
        Err(_) => {
            println!("g++ is not installed: not tried");
            vec!["-std=c99"]
        }
    }
}

/// The output of a program that a test writes.
fn run_text(standard: &str, name: &str, text: &str) -> String {
    let source = Path::new(env!("CARGO_TARGET_TMPDIR")).join(format!("{name}.c"));
    std::fs::write(&source, format!("#include <stdio.h>\n#include \"blocktree.h\"\n{text}")).expect("a file");
    run(standard, &source)
}

#[test]
fn reads_a_row() {
    assert_eq!(printed("read_row"), "text 112 bytes, tree 1060 bytes\nrow 7: CH0503 324122\n");
}

#[test]
fn builds_with_one_scan_a_level() {
    assert_eq!(printed("build_scanned"), "table of 56 words, 470 windows looked up\nboth trees are the same\n");
}

#[test]
fn checks_a_digest() {
    assert_eq!(printed("check_digest"), "the tree of 1060 bytes is of the printed text\nanother text is found out\n");
}

/// The header's text for each refusal is that of the tool.
#[test]
fn texts_of_refusals() {
    let program = "int main(void) { for (uint32_t n = 0; n <= 99; n++) printf(\"%s\\n\", bt_refusal_text(n)); return 0; }\n";
    for standard in standards() {
        let printed = run_text(standard, "texts_of_refusals", program);
        for (number, line) in (0..).zip(printed.lines()) {
            match codebook::Refusal::from_number(number) {
                Some(refusal) => assert_eq!(format!("refused ({number}): {line}"), refusal.to_string()),
                None => assert_eq!(line, if number == 0 { "not refused" } else { "a number that this header does not know" }),
            }
        }
        assert_eq!(printed.lines().count(), 100);
    }
}

/// BT_MAX_TREE is the largest size that bt_size_bound returns over all settings, and is that of the longest text.
#[test]
fn the_largest_tree() {
    let program = "\
int main(void)
{
    uint64_t largest = 0, size, shorter;
    for (uint32_t leaf = 1; leaf <= BT_MAX_LEAF; leaf++)
        for (uint32_t arity = BT_MIN_ARITY; arity <= BT_MAX_ARITY; arity++)
            for (uint32_t levels = 1; levels <= BT_MAX_LEVELS; levels++)
                for (uint32_t counted = 0; counted <= BT_MAX_COUNTED; counted++) {
                    if (bt_size_bound(BT_MAX_TEXT, leaf, arity, levels, counted, &size) != BT_OK) continue;
                    if (bt_size_bound(BT_MAX_TEXT - 1, leaf, arity, levels, counted, &shorter) != BT_OK || shorter > size) return 1;
                    if (size > largest) largest = size;
                }
    printf(\"%d\\n\", largest == BT_MAX_TREE);
    printf(\"%lu\\n\", (unsigned long)BT_MAX_TREE);
    return 0;
}
";
    for standard in standards() {
        assert_eq!(run_text(standard, "the_largest_tree", program), format!("1\n{}\n", codebook::MAX_TREE));
    }
}

/// Each call's stack is as small as README.md says.
#[test]
fn stack_use() {
    for standard in standards() {
        let lines = printed_by(&standard.replace("=c", "=gnu"), "stack_use");
        assert!(lines.lines().count() > 25);
        for line in lines.lines() {
            let bytes: usize = line.split_whitespace().nth(1).and_then(|word| word.parse().ok()).expect("a number");
            assert!(bytes <= 4096, "{line}");
        }
    }
}

/// The symbols that the archive needs are those that README.md names.
#[test]
fn symbols_needed() {
    let listed = output(Command::new("nm").args(["--undefined-only", "--format=posix", ARCHIVE]));
    let listed = String::from_utf8_lossy(&listed.stdout).into_owned();
    let needed: Vec<&str> = listed.lines().filter_map(|line| line.split_once(" U").map(|(name, _)| name)).collect();
    assert!(!needed.is_empty() && needed.iter().all(|name| ["memcpy", "memset"].contains(name)), "{listed}");
}

/// Every length has 64 bits, whatever the processor: in the header, in the declarations for Rust and in the Python module.
#[test]
fn lengths_have_64_bits() {
    let read = |name: &str| std::fs::read_to_string(repository().join(name)).expect("a file");
    let header = read("include/blocktree.h");
    assert!(!header.contains("size_t"), "a length of the processor's own width is left in the header");
    let lengths: Vec<&str> = header.split([',', '(', ')']).map(str::trim).filter(|word| word.contains(' ') && word.ends_with("_len")).collect();
    assert!(lengths.len() > 40 && lengths.iter().all(|word| word.starts_with("uint64_t ")), "{lengths:?}");
    let calls = read("host/src/calls.rs");
    let declared = calls.split("mod declared {").nth(1).and_then(|rest| rest.split("\n}\n").next()).expect("the declarations");
    assert!(declared.contains("text_len: u64") && !declared.contains("usize"), "{declared}");
    assert!(!read("python/blocktree.py").contains("c_size_t"));
}

/// The header alone, as C99 and as C++.
#[test]
fn header_compiles() {
    for (compiler, language, standard) in [("gcc", "c", "-std=c99"), ("g++", "c++", "-std=c++11")] {
        if Command::new(compiler).arg("--version").output().is_err() {
            println!("{compiler} is not installed: not tried");
            continue;
        }
        output(
            Command::new(compiler)
                .args([standard, "-x", language, "-fsyntax-only"])
                .args(STRICT)
                .args(["-include", "blocktree.h", "-I"])
                .arg(repository().join("include"))
                .arg("/dev/null"),
        );
    }
}

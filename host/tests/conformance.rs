//! The files of conformance/ are those that the script makes from the cases, and the tool and the Python module pass them.

use std::path::{Path, PathBuf};
use std::process::Command;

fn repository() -> PathBuf {
    Path::new(env!("CARGO_MANIFEST_DIR")).join("..")
}

/// The output of a script of the folder, which must succeed; None without Python.
fn script(name: &str, words: &[&str], library: &Path) -> Option<String> {
    let tools = Path::new(env!("CARGO_BIN_EXE_codebook")).parent().expect("a folder");
    let path = format!("{}:{}", tools.display(), std::env::var("PATH").unwrap_or_default());
    let script = repository().join("conformance").join(name);
    let done = Command::new("python3").arg("-B").arg(script).args(words).env("PATH", path).env("BLOCKTREE_LIBRARY", library).output();
    let Ok(done) = done else {
        println!("python3 is not installed: not tried");
        return None;
    };
    let said = String::from_utf8_lossy(&done.stdout).into_owned();
    assert!(done.status.success(), "{said}{}", String::from_utf8_lossy(&done.stderr));
    Some(said)
}

#[test]
fn files_are_current() {
    if let Some(said) = script("make.py", &["--check"], Path::new("")) {
        assert_eq!(said, "");
    }
}

#[test]
fn the_tool_passes() {
    let build = "codebook build {book} -q -o {tree} --leaf {leaf} --arity {arity} --levels {levels} --count {counted_hex}";
    if let Some(said) = script("run.py", &["--build", build, "--check", "codebook check -q {tree}"], Path::new("")) {
        assert!(said.ends_with(" cases, 0 wrong\n") && said.len() > 18, "{said}");
    }
}

#[test]
fn the_module_passes() {
    let library = Path::new(env!("CARGO_TARGET_TMPDIR")).join("conformance.so");
    let set = [format!("ARCHIVE={}", env!("BLOCKTREE_ARCHIVE")), format!("SHARED={}", library.display())];
    assert!(Command::new("make").arg("-s").arg("-C").arg(repository()).args(set).arg("shared").status().expect("make").success());
    if let Some(said) = script("run.py", &["--ask", "python3 -B ../python/answer.py", "--refused"], &library) {
        assert!(said.ends_with(" cases, 0 wrong\n"), "{said}");
    }
}

/// run.py with these arguments: its status and both outputs. None without Python.
fn run(words: &[&str]) -> Option<(Option<i32>, String, String)> {
    let done = Command::new("python3").arg("-B").arg(repository().join("conformance/run.py")).args(words).output().ok()?;
    Some((done.status.code(), String::from_utf8_lossy(&done.stdout).into_owned(), String::from_utf8_lossy(&done.stderr).into_owned()))
}

/// A missing command is named and is not counted as a wrong case.
#[test]
fn a_missing_command() {
    for option in ["--build", "--check", "--ask"] {
        if let Some((status, printed, said)) = run(&[option, "no-such-command {tree}"]) {
            assert_eq!((status, printed.as_str()), (Some(2), ""), "{option}: {said}");
            assert!(said.starts_with("run.py: the command 'no-such-command' cannot be run: No such file or directory; "), "{option}: {said}");
        }
    }
    if let Some((status, _, said)) = run(&["--check", "true {book}"]) {
        assert_eq!((status, said.as_str()), (Some(2), "run.py: 'true {book}' has a brace that begins none of the placeholders {tree}\n"));
    }
}

/// For a wrong case the builder's output is shown; cases that are not shown are counted; the refusal's number is compared.
#[test]
fn wrong_cases_are_reported() {
    let refusals = |text: &str, number: u32| text.lines().filter(|line| line.ends_with(&format!(" => {number}, not refused 2"))).count();
    let Some((status, printed, _)) = run(&["--build", "sh -c 'echo mybuild: refused 2 >&2; exit 1'", "--all"]) else { return };
    assert_eq!((status, refusals(&printed, 2)), (Some(1), 0));
    assert!(refusals(&printed, 3) > 0 && printed.contains("not refused 2\n    mybuild: refused 2\n"), "{printed}");
    let wrong = printed.lines().filter(|line| line.contains(" => ")).count();
    assert!(wrong > 20 && printed.ends_with(&format!(" cases, {wrong} wrong\n")));
    let Some((_, printed, _)) = run(&["--build", "sh -c 'echo mybuild: refused 2 >&2; exit 1'"]) else { return };
    assert_eq!(printed.lines().filter(|line| line.contains(" => ")).count(), 20);
    assert!(printed.contains(&format!("\n{} more are not shown; --all shows them\n", wrong - 20)), "{printed}");
    // a status counts as a number; a check's number is compared if it is printed
    let Some((_, printed, _)) = run(&["--build", "sh -c 'exit 2'", "--all"]) else { return };
    assert!(!printed.contains(" => 2, not") && printed.contains(" => 3, not status 2\n"), "{printed}");
    let Some((_, printed, _)) = run(&["--check", "sh -c 'echo refused 8; exit 1'", "--all"]) else { return };
    assert!(!printed.contains(" => 8, not") && printed.contains(" => 9, not refused 8\n") && printed.contains(" => 0, not refused 8\n"), "{printed}");
}

/// A check that accepts everything, and a reader that returns nothing, do not pass.
#[test]
fn others_do_not_pass() {
    let run = |words: &[&str]| Command::new("python3").arg("-B").arg(repository().join("conformance/run.py")).args(words).output();
    for words in [["--check", "true"], ["--check", "false"], ["--ask", "true"], ["--build", "true"]] {
        if let Ok(done) = run(&words) {
            assert_eq!(done.status.code(), Some(1), "{words:?}");
        }
    }
}

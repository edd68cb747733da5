//! The manual page and the completions in the repository are those that the tool prints from its table, and help has all that they have.

#[path = "support/folder.rs"]
mod folder;

use folder::Folder;
use std::fs;
use std::path::Path;
use std::process::Command;

fn kept(name: &str) -> String {
    fs::read_to_string(Path::new(env!("CARGO_MANIFEST_DIR")).join(name)).expect("a file")
}

/// `host/generate` writes these files.
#[test]
fn files_are_current() {
    let folder = Folder::new("generated");
    for (words, file) in [("manual", "share/codebook.1"), ("completion bash", "share/codebook.bash"), ("completion zsh", "share/_codebook")] {
        assert_eq!(folder.run(words).succeeds().printed(), kept(file), "{file}: run host/generate");
    }
    folder.run("completion fish").status(2);
}

/// Runs a script of `docs/`, which must succeed.
fn script_succeeds(script: &str, option: &str) {
    let path = Path::new(env!("CARGO_MANIFEST_DIR")).join("../docs").join(script);
    match Command::new("python3").arg(path).arg(option).output() {
        Err(_) => println!("python3 is not installed: not tried"),
        Ok(output) => assert!(output.status.success(), "{}", String::from_utf8_lossy(&output.stderr)),
    }
}

/// The drawings and tables are those that their scripts make, what comments and documents cite exists, and the crates keep the conventions.
#[test]
fn drawings_tables_citations_and_conventions() {
    for script in ["drawings/draw.py", "lines.py", "check_citations.py", "check_conventions.py", "check_names.py"] {
        script_succeeds(script, "--check");
    }
}

/// The script that reads why must-fail edits were refused accepts samples of false facts, and no sample of a proof file that does not fit.
#[test]
fn first_errors_are_distinguished() {
    script_succeeds("must_fail_logs.py", "--self-test");
}

/// Each command and option of the help is in the page and in both completions.
#[test]
fn nothing_is_missing() {
    let folder = Folder::new("named");
    let overview = folder.run("--help").printed();
    let files = ["share/codebook.1", "share/codebook.bash", "share/_codebook"].map(kept);
    for command in overview.lines().filter(|line| line.starts_with("  ")).map(|line| line[2..17].trim_end()) {
        let help = folder.run(&format!("help {command}")).printed();
        let options: Vec<&str> = help.split([' ', '\n', ',']).filter(|word| word.starts_with("--") && word.len() > 2).collect();
        assert!(options.contains(&"--help"));
        for file in &files {
            let page = file.replace("\\-", "-");
            assert!(command.split(' ').all(|word| page.contains(word)), "{command}");
            assert!(options.iter().all(|option| page.contains(option.trim_matches(['[', ']', ';', '.']))), "{command}: {options:?}");
        }
    }
}

/// A shell, or groff, accepts its file, if it is installed.
fn accepted(program: &str, words: &[&str], file: &str) {
    let path = Path::new(env!("CARGO_MANIFEST_DIR")).join(file);
    match Command::new(program).args(words).arg(path).output() {
        Err(_) => println!("{program} is not installed: not tried"),
        Ok(output) => assert!(output.status.success() && output.stderr.is_empty(), "{file}: {}", String::from_utf8_lossy(&output.stderr)),
    }
}

#[test]
fn shells_and_groff_accept_them() {
    accepted("bash", &["-n"], "share/codebook.bash");
    accepted("zsh", &["-n"], "share/_codebook");
    accepted("groff", &["-man", "-Tutf8", "-ww", "-z"], "share/codebook.1");
}

/// The completions that bash offers.
#[test]
fn bash_completes() {
    let script = Path::new(env!("CARGO_MANIFEST_DIR")).join("share/codebook.bash");
    let offered = |words: &[&str]| {
        let list = words.iter().map(|word| format!("'{word}'")).collect::<Vec<_>>().join(" ");
        let line =
            format!("source '{}'; COMP_WORDS=({list}); COMP_CWORD={}; _codebook; echo \"${{COMPREPLY[*]}}\"", script.display(), words.len() - 1);
        let output = Command::new("bash").args(["-c", &line]).output().expect("bash");
        String::from_utf8_lossy(&output.stdout).trim_end().to_owned()
    };
    assert_eq!(offered(&["codebook", "so"]), "sort");
    assert_eq!(offered(&["codebook", "licence", ""]), "open left renew");
    assert_eq!(offered(&["codebook", "row", "--g"]), "--guide");
    assert_eq!(offered(&["codebook", "guide", "make", "--f"]), "--force");
    assert_eq!(offered(&["codebook", "completion", ""]), "bash zsh");
    assert_eq!(offered(&["codebook", "row", "1"]), "");
}

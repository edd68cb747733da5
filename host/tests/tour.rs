//! Runs the commands of README.md, docs/TOUR.md and docs/JSON.md and compares their output with the page.

use std::fs;
use std::os::unix::fs::symlink;
use std::path::Path;
use std::process::Command;

#[test]
fn the_first_tour_prints_what_it_says() {
    assert!(compared("README.md", "first-tour") > 10);
    in_python(&Path::new(env!("CARGO_TARGET_TMPDIR")).join("first-tour"));
}

#[test]
fn the_tour_prints_what_it_says() {
    assert!(compared("docs/TOUR.md", "tour") > 40);
}

/// The page's lines of Python, after `>>>`, in the folder of the tour.
fn in_python(folder: &Path) {
    let repository = Path::new(env!("CARGO_MANIFEST_DIR")).join("..");
    let library = folder.join("libblocktree.so");
    let set = [format!("ARCHIVE={}", env!("BLOCKTREE_ARCHIVE")), format!("SHARED={}", library.display())];
    assert!(Command::new("make").arg("-s").arg("-C").arg(&repository).args(set).arg("shared").status().expect("make").success());
    let line = "import doctest, sys; failed, tried = doctest.testfile(sys.argv[1], module_relative=False); sys.exit(failed or not tried)";
    let mut python = Command::new("python3");
    python.args(["-B", "-c", line]).arg(repository.join("README.md")).current_dir(folder);
    match python.env("PYTHONPATH", repository.join("python")).env("BLOCKTREE_LIBRARY", library).output() {
        Err(_) => println!("python3 is not installed: not tried"),
        Ok(output) => assert!(output.status.success(), "{}{}", String::from_utf8_lossy(&output.stdout), String::from_utf8_lossy(&output.stderr)),
    }
}

#[test]
fn objects_are_as_described() {
    assert!(compared("docs/JSON.md", "objects") > 20);
}

/// Runs a page's commands in a folder that looks like the repository after `./demo`. Returns their number.
fn compared(page: &str, folder: &str) -> usize {
    let repository = Path::new(env!("CARGO_MANIFEST_DIR")).join("..");
    let folder = Path::new(env!("CARGO_TARGET_TMPDIR")).join(folder);
    let _ = fs::remove_dir_all(&folder);
    fs::create_dir_all(folder.join("target")).expect("a folder");
    for name in ["books", "include", "examples"] {
        symlink(repository.join(name), folder.join(name)).expect("a link");
    }
    symlink(env!("BLOCKTREE_ARCHIVE"), folder.join("target/libblocktree.a")).expect("a link");
    let tool = Path::new(env!("CARGO_BIN_EXE_codebook")).parent().expect("a folder");
    let path = format!("{}:{}", tool.display(), std::env::var("PATH").unwrap_or_default());

    let page = fs::read_to_string(repository.join(page)).expect("the page");
    let commands = commands(&page);
    for (command, printed) in &commands {
        let line = format!("{{ {command}\n}} 2>&1");
        let output = Command::new("sh").arg("-c").arg(line).current_dir(&folder).env("PATH", &path).output().expect("a shell");
        assert_eq!(String::from_utf8_lossy(&output.stdout), *printed, "{command}");
    }
    commands.len()
}

/// The commands of the page, indented lines after `$ `, each with the indented lines that follow.
fn commands(page: &str) -> Vec<(&str, String)> {
    let mut commands: Vec<(&str, String)> = Vec::new();
    let mut open = false;
    for line in page.lines() {
        match line.strip_prefix("    ") {
            Some(code) => match (code.strip_prefix("$ "), commands.last_mut()) {
                (Some(command), _) => {
                    commands.push((command, String::new()));
                    open = true;
                }
                (None, Some((_, printed))) if open => {
                    printed.push_str(code);
                    printed.push('\n');
                }
                _ => {}
            },
            None => open = false,
        }
    }
    commands
}

//! Runs the tool in a folder of its own for each test: its output and its status.
#![allow(dead_code)] // each test uses a part

use std::fs;
use std::io::Write;
use std::path::{Path, PathBuf};
use std::process::{Command, Output, Stdio};

/// The book that ships with the repository.
fn book() -> PathBuf {
    Path::new(env!("CARGO_MANIFEST_DIR")).join("../books/small.txt")
}

/// A number with separated thousands, as the tool prints it.
pub fn grouped(number: usize) -> String {
    match number {
        0..=999 => number.to_string(),
        _ => format!("{},{:03}", grouped(number / 1000), number % 1000),
    }
}

/// A folder for one test, with the book and its tree in it.
pub struct Folder(pub PathBuf);

impl Folder {
    pub fn new(name: &str) -> Self {
        let path = Path::new(env!("CARGO_TARGET_TMPDIR")).join(name);
        let _ = fs::remove_dir_all(&path);
        fs::create_dir_all(&path).expect("a folder");
        fs::copy(book(), path.join("small.txt")).expect("the book");
        Folder(path)
    }

    pub fn with_tree(name: &str) -> Self {
        let folder = Folder::new(name);
        folder.run("build small.txt -o small.tree").succeeds();
        folder
    }

    /// The tool, called in this folder.
    pub fn tool(&self) -> Command {
        let mut tool = Command::new(env!("CARGO_BIN_EXE_codebook"));
        tool.current_dir(&self.0);
        tool
    }

    /// A line of a shell that calls the tool as `codebook`.
    pub fn shell(&self, line: &str) -> Done {
        let tools = Path::new(env!("CARGO_BIN_EXE_codebook")).parent().expect("a folder");
        let path = format!("{}:{}", tools.display(), std::env::var("PATH").unwrap_or_default());
        let output = Command::new("sh").args(["-c", line]).current_dir(&self.0).env("PATH", path).output().expect("a shell");
        Done { words: line.to_owned(), output }
    }

    /// The names of all files.
    pub fn names(&self) -> Vec<String> {
        let entries = fs::read_dir(&self.0).expect("a folder");
        let mut names: Vec<String> = entries.map(|entry| entry.expect("a file").file_name().to_string_lossy().into_owned()).collect();
        names.sort();
        names
    }

    /// Runs the tool with arguments separated by spaces, and nothing on standard input.
    pub fn run(&self, words: &str) -> Done {
        self.pipe(words, b"")
    }

    pub fn pipe(&self, words: &str, input: &[u8]) -> Done {
        let mut child = self
            .tool()
            .args(words.split_whitespace())
            .stdin(Stdio::piped())
            .stdout(Stdio::piped())
            .stderr(Stdio::piped())
            .spawn()
            .expect("the tool starts");
        // a tool that stops early closes its end
        let mut stdin = child.stdin.take().expect("a pipe");
        let input = input.to_vec();
        let writer = std::thread::spawn(move || {
            let _ = stdin.write_all(&input);
        });
        let output = child.wait_with_output().expect("the tool ends");
        writer.join().expect("the input is written");
        Done { words: words.to_owned(), output }
    }

    pub fn read(&self, name: &str) -> Vec<u8> {
        fs::read(self.0.join(name)).expect("a file")
    }

    pub fn write(&self, name: &str, bytes: &[u8]) {
        fs::write(self.0.join(name), bytes).expect("a file");
    }
}

pub struct Done {
    words: String,
    pub output: Output,
}

impl Done {
    pub fn status(&self, status: i32) -> &Self {
        assert_eq!(self.output.status.code(), Some(status), "{}: {}", self.words, self.errors());
        self
    }

    pub fn succeeds(&self) -> &Self {
        self.status(0)
    }

    pub fn prints(&self, text: &str) -> &Self {
        assert_eq!(String::from_utf8_lossy(&self.output.stdout), text, "{}", self.words);
        self
    }

    pub fn says(&self, text: &str) -> &Self {
        assert_eq!(self.errors(), text, "{}", self.words);
        self
    }

    pub fn printed(&self) -> String {
        String::from_utf8_lossy(&self.output.stdout).into_owned()
    }

    pub fn errors(&self) -> String {
        String::from_utf8_lossy(&self.output.stderr).into_owned()
    }
}

//! The tool stopped half way, on file systems with and without nameless files.
#![allow(dead_code)] // each test uses a part

use super::folder::Folder;
use std::fs;
use std::os::unix::process::CommandExt;
use std::process::{Child, Stdio};
use std::time::{Duration, Instant};

/// Runs a test as on file systems with nameless files, and as on those without.
pub fn both_ways(test: impl Fn(&str, &str)) {
    test("", "nameless");
    test("CODEBOOK_NAMED=1 ", "named");
}

extern "C" {
    /// signal(2); 0 is the default action.
    #[link_name = "signal"]
    fn default_action(number: i32, action: usize) -> usize;
}

/// The tool, waiting for its book, which comes from a pipe; its output has been made ready by then.
pub fn waiting(folder: &Folder, named: bool, words: &str) -> Child {
    let child = started(folder, named, words);
    wait_until_ready(folder, &child, named, 1);
    child
}

/// The tool at work, with pipes.
pub fn started(folder: &Folder, named: bool, words: &str) -> Child {
    let mut tool = folder.tool();
    if named {
        tool.env("CODEBOOK_NAMED", "1");
    }
    let tool = tool.args(words.split_whitespace()).stdin(Stdio::piped()).stdout(Stdio::piped()).stderr(Stdio::piped());
    // what runs under nohup or in the background ignores some signals, and so would the tool
    // SAFETY: signal(2) may be called between fork and exec, and takes plain numbers
    unsafe {
        tool.pre_exec(|| {
            for number in [1, 2, 3, 15] {
                default_action(number, 0);
            }
            Ok(())
        })
    };
    tool.spawn().expect("the tool starts")
}

/// Waits until the tool has opened this many files for writing.
pub fn wait_until_ready(folder: &Folder, child: &Child, named: bool, files: usize) {
    let start = Instant::now();
    let ready = || match named {
        true => folder.names().iter().filter(|name| name.starts_with(".codebook-")).count(),
        // its nameless files are among those that it has open
        false => fs::read_dir(format!("/proc/{}/fd", child.id())).map_or(0, |open| {
            let nameless = |path: std::path::PathBuf| fs::read_link(path).is_ok_and(|path| path.to_string_lossy().contains("deleted"));
            open.filter(|file| file.as_ref().is_ok_and(|file| nameless(file.path()))).count()
        }),
    };
    while ready() < files {
        assert!(start.elapsed() < Duration::from_secs(60), "the output is made ready before the book is read");
        std::thread::sleep(Duration::from_millis(5));
    }
}

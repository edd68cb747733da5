//! The messages for wrong calls, and the width of the help.

#[path = "support/folder.rs"]
mod folder;

use folder::Folder;

/// The first line of the message; the status must be 2.
fn says(folder: &Folder, words: &str, line: &str) {
    let done = folder.run(words);
    done.status(2).prints("");
    assert_eq!(done.errors().lines().next(), Some(format!("codebook: {line}").as_str()), "{words}");
}

#[test]
fn help_fits_80_columns() {
    let folder = Folder::new("columns-of-help");
    let overview = folder.run("--help").succeeds().printed();
    let commands: Vec<&str> = overview.lines().filter(|line| line.starts_with("  ")).map(|line| line[2..17].trim_end()).collect();
    assert!(commands.len() >= 30);
    let helps = commands.iter().map(|command| folder.run(&format!("help {command}")).succeeds().printed());
    for line in helps.chain([overview.clone()]).flat_map(|help| help.lines().map(str::to_owned).collect::<Vec<_>>()) {
        assert!(line.chars().count() <= 80, "{line}");
    }
}

#[test]
fn suggestions() {
    let folder = Folder::with_tree("meant");
    says(&folder, "biuld small.txt", "there is no command 'biuld'; did you mean 'build'?");
    says(&folder, "stat small.tree", "there is no command 'stat'; did you mean 'stats'?");
    says(&folder, "help chek", "there is no command 'chek'; did you mean 'check'?");
    says(&folder, "license left 20240101", "there is no command 'license'; did you mean 'licence'?");
    says(&folder, "print small.tree", "there is no command 'print'; see codebook --help");
    says(&folder, "shelf small.tree", "there is no command 'shelf'; since version 2 it is 'sort'; see codebook help sort");
    says(&folder, "worn 12 13 small.tree", "there is no command 'worn'; since version 2 it is 'match'; see codebook help match");
    says(&folder, "build small.txt --lef 4", "there is no option '--lef'; did you mean '--leaf'?");
    says(&folder, "row 1 small.tree --guid=x", "there is no option '--guid'; did you mean '--guide'?");
    says(&folder, "row 1 small.tree --xyzzy", "there is no option '--xyzzy'");
}

/// An equals sign after a short option would be a part of the file's name.
#[test]
fn an_equals_sign_after_a_short_option() {
    let folder = Folder::new("equals");
    says(&folder, "build small.txt -o=x.tree", "write -o x.tree or --output=x.tree, not -o=x.tree");
    says(&folder, "build small.txt -fo=x.tree", "write -o x.tree or --output=x.tree, not -o=x.tree");
    assert_eq!(folder.names(), ["small.txt"]);
    folder.run("build small.txt -q -ox.tree").succeeds();
    folder.run("build small.txt -q --output=y=z.tree").succeeds();
    assert_eq!(folder.names(), ["small.txt", "x.tree", "y=z.tree"]);
}

#[test]
fn folders() {
    let folder = Folder::with_tree("folders");
    for words in [
        "build .",
        "check .",
        "row 1 .",
        "text .",
        "verify . small.tree",
        "guide make .",
        "to-columns 14 .",
        "slim .",
        "digest .",
        "code CH0501 .",
        "import .",
        "diff . small.tree",
    ] {
        says(&folder, words, ".: is a directory, not a file");
    }
    for words in ["guide make small.tree -o .", "picture small.tree -f -o .", "import small.txt -o ."] {
        says(&folder, words, ".: is a directory, not a file");
    }
    for words in ["build small.txt small.tree -o none", "slim small.tree other.tree -o none"] {
        says(&folder, words, "several files need a folder after -o, and 'none' is none");
    }
}

/// The message has the given value and what is allowed.
#[test]
fn values_and_bounds() {
    let folder = Folder::with_tree("bounds");
    let refused = |words: &str, ending: &str| {
        let done = folder.run(words);
        assert!(done.status(1).errors().ends_with(&format!("{ending}\n")), "{words}: {}", done.errors());
    };
    let tree = folder.read("small.tree");
    folder.write("short.tree", &tree[..5000]);
    folder.write("long.tree", &[tree.as_slice(), b"more"].concat());
    refused("check short.tree", "; it has 5,000 bytes, and by its header 5,680");
    refused("check long.tree", "; it has 5,684 bytes, and by its header 5,680");
    refused("check small.txt", "; its layout is 892356675");
    folder.write("half.guide", &[0; 8]);
    refused("guide check half.guide small.tree", "; it has 8 bytes, and the tree's guide 16");
    refused("row 1 small.tree --guide half.guide", "; it has 8 bytes, and the tree's guide 16");
    says(&folder, "verify small.txt small.tree small.txt", "each BOOK is followed by its TREE; 3 files are given");
    says(&folder, "byte 1 small.tree 3", "unexpected argument '3'");
    says(&folder, "places a\\qb small.tree", "a backslash begins \\n, \\r, \\t, \\\\ or \\xHH, a byte in hexadecimal, not '\\qb'");
}

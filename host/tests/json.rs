//! `--json`: every command prints objects, wrong calls and failures too, and a member of one name has one type everywhere.

#[path = "support/folder.rs"]
mod folder;
#[path = "support/json.rs"]
mod json;

use folder::{Done, Folder};
use json::Json;
use std::collections::BTreeMap;

/// The objects, one to a line.
fn objects(lines: &str) -> Vec<Json> {
    let parsed = |line: &str| Json::parse(line).unwrap_or_else(|why| panic!("{why}: {line}"));
    let objects: Vec<Json> = lines.lines().map(parsed).collect();
    assert!(objects.iter().all(|object| object.kind() == "object" && *object != Json::Object(Vec::new())), "{lines}");
    objects
}

/// A folder with a book, its tree and guide, a tree by columns, one that is damaged and one that is closed.
fn shelf(name: &str) -> Folder {
    let folder = Folder::with_tree(name);
    folder.run("guide make small.tree -q -o small.guide").succeeds();
    folder.run("build small.txt -q -o columns.tree --columns 14 --allow-larger").succeeds();
    folder.run("to-columns 14 small.txt -o turned.txt").succeeds();
    let mut damaged = folder.read("small.tree");
    damaged[104] = 2;
    folder.write("damaged.tree", &damaged);
    folder.run("build small.txt -q -o closed.tree --first 2000-01-01 --last 2000-12-31").succeeds();
    folder.write("maker.txt", b"CH0501 444220\nNEW 1\n");
    folder.write("empty.wasm", b"\0asm\x01\0\0\0");
    folder.write("maker.csv", b"Code;Cuts\nCH0501;444224\nCH 502;444225\n");
    folder.write("small.tree.json", b"{\"maker\":\"Ilko\",\"edition\":\"3\"}");
    folder.write("sums", folder.run("check --sums small.tree columns.tree").succeeds().printed().as_bytes());
    std::fs::create_dir(folder.0.join("trees")).expect("a folder");
    folder
}

/// A call of each command that succeeds.
const CALLS: [&str; 57] = [
    "build small.txt -f -o new.tree",
    "build small.txt -f -q -o new.tree",
    "build small.txt -f -o new.tree --columns 14 --allow-larger",
    "build small.txt -f -o new.tree --small",
    "build small.txt -f -o licensed.tree --maker Ilko --edition 3 --first 2000-01-01 --last 2099-12-31",
    "build small.txt maker.txt -f -o trees -j 2",
    "guide make licensed.tree -f -o licensed.guide",
    "check licensed.tree",
    "check -c sums",
    "stats licensed.tree",
    "slim licensed.tree -f -o new.tree",
    "slim small.tree -f -o new.tree",
    "slim small.tree -f -q -o new.tree",
    "import maker.csv -f --lenient -o new.txt",
    "check small.tree",
    "check small.tree columns.tree",
    "verify small.txt small.tree",
    "digest small.tree columns.tree",
    "diff small.txt small.tree",
    "code HON1012 small.tree",
    "code --prefix HON small.tree columns.tree --unchecked",
    "list small.tree",
    "list small.tree small.tree",
    "stats small.tree",
    "stats small.tree columns.tree",
    "picture small.tree -f -o new.svg",
    "page small.tree columns.tree -f -o new.html --module empty.wasm",
    "row 5 small.tree",
    "row 5..7 small.tree",
    "row 5..7 small.tree --guide small.guide",
    "row 5 columns.tree --columns 14",
    "byte 14 small.tree",
    "run 14 small.tree",
    "span 14 6 small.tree",
    "count \\n 1400 small.tree",
    "find \\n 120 small.tree",
    "find \\n 120 small.tree --guide small.guide",
    "places HON1012 small.tree",
    "match 5216[1-5] small.tree",
    "match 5216[1-5] small.tree --after 121",
    "text small.tree",
    "to-columns auto small.txt -f -o new.txt",
    "from-columns 14 turned.txt -f -o new.txt",
    "guide make small.tree -f -o new.guide",
    "guide check small.guide small.tree",
    "compare small.tree columns.tree",
    "sort small.tree columns.tree",
    "licence open 20240101 20241231 20240301",
    "licence left 20241231 20250101",
    "licence renew 20240229",
    "sizes 1048576 --leaf 64 --arity 4 --levels 3",
    "help",
    "help build",
    "version",
    "manual",
    "completion bash",
    "build --help",
];

/// The type of each member, by its name.
fn note(kinds: &mut BTreeMap<String, (&'static str, String)>, value: &Json, call: &str) {
    match value {
        Json::List(values) => values.iter().for_each(|value| note(kinds, value, call)),
        Json::Object(members) => {
            for (name, value) in members {
                note(kinds, value, call);
                // an empty list may be of anything
                if value.kind() != "list" {
                    let (kind, first) = kinds.entry(name.clone()).or_insert((value.kind(), call.to_owned()));
                    assert_eq!(*kind, value.kind(), "{name} of '{call}' and of '{first}'");
                }
            }
        }
        _ => {}
    }
}

#[test]
fn every_command() {
    let folder = shelf("json");
    let mut kinds = BTreeMap::new();
    for call in CALLS {
        let done = folder.run(&format!("{call} --json"));
        let printed = objects(&done.succeeds().printed());
        assert!(!printed.is_empty(), "{call}");
        printed.iter().for_each(|object| note(&mut kinds, object, call));
    }
    let differing = objects(&folder.run("diff maker.txt small.tree --json").status(1).printed());
    differing.iter().for_each(|object| note(&mut kinds, object, "diff"));
    for call in FAILURES {
        objects(&folder.run(&format!("{call} --json")).printed()).iter().for_each(|object| note(&mut kinds, object, call));
    }
    let overview = folder.run("--help").printed();
    for command in overview.lines().filter(|line| line.starts_with("  ")).map(|line| line[2..17].trim_end()) {
        assert!(CALLS.iter().any(|call| call.starts_with(command)), "a call of {command} belongs into this test");
    }
}

/// If a tree goes to standard output, the object goes to standard error.
#[test]
fn bytes_on_standard_output() {
    let folder = shelf("json-output");
    folder.run("slim small.tree -q").succeeds();
    folder.write("turned.csv", &folder.read("small.txt").iter().map(|&byte| if byte == b' ' { b';' } else { byte }).collect::<Vec<u8>>());
    for (call, bytes) in [
        ("build small.txt -o - --json -q", "small.tree"),
        ("guide make small.tree --json -q", "small.guide"),
        ("to-columns 14 small.txt --json", "turned.txt"),
        ("from-columns 14 turned.txt --json", "small.txt"),
        ("slim small.tree -o - --json -q", "small.small.tree"),
        ("import turned.csv --json", "small.txt"),
    ] {
        let done = folder.run(call);
        assert_eq!(done.succeeds().output.stdout, folder.read(bytes), "{call}");
        assert_eq!(objects(&done.errors()).len(), 1, "{call}");
    }
    let done = folder.run("picture small.tree --json");
    assert!(done.succeeds().printed().starts_with("<svg "));
    assert_eq!(objects(&done.errors()), [Json::parse("{\"tree\":\"small.tree\",\"picture\":\"standard output\"}").expect("an object")]);
}

/// Refused trees and questions, missing files, and wrong calls.
const FAILURES: [&str; 31] = [
    "build none.txt",
    "build small.txt -o small.tree",
    "slim damaged.tree",
    "slim small.tree -o small.tree -f",
    "import none.csv",
    "digest damaged.tree",
    "diff damaged.tree small.txt",
    "code HON1012 none.tree",
    "check damaged.tree",
    "check none.tree",
    "check -c small.txt",
    "row 1 closed.tree",
    "build small.txt --first 2024-01-01",
    "verify small.txt columns.tree",
    "list damaged.tree",
    "row 0 small.tree",
    "row x small.tree",
    "row 1 small.tree --columns 7",
    "byte 2800 small.tree",
    "count 10 5 small.tree",
    "match 4x small.tree",
    "to-columns 13 small.txt",
    "guide check small.tree small.tree",
    "guide small.tree",
    "licence renew 2024",
    "completion fish",
    "help none",
    "none small.tree",
    "row 1 small.tree --none",
    "row",
    "sizes 5",
];

fn member(object: &Json, name: &str) -> Option<Json> {
    object.get(name).cloned()
}

#[test]
fn failures() {
    let folder = shelf("json-failures");
    for call in FAILURES {
        let done: Done = folder.run(&format!("{call} --json"));
        let printed = objects(&done.printed());
        let [object] = &printed[..] else { panic!("{call}: {}", done.printed()) };
        let status = done.output.status.code().expect("a status");
        assert!(status > 0, "{call}");
        assert_eq!(member(object, "status"), Some(Json::Number(status.into())), "{call}");
        assert_eq!(member(object, "failed").map(|failed| failed.kind()), Some("text"), "{call}");
        // the message is the one on standard error
        let Some(Json::Text(words)) = member(object, "words") else { panic!("{call}") };
        assert!(done.errors().contains(&words), "{call}: {words}");
        if let Some(Json::Text(usage)) = member(object, "usage") {
            assert!(status == 2 && done.errors().ends_with(&format!("{words}\nusage: {usage}\n")), "{call}");
        }
    }
    let refused = objects(&folder.run("row 0 small.tree --json").printed());
    assert_eq!(member(&refused[0], "refused"), Some(Json::Number(12)));
    // --json after -- is a word
    assert!(!folder.run("row -- --json").printed().starts_with('{'));
    // and before the command it is a wrong call
    assert_eq!(objects(&folder.run("--json stats small.tree").status(2).printed()).len(), 1);
}

#[test]
fn the_reader_of_these_tests() {
    for text in ["", "{", "{}x", "{\"a\":1,}", "{\"a\":01}", "[1,]", "\"\\x\"", "{\"a\":1,\"a\":2}", "tru", "\"\n\"", "{'a':1}", "[1 2]", "-"] {
        assert!(Json::parse(text).is_err(), "{text}");
    }
    let object = Json::parse("{\"a\":[1,-2],\"b\":\"\\u0041\\n\\\"\",\"c\":{\"d\":true}}").expect("an object");
    assert_eq!(object.get("a"), Some(&Json::List(vec![Json::Number(1), Json::Number(-2)])));
    assert_eq!((object.get("b"), object.get("c").and_then(|c| c.get("d"))), (Some(&Json::Text("A\n\"".to_owned())), Some(&Json::Flag(true))));
}

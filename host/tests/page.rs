//! `codebook page`: the contents of the file, and that nothing else can run in it. host/page/test-in-browser tests what it shows.

#[path = "support/folder.rs"]
mod folder;
#[path = "support/json.rs"]
mod json;
mod support;

use folder::Folder;
use json::Json;
use std::fs::{self, Permissions};
use std::os::unix::fs::PermissionsExt;
use support::books::{book, Kind};

/// A module that exports nothing: the command reads only its first bytes.
const MODULE: &[u8] = b"\0asm\x01\0\0\0";
const MODULE_SHA256: &str = "93a44bbb96c751218e4c00d479e4c14358122a389acca16205b1e4d0dc5f9476";

fn shelf(name: &str) -> Folder {
    let folder = Folder::with_tree(name);
    folder.write("empty.wasm", MODULE);
    folder
}

/// The text between two others, the first of which must occur once.
fn between<'a>(page: &'a str, before: &str, after: &str) -> &'a str {
    assert_eq!(page.matches(before).count(), 1, "{before}");
    page.split(before).nth(1).and_then(|rest| rest.split(after).next()).expect("it ends")
}

fn decoded(base64: &str) -> Vec<u8> {
    const DIGITS: &str = "ABCDEFGHIJKLMNOPQRSTUVWXYZabcdefghijklmnopqrstuvwxyz0123456789+/";
    let digits: Vec<u32> = base64.trim_end_matches('=').chars().map(|digit| DIGITS.find(digit).expect("a digit") as u32).collect();
    let bytes = digits.chunks(4).flat_map(|part| {
        let word = part.iter().fold(0, |word, digit| word << 6 | digit) << (6 * (4 - part.len()));
        word.to_be_bytes()[1..part.len()].to_vec()
    });
    bytes.collect()
}

/// The books of a page: the members of each.
fn books(page: &str) -> Vec<Json> {
    let given = Json::parse(between(page, "<script type=\"application/json\" id=\"given\">", "</script>").trim_end()).expect("an object");
    match given.get("books") {
        Some(Json::List(books)) => books.clone(),
        other => panic!("{other:?}"),
    }
}

fn member<'a>(book: &'a Json, name: &str) -> Option<&'a str> {
    book.get(name).map(|value| match value {
        Json::Text(text) => text.as_str(),
        other => panic!("{other:?}"),
    })
}

#[test]
fn one_file() {
    let folder = shelf("page");
    let done = folder.run("page small.tree -o small.html --module empty.wasm");
    let page = String::from_utf8(folder.read("small.html")).expect("a text");
    let size = folder::grouped(page.len());
    done.succeeds().says("").prints(&format!("small.html: a page of 1 tree, {size} bytes; SHA-256 of its module {MODULE_SHA256}\n"));
    assert_eq!(codebook::digest_text(MODULE).to_string(), MODULE_SHA256);
    assert_eq!(decoded(between(&page, "id=\"module\">", "</script>")), MODULE);
    assert_eq!(between(&page, "<dt>SHA-256 of the module</dt><dd class=\"hex\">", "</dd>"), MODULE_SHA256);
    let books = books(&page);
    assert_eq!((books.len(), member(&books[0], "name"), member(&books[0], "maker")), (1, Some("small.tree"), None));
    assert_eq!(decoded(member(&books[0], "tree").expect("a tree")), folder.read("small.tree"));
    assert_eq!(folder.run("page small.tree -q --module empty.wasm").output.stdout, page.as_bytes());
}

/// The policy allows only the page's own script and style, by their digests, and no connection; the page names no address but that of SVG.
#[test]
fn no_connections() {
    let folder = shelf("page-policy");
    let page = folder.run("page small.tree --module empty.wasm").printed();
    let policy = between(&page, "http-equiv=\"Content-Security-Policy\" content=\"", "\"");
    let parts: Vec<&str> = policy.split("; ").collect();
    assert_eq!((parts[0], parts[3], &parts[4..]), ("default-src 'none'", "img-src data:", &["base-uri 'none'", "form-action 'none'"][..]));
    for (directive, part) in [(parts[1], between(&page, "<script>", "</script>")), (parts[2], between(&page, "<style>", "</style>"))] {
        let digest = directive.split("'sha256-").nth(1).and_then(|rest| rest.split('\'').next()).expect("a digest");
        assert_eq!(decoded(digest), codebook::digest_text(part.as_bytes()).0);
    }
    assert_eq!(page.matches("http://").count(), page.matches("http://www.w3.org/2000/svg").count());
    for word in ["https://", "eval(", "innerHTML", "new Function", "fetch(", "XMLHttpRequest", "WebSocket", " style=", " onclick="] {
        assert!(!page.contains(word), "{word}");
    }
}

/// Names and manifests are escaped: they add no tags.
#[test]
fn names() {
    let folder = shelf("page-names");
    let (name, maker) = ("<script>&amp;.tree", "</script><script>alert(1)</script><!--");
    folder.write(name, &folder.read("small.tree"));
    folder.write(&format!("{name}.json"), format!("{{\"maker\":\"{maker}\",\"first\":\"2024-01-01\",\"last\":\"2024-12-31\"}}").as_bytes());
    let page = folder.run(&format!("page {name} --module empty.wasm")).succeeds().printed();
    assert_eq!((page.matches("<script").count(), page.matches("</script").count()), (3, 3));
    assert_eq!(between(&page, "<title>", "</title>"), "&lt;script>&amp;amp;.tree: code book");
    let books = books(&page);
    assert_eq!((member(&books[0], "name"), member(&books[0], "maker"), member(&books[0], "edition")), (Some(name), Some(maker), None));
    assert_eq!((member(&books[0], "first"), member(&books[0], "last")), (Some("2024-01-01"), Some("2024-12-31")));
}

/// Several trees are in one page, in the order of the call; the file has no permission that one of them lacks.
#[test]
fn several_trees() {
    let folder = shelf("page-several");
    folder.run("slim small.tree -q -o slim.tree").succeeds();
    for (name, mode) in [("small.tree", 0o640), ("slim.tree", 0o604)] {
        fs::set_permissions(folder.0.join(name), Permissions::from_mode(mode)).expect("a file of ours");
    }
    let done = folder.run("page slim.tree small.tree -o both.html --module empty.wasm --json");
    let object = format!("{{\"page\":\"both.html\",\"trees\":[\"slim.tree\",\"small.tree\"],\"module_sha256\":\"{MODULE_SHA256}\"}}\n");
    done.succeeds().prints(&object);
    let books = books(&String::from_utf8(folder.read("both.html")).expect("a text"));
    for (book, name) in books.iter().zip(["slim.tree", "small.tree"]) {
        assert_eq!(member(book, "name"), Some(name));
        assert_eq!(decoded(member(book, "tree").expect("a tree")), folder.read(name));
    }
    let mode = fs::metadata(folder.0.join("both.html")).expect("a file").permissions().mode();
    assert_eq!(mode & 0o777, 0o600);
}

/// A refused call leaves no file.
#[test]
fn refusals() {
    let folder = shelf("page-refused");
    let mut damaged = folder.read("small.tree");
    damaged[104] = 2;
    folder.write("damaged.tree", &damaged);
    let before = folder.names();
    let links = "refused (8): the blocks are not right: a start, kind, link or gap, or the number of blocks or leaf bytes";
    folder.run("page small.tree damaged.tree -o x.html --module empty.wasm").status(1).prints("").says(&format!("codebook: damaged.tree: {links}\n"));
    folder.run("page small.txt -o x.html --module empty.wasm").status(1);
    folder.run("page none.tree -o x.html --module empty.wasm").status(2);
    folder.run("page small.tree -o x.html --module none.wasm").status(2);
    let text = "codebook: small.txt: is not a WebAssembly module\n";
    folder.run("page small.tree -o x.html --module small.txt").status(2).says(text);
    assert!(folder.run("page -o x.html --module empty.wasm").status(2).errors().contains("TREE is missing"));
    assert_eq!(folder.names(), before);
    for (output, force) in [("small.tree", "-f"), ("small.txt", "")] {
        let bytes = folder.read(output);
        folder.run(&format!("page small.tree damaged.tree -o {output} {force} --module empty.wasm")).status(2);
        assert_eq!(folder.read(output), bytes);
    }
}

/// A tool that was built without the module says how it is made; one that was built with it needs no option.
#[test]
fn the_module_of_the_tool() {
    let folder = shelf("page-module");
    let done = folder.run("page small.tree -o small.html");
    match done.output.status.code() {
        Some(0) => assert!(decoded(between(&String::from_utf8_lossy(&folder.read("small.html")), "id=\"module\">", "</script>")).starts_with(MODULE)),
        _ => {
            let words = "codebook: this tool was built without the library's WebAssembly module; targets/make wasm32 makes it, \
                         then build the tool again or name it by --module\n";
            assert!(done.status(2).errors().starts_with(words), "{}", done.errors());
            assert!(!folder.names().contains(&"small.html".to_owned()));
        }
    }
}

#[test]
fn too_many_bytes() {
    let folder = shelf("page-long");
    folder.write("a.txt", &book(Kind::Repetitive, 1 << 20, 1));
    folder.run("build a.txt -q --leaf 4 --arity 2 --levels 1").succeeds();
    let size = folder.read("a.tree").len();
    let trees = (64 << 20) / size;
    let call = |trees: usize| format!("page {} -q -o a.html --module empty.wasm", vec!["a.tree"; trees].join(" "));
    let words = format!("a page holds at most 67,108,864 bytes of trees; with this one it has {}", folder::grouped(size * (trees + 1)));
    folder.run(&call(trees + 1)).status(1).says(&format!("codebook: a.tree: {words}\n"));
    folder.run(&call(trees)).succeeds();
    assert!(folder.read("a.html").len() > 64 << 20);
}

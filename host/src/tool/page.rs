//! `page`: trees in one HTML file, which checks and queries them with the library's WebAssembly module.

use crate::beside::Beside;
use crate::check::open;
use crate::day::Day;
use crate::given::Given;
use crate::input::{self, Source, TREE};
use crate::json::Object;
use crate::manifest::{Figures, Manifest};
use crate::output::{self, Output};
use crate::say::{grouped, several};
use crate::table::MODULE;
use crate::Failure;
use codebook::{digest_text, Refusal, Tree, SHORT_LIST};
use std::path::Path;

const PAGE: &str = include_str!("../../page/page.html");
const STYLE: &str = include_str!("../../page/page.css");
const SCRIPT: &str = concat!(
    include_str!("../../page/text.js"),
    include_str!("../../page/library.js"),
    include_str!("../../page/path.js"),
    include_str!("../../page/drawing.js"),
    include_str!("../../page/keys.js"),
    include_str!("../../page/questions.js"),
    include_str!("../../page/page.js"),
);

/// The module that the tool was built with; empty where there was none.
const BUILT_IN: &[u8] = include_bytes!(concat!(env!("OUT_DIR"), "/blocktree.wasm"));

/// All trees of a page together: a browser reads the file as one text.
const MOST: usize = 64 << 20;

pub fn page(given: &Given) -> Result<(), Failure> {
    let module = module(given)?;
    let paths: Vec<Option<&Path>> = (0..given.words.len()).map(|at| given.file(at)).collect();
    let sources = paths.iter().map(|path| Source::open(*path)).collect::<Result<Vec<_>, _>>()?;
    let output = Output::of_all(given, &sources)?;
    let (mut books, mut size) = (Vec::new(), 0);
    for (path, source) in paths.iter().zip(sources) {
        books.push(book(*path, source, &mut size)?);
    }
    let (names, books): (Vec<String>, Vec<Object>) = books.into_iter().unzip();
    let digest = digest_text(&module).to_string();
    let html = html(&names[0], &module, &digest, books);
    let (name, standard) = (output.name.clone(), output.is_standard());
    output.write(html.as_bytes())?;
    let object = Object::new().text("page", &name).texts("trees", &names).text("module_sha256", &digest);
    let sizes = format!("{}, {}", several(names.len() as u64, "tree"), several(html.len() as u64, "byte"));
    output::report(given, standard, &object, &format!("{name}: a page of {sizes}; SHA-256 of its module {digest}\n"))
}

/// The module that the call names, or the one that the tool was built with.
fn module(given: &Given) -> Result<Vec<u8>, Failure> {
    let Some(path) = given.path(&MODULE) else {
        return match BUILT_IN {
            [] => Err(given.usage(
                "this tool was built without the library's WebAssembly module; targets/make wasm32 makes it, \
                 then build the tool again or name it by --module",
            )),
            module => Ok(module.to_vec()),
        };
    };
    let input = input::read(Some(path), &input::MODULE)?;
    match input.bytes[..] {
        [0, b'a', b's', b'm', 1, 0, 0, 0, ..] => Ok(input.bytes),
        _ => Err(Failure::file(&input.name, "is not a WebAssembly module")),
    }
}

/// A tree that the check accepts, with its manifest; its name is that of the file, without folders.
fn book(path: Option<&Path>, source: Source, size: &mut usize) -> Result<(String, Object), Failure> {
    let input = source.read(&TREE)?;
    let tree = open(&input, false)?;
    *size += input.bytes.len();
    if *size > MOST {
        let words = format!("a page holds at most {} bytes of trees; with this one it has {}", grouped(MOST as u64), grouped(*size as u64));
        return Err(Failure::refused(&input.name, words));
    }
    let name = Path::new(&input.name).file_name().map_or(input.name.clone(), |name| name.to_string_lossy().into_owned());
    let Manifest { maker, edition, first, last, .. } = described(path, &input.name, tree)?;
    let day = |day: Option<Day>| day.map(|day| day.to_string());
    let members = [("maker", maker), ("edition", edition), ("first", day(first)), ("last", day(last))];
    let known = members.into_iter().filter_map(|(member, value)| Some((member, value?)));
    let object = known.fold(Object::new().text("name", &name), |object, (member, value)| object.text(member, &value));
    Ok((name, object.text("tree", &base64(&input.bytes))))
}

/// The manifest beside a tree, which must describe this tree. A closed book is not a failure: the page shows its licence.
fn described(path: Option<&Path>, name: &str, tree: Tree) -> Result<Manifest, Failure> {
    let Some(beside) = Beside::read(path).map_err(|unusable| unusable.failure())? else {
        return Ok(Manifest::default());
    };
    beside.describes(name, &Figures::of(tree, None))?;
    Ok(beside.manifest)
}

/// The page with its script, style, module and data. Its policy allows only this script and this style, by their digests, and no connection.
fn html(title: &str, module: &[u8], digest: &str, books: Vec<Object>) -> String {
    let allowed = |text: &str| format!("'sha256-{}'", base64(&digest_text(text.as_bytes()).0));
    let policy = format!(
        "default-src 'none'; script-src {} 'wasm-unsafe-eval'; style-src {}; img-src data:; base-uri 'none'; form-action 'none'",
        allowed(SCRIPT),
        allowed(STYLE)
    );
    let title = format!("{}: code book", title.replace('&', "&amp;").replace('<', "&lt;"));
    let parts = [
        ("@POLICY@", policy.as_str()),
        ("@TITLE@", &title),
        ("@STYLE@", STYLE),
        ("@MODULE_SHA256@", digest),
        ("@MODULE@", &base64(module)),
        ("@GIVEN@", &data(books)),
        ("@SCRIPT@", SCRIPT),
    ];
    filled(&parts)
}

/// The page with each placeholder replaced, in order; what is put in is not searched for placeholders.
fn filled(parts: &[(&str, &str)]) -> String {
    let (mut page, mut rest) = (String::new(), PAGE);
    for (mark, part) in parts {
        let (before, after) = rest.split_once(mark).expect("the page has this mark, after the one before");
        page += before;
        page += part;
        rest = after;
    }
    page + rest
}

/// The script's data: the books, the texts of refusals, the settings that build tries. It contains no `<`, so that no text ends its element.
fn data(books: Vec<Object>) -> String {
    let words = |number: u32| {
        Refusal::from_number(number).map(|refusal| refusal.to_string().split_once(": ").map_or(String::new(), |(_, words)| words.to_owned()))
    };
    let refusals: Vec<String> = std::iter::once(String::new()).chain((1..).map_while(words)).collect();
    let settings = SHORT_LIST.iter().map(|(leaf, arity, levels)| Object::new().number("leaf", leaf).number("arity", arity).number("levels", levels));
    let object = Object::new().text("version", env!("CARGO_PKG_VERSION")).texts("refusals", &refusals);
    object.objects("settings", settings).objects("books", books).line().replace('<', "\\u003c")
}

fn base64(bytes: &[u8]) -> String {
    const DIGITS: &[u8; 64] = b"ABCDEFGHIJKLMNOPQRSTUVWXYZabcdefghijklmnopqrstuvwxyz0123456789+/";
    let mut text = String::with_capacity(bytes.len().div_ceil(3) * 4);
    for part in bytes.chunks(3) {
        let word = part.iter().fold(0, |word, byte| word << 8 | usize::from(*byte)) << (8 * (3 - part.len()));
        let digits = [18, 12, 6, 0].map(|shift| char::from(DIGITS[word >> shift & 63]));
        text.extend(&digits[..=part.len()]);
        text.extend(std::iter::repeat('=').take(3 - part.len()));
    }
    text
}

#[cfg(test)]
mod tests {
    use super::{base64, data, filled, Object, SCRIPT, STYLE};

    /// The cases of RFC 4648, and all digits.
    #[test]
    fn bytes_in_base64() {
        let cases = [("", ""), ("f", "Zg=="), ("fo", "Zm8="), ("foo", "Zm9v"), ("foob", "Zm9vYg=="), ("fooba", "Zm9vYmE="), ("foobar", "Zm9vYmFy")];
        for (bytes, text) in cases {
            assert_eq!(base64(bytes.as_bytes()), text);
        }
        assert_eq!(base64(&[0xff, 0xef, 0xbe, 0x00]), "/+++AA==");
    }

    /// Neither the script nor the style ends its element, or opens a comment in it.
    #[test]
    fn parts_end_where_they_should() {
        for part in [SCRIPT, STYLE] {
            assert!(!part.contains("</") && !part.contains("<!--"));
        }
        assert!(SCRIPT.starts_with("\"use strict\";"));
    }

    #[test]
    fn nothing_is_searched_twice() {
        let page = filled(&[("@TITLE@", "@STYLE@"), ("@STYLE@", "x")]);
        assert!(page.contains("<title>@STYLE@</title>") && page.contains("<style>x</style>"));
        assert!(!data(vec![Object::new().text("maker", "</script><script>")]).contains('<'));
    }
}

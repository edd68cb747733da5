//! A manifest: a JSON object (RFC 8259) with a tree's maker, edition and licence, and with what the tree must be.

use crate::day::{Day, Term};
use crate::json::Object;
use crate::json_reader::{self, Member, Value};
use crate::reasons::all_typed;
use crate::say::grouped;
use codebook::{digest_text, Digest, Refusal, Tree};

/// The SHA-256 of a tree, and that of its text.
#[derive(Clone, Copy, Debug, PartialEq, Eq)]
pub struct Digests {
    pub tree: Digest,
    pub text: Digest,
}

impl Digests {
    pub fn of(tree: Tree, bytes: &[u8]) -> Result<Self, Refusal> {
        Ok(Digests { tree: digest_text(bytes), text: tree.digest()? })
    }
}

/// The figures of a tree in a manifest; each may be missing.
#[derive(Clone, Debug, Default, PartialEq, Eq)]
pub struct Figures {
    pub size: Option<u64>,
    pub sha256: Option<Digest>,
    pub length: Option<u64>,
    pub text_sha256: Option<Digest>,
    pub layout: Option<u64>,
    pub leaf: Option<u64>,
    pub arity: Option<u64>,
    pub levels: Option<u64>,
    pub counted: Option<Vec<u8>>,
}

impl Figures {
    /// The figures by a tree's length and header; digests, which take a pass over the tree and one over its text, only if they are given.
    pub fn of(tree: Tree, digests: Option<&Digests>) -> Self {
        let settings = tree.settings();
        Figures {
            size: Some(tree.size() as u64),
            sha256: digests.map(|digests| digests.tree),
            length: Some(tree.text_length().into()),
            text_sha256: digests.map(|digests| digests.text),
            layout: Some(tree.layout().into()),
            leaf: Some(settings.leaf.into()),
            arity: Some(settings.arity.into()),
            levels: Some(settings.levels.into()),
            counted: Some(settings.counted),
        }
    }

    /// Each in words, in the order in which they are compared.
    fn shown(&self) -> [(&'static str, Option<String>); 9] {
        let digest = |digest: Option<Digest>| digest.map(|digest| digest.to_string());
        [
            ("its size", self.size.map(grouped)),
            ("its text's length", self.length.map(grouped)),
            ("its layout", self.layout.map(grouped)),
            ("its leaf length", self.leaf.map(grouped)),
            ("its arity", self.arity.map(grouped)),
            ("its number of levels", self.levels.map(grouped)),
            ("the list of its counted bytes", self.counted.as_deref().map(all_typed)),
            ("the SHA-256 of its text", digest(self.text_sha256)),
            ("its SHA-256", digest(self.sha256)),
        ]
    }

    /// The first figure that differs from the tree's, with both values.
    pub fn difference(&self, found: &Figures) -> Option<String> {
        self.shown().into_iter().zip(found.shown()).find_map(|((what, due), (_, found))| {
            let (due, found) = (due?, found?);
            (due != found).then(|| format!("{what} is {due}, and it is {found}"))
        })
    }

    fn members(&self, object: Object) -> Object {
        let object = number(number(object, "size", self.size), "length", self.length);
        let object = number(number(object, "layout", self.layout), "leaf", self.leaf);
        let object = number(number(object, "arity", self.arity), "levels", self.levels);
        let object = self.counted.as_ref().map_or(object.clone(), |counted| object.numbers("counted", counted));
        let object = text(object, "sha256", self.sha256);
        text(object, "text_sha256", self.text_sha256)
    }
}

/// The guide of a tree, a file beside it.
#[derive(Clone, Debug, Default, PartialEq, Eq)]
pub struct Guide {
    pub name: Option<String>,
    pub size: Option<u64>,
    pub sha256: Option<Digest>,
}

/// A manifest.
#[derive(Clone, Debug, Default, PartialEq, Eq)]
pub struct Manifest {
    pub maker: Option<String>,
    pub edition: Option<String>,
    pub first: Option<Day>,
    pub last: Option<Day>,
    pub figures: Figures,
    /// The width of the rows of a book by columns.
    pub columns: Option<u64>,
    pub guide: Guide,
    /// Members of other names, and their values as they are written.
    pub others: Vec<(String, String)>,
}

impl Manifest {
    /// The members that are known, each at most once and of its type; members of other names are kept as they are.
    pub fn read(bytes: &[u8]) -> Result<Self, String> {
        let text = std::str::from_utf8(bytes).map_err(|_| "it is not UTF-8".to_owned())?;
        let Value::Object(members) = json_reader::read(text)? else {
            return Err("it is not an object".to_owned());
        };
        let mut manifest = Manifest::default();
        members.into_iter().try_for_each(|member| manifest.enter(member))?;
        match manifest.term().map(|term| (term, term.is_open(term.first))) {
            Some((Term { first, last }, Err(_))) => Err(format!("its last day, {last}, is before its first, {first}")),
            _ => Ok(manifest),
        }
    }

    fn enter(&mut self, Member { name, value, raw }: Member) -> Result<(), String> {
        let Manifest { figures, guide, .. } = self;
        match name.as_str() {
            "maker" => set(&mut self.maker, &name, string(value)),
            "edition" => set(&mut self.edition, &name, string(value)),
            "first" => set(&mut self.first, &name, day(value)),
            "last" => set(&mut self.last, &name, day(value)),
            "size" => set(&mut figures.size, &name, whole(value)),
            "length" => set(&mut figures.length, &name, whole(value)),
            "layout" => set(&mut figures.layout, &name, whole(value)),
            "leaf" => set(&mut figures.leaf, &name, whole(value)),
            "arity" => set(&mut figures.arity, &name, whole(value)),
            "levels" => set(&mut figures.levels, &name, whole(value)),
            "counted" => set(&mut figures.counted, &name, bytes(value)),
            "sha256" => set(&mut figures.sha256, &name, digest(value)),
            "text_sha256" => set(&mut figures.text_sha256, &name, digest(value)),
            "columns" => set(&mut self.columns, &name, whole(value)),
            "guide" => set(&mut guide.name, &name, file_name(value)),
            "guide_size" => set(&mut guide.size, &name, whole(value)),
            "guide_sha256" => set(&mut guide.sha256, &name, digest(value)),
            _ => {
                self.others.push((name, raw));
                Ok(())
            }
        }
    }

    /// The term of the licence; none where a day is missing.
    pub fn term(&self) -> Option<Term> {
        Some(Term { first: self.first?, last: self.last? })
    }

    /// Maker, edition and licence, as members of an object.
    pub fn book(&self, object: Object) -> Object {
        let object = text(text(object, "maker", self.maker.as_ref()), "edition", self.edition.as_ref());
        text(text(object, "first", self.first), "last", self.last)
    }

    /// The manifest as it is written: one object on one line.
    pub fn line(&self) -> String {
        let object = number(self.figures.members(self.book(Object::new())), "columns", self.columns);
        let object = number(text(object, "guide", self.guide.name.as_ref()), "guide_size", self.guide.size);
        let object = text(object, "guide_sha256", self.guide.sha256);
        self.others.iter().fold(object, |object, (name, raw)| object.raw(name, raw)).line()
    }

    /// Maker and edition, with control characters for a terminal escaped.
    pub fn known(&self) -> Vec<String> {
        [&self.maker, &self.edition].into_iter().flatten().map(|value| value.escape_debug().to_string()).collect()
    }
}

/// A member that the object has.
fn number(object: Object, name: &str, value: Option<u64>) -> Object {
    match value {
        Some(value) => object.number(name, value),
        None => object,
    }
}

fn text(object: Object, name: &str, value: Option<impl ToString>) -> Object {
    match value {
        Some(value) => object.text(name, &value.to_string()),
        None => object,
    }
}

/// Enters a member once; `value` is what was read, or the expected form as an error.
fn set<T>(member: &mut Option<T>, name: &str, value: Result<T, &str>) -> Result<(), String> {
    if member.is_some() {
        return Err(format!("it has two members '{name}'"));
    }
    *member = Some(value.map_err(|due| format!("its member '{name}' is not {due}"))?);
    Ok(())
}

fn string(value: Value) -> Result<String, &'static str> {
    match value {
        Value::Text(text) => Ok(text),
        _ => Err("a string"),
    }
}

fn whole(value: Value) -> Result<u64, &'static str> {
    match value {
        Value::Number(number) => Ok(number),
        _ => Err("a whole number"),
    }
}

fn digest(value: Value) -> Result<Digest, &'static str> {
    string(value).ok().and_then(|text| Digest::from_hex(&text)).ok_or("a string of 64 hexadecimal digits")
}

fn day(value: Value) -> Result<Day, &'static str> {
    string(value).ok().and_then(|text| Day::dashed(&text)).ok_or("a day such as \"2024-02-29\", of the years 2000 to 2099")
}

fn bytes(value: Value) -> Result<Vec<u8>, &'static str> {
    let Value::List(values) = value else { return Err("a list of bytes") };
    let byte = |value: Value| whole(value).ok().and_then(|number| u8::try_from(number).ok());
    values.into_iter().map(byte).collect::<Option<_>>().ok_or("a list of bytes, 0 to 255")
}

/// A name without a folder, so that a manifest from anyone cannot name a file elsewhere.
fn file_name(value: Value) -> Result<String, &'static str> {
    let is_plain = |name: &String| !name.is_empty() && name != "." && name != ".." && !name.contains(['/', '\0']);
    string(value).ok().filter(is_plain).ok_or("the name of a file beside the tree")
}

#[cfg(test)]
mod tests {
    use super::{Day, Digest, Figures, Guide, Manifest};
    use crate::json_reader::MAX_DEPTH;

    fn manifest(maker: Option<&str>, edition: Option<&str>, others: &[(&str, &str)]) -> Manifest {
        let others = others.iter().map(|(name, raw)| (name.to_string(), raw.to_string())).collect();
        Manifest { maker: maker.map(str::to_owned), edition: edition.map(str::to_owned), others, ..Manifest::default() }
    }

    /// A manifest with all members.
    fn whole() -> Manifest {
        let [sha256, text_sha256, guide] = [1, 2, 3].map(|byte| Some(Digest([byte; 32])));
        Manifest {
            first: Day::dashed("2024-02-29"),
            last: Day::dashed("2024-12-31"),
            figures: Figures {
                size: Some(5884),
                sha256,
                length: Some(u64::MAX),
                text_sha256,
                layout: Some(2),
                leaf: Some(24),
                arity: Some(8),
                levels: Some(3),
                counted: Some(vec![0, 10, 255]),
            },
            columns: Some(14),
            guide: Guide { name: Some("a b\\\u{1}.guide".to_owned()), size: Some(0), sha256: guide },
            ..manifest(Some("\u{dc}ber \"1\" \\ \n\u{7f}\u{1f511}"), Some(""), &[("x", "[1, {\"y\": null}]"), ("x", "-2.5e3")])
        }
    }

    #[test]
    fn members_are_read() {
        let read = |text: &str| Manifest::read(text.as_bytes());
        assert_eq!(read("{}"), Ok(Manifest::default()));
        assert_eq!(read(r#" { "edition" : "3", "maker":"Ilko" } "#), Ok(manifest(Some("Ilko"), Some("3"), &[])));
        assert_eq!(
            read(r#"{"maker":"\u00dc\ud83d\udd11\/\n\"","x": [1,-0.5e+3,{"maker":2},[],true,false,null] }"#),
            Ok(manifest(Some("Ü🔑/\n\""), None, &[("x", r#"[1,-0.5e+3,{"maker":2},[],true,false,null]"#)]))
        );
        let deep = format!("{}{}", "[".repeat(MAX_DEPTH - 1), "]".repeat(MAX_DEPTH - 1));
        assert_eq!(read(&format!("{{\"x\":{deep}}}")), Ok(manifest(None, None, &[("x", &deep)])));
        // one day is no term
        assert_eq!(read(r#"{"first":"2024-01-01"}"#).map(|manifest| (manifest.first.is_some(), manifest.term())), Ok((true, None)));
    }

    /// A manifest that is written and read again is the same, whichever members it has.
    #[test]
    fn round_trips() {
        let all = whole();
        for manifest in [all.clone(), Manifest::default(), Manifest { figures: Figures::default(), guide: Guide::default(), ..all.clone() }] {
            assert_eq!(Manifest::read(manifest.line().as_bytes()), Ok(manifest));
        }
        let members = all.line();
        assert!(members.starts_with("{\"maker\":") && members.ends_with(",\"x\":[1, {\"y\": null}],\"x\":-2.5e3}\n"), "{members}");
        // each member alone
        for name in ["maker", "first", "size", "counted", "columns", "guide", "guide_sha256"] {
            let at = members.find(&format!("\"{name}\":")).expect("a member");
            let length = (at..members.len()).find(|&end| Manifest::read(format!("{{{}}}", &members[at..end]).as_bytes()).is_ok());
            let one = Manifest::read(format!("{{{}}}", &members[at..length.expect("a value")]).as_bytes()).expect("a manifest");
            assert_eq!(Manifest::read(one.line().as_bytes()), Ok(one), "{name}");
        }
    }

    #[test]
    fn errors_name_the_cause() {
        let wrong = |text: &str, words: &str| assert_eq!(Manifest::read(text.as_bytes()), Err(words.to_owned()), "{text}");
        wrong("", "a value is expected at byte 0, in line 1");
        wrong("[]", "it is not an object");
        wrong("{\"maker\":1}", "its member 'maker' is not a string");
        wrong("{\"edition\":\"1\",\"edition\":\"2\"}", "it has two members 'edition'");
        wrong("{\n\"a\" 1}", "':' is expected at byte 6, in line 2");
        wrong("{\"a\":1,}", "a member's name is expected at byte 7, in line 1");
        wrong("{\"a\":1} x", "the end is expected at byte 8, in line 1");
        wrong("{\"a\":\"x", "the end of a string is expected at byte 7, in line 1");
        wrong("{\"a\":\"\\ud800\"}", "a low surrogate after a high one is expected at byte 12, in line 1");
        wrong(&"[".repeat(MAX_DEPTH + 1), "it is nested more than 32 deep");
        assert_eq!(Manifest::read(b"{\"maker\":\"\xff\"}"), Err("it is not UTF-8".to_owned()));
    }

    /// Members of another type or form, and days in the wrong order.
    #[test]
    fn members_that_are_not_right() {
        let wrong = |text: &str, words: &str| assert_eq!(Manifest::read(text.as_bytes()), Err(words.to_owned()), "{text}");
        for value in ["\"3\"", "-1", "1.0", "1e3", "18446744073709551616", "null", "[1]"] {
            wrong(&format!("{{\"size\":{value}}}"), "its member 'size' is not a whole number");
        }
        for value in ["\"2024-02-30\"", "\"20240229\"", "20240229", "\"1999-12-31\"", "\"\""] {
            let words = "is not a day such as \"2024-02-29\", of the years 2000 to 2099";
            wrong(&format!("{{\"last\":{value}}}"), &format!("its member 'last' {words}"));
        }
        wrong(r#"{"first":"2024-03-01","last":"2024-02-29"}"#, "its last day, 2024-02-29, is before its first, 2024-03-01");
        wrong("{\"sha256\":\"00\"}", "its member 'sha256' is not a string of 64 hexadecimal digits");
        wrong("{\"counted\":10}", "its member 'counted' is not a list of bytes");
        wrong("{\"counted\":[256]}", "its member 'counted' is not a list of bytes, 0 to 255");
        for name in ["", ".", "..", "/etc/passwd", "../x.guide", "a\\u0000"] {
            wrong(&format!("{{\"guide\":\"{name}\"}}"), "its member 'guide' is not the name of a file beside the tree");
        }
    }

    #[test]
    fn malformed_texts() {
        let malformed = r#"{
{"a"
{"a":
{"a":1
{a:1}
{"a":01}
{"a":-}
{"a":1.}
{"a":1e}
{"a":+1}
{"a":[1,]}
{"a":[1 2]}
{"a":tru}
{"a":"\x"}
{"a":"\u12"}
{"a":"\u12g4"}
{"a":"\udc00"}
{"a":"\ud800\u0041"}
{"a":"\"#;
        assert!(Manifest::read(b"{\"a\":\"\t\"}").is_err());
        for text in malformed.lines() {
            assert!(Manifest::read(text.as_bytes()).is_err(), "{text}");
        }
    }

    /// No input makes the reader panic: every prefix of a valid manifest, and each with one byte changed. What is read from these is written and read again.
    #[test]
    fn any_bytes_are_read() {
        let line = whole().line();
        let escaped = r#"{"maker":"\u00dcber \ud83d\udd11","edition":"3","x":[1,-2.5e3,{"y":null}]}"#;
        for good in [line.trim_end(), escaped].map(str::as_bytes) {
            assert!(Manifest::read(good).is_ok());
            for end in 0..good.len() {
                assert!(Manifest::read(&good[..end]).is_err());
            }
            for at in 0..good.len() {
                for byte in 0..=255 {
                    let mut bytes = good.to_vec();
                    bytes[at] = byte;
                    match Manifest::read(&bytes) {
                        Ok(manifest) => assert_eq!(Manifest::read(manifest.line().as_bytes()), Ok(manifest)),
                        Err(words) => assert!(!words.is_empty()),
                    }
                }
            }
        }
    }

    #[test]
    fn differences() {
        let due = whole().figures;
        assert_eq!((due.difference(&due), due.difference(&Figures::default()), Figures::default().difference(&due)), (None, None, None));
        let found = Figures { size: Some(5885), levels: Some(4), ..due.clone() };
        assert_eq!(due.difference(&found).as_deref(), Some("its size is 5,884, and it is 5,885"));
        let found = Figures { counted: Some(vec![10]), ..due.clone() };
        assert_eq!(due.difference(&found).as_deref(), Some("the list of its counted bytes is 0x00, 0x0a, 0xff, and it is 0x0a"));
        let found = Figures { sha256: due.text_sha256, ..due.clone() };
        let words = format!("its SHA-256 is {}, and it is {}", "01".repeat(32), "02".repeat(32));
        assert_eq!(due.difference(&found), Some(words));
    }
}

//! Lists of digests and names, in the form of sha256sum.

use codebook::Digest;
use std::ffi::OsString;
use std::os::unix::ffi::OsStringExt;

/// A line of a list.
#[derive(Debug, PartialEq, Eq)]
pub struct Sum {
    pub digest: Digest,
    pub name: OsString,
}

/// A line as sha256sum prints it: a name with a backslash or a line end is escaped, and then the line begins with a backslash.
pub fn line(digest: &Digest, name: &[u8]) -> Vec<u8> {
    let mut escaped = Vec::new();
    for &byte in name {
        match byte {
            b'\\' => escaped.extend(b"\\\\"),
            b'\n' => escaped.extend(b"\\n"),
            b'\r' => escaped.extend(b"\\r"),
            _ => escaped.push(byte),
        }
    }
    let mark: &[u8] = if escaped == name { b"" } else { b"\\" };
    [mark, digest.to_string().as_bytes(), b"  ", &escaped, b"\n"].concat()
}

/// The lines of a list, except blank ones and those that begin with #. An error has the number of its line.
pub fn read(list: &[u8]) -> Result<Vec<Sum>, (usize, &'static str)> {
    let mut sums = Vec::new();
    for (at, line) in list.split(|&byte| byte == b'\n').enumerate() {
        let line = line.strip_suffix(b"\r").unwrap_or(line);
        if !line.is_empty() && !line.starts_with(b"#") {
            sums.push(sum(line).map_err(|words| (at + 1, words))?);
        }
    }
    Ok(sums)
}

/// One line, as sha256sum prints it or as `sha256sum --tag` does.
fn sum(line: &[u8]) -> Result<Sum, &'static str> {
    const FORM: &str = "a line is 64 hexadecimal digits, two spaces, and a name, as sha256sum prints it";
    let (escaped, line) = line.strip_prefix(b"\\").map_or((false, line), |line| (true, line));
    let (digits, name) = match tagged(line) {
        Some(parts) => parts,
        None => {
            let (digits, rest) = (line.get(..64).ok_or(FORM)?, &line[64..]);
            (digits, rest.strip_prefix(b"  ").or_else(|| rest.strip_prefix(b" *")).ok_or(FORM)?)
        }
    };
    let digest = std::str::from_utf8(digits).ok().and_then(Digest::from_hex).ok_or(FORM)?;
    let name = if escaped { unescaped(name).ok_or("a backslash in a name begins \\\\, \\n or \\r")? } else { name.to_vec() };
    match name[..] {
        [] => Err("the name is missing"),
        _ if name.contains(&0) => Err("no name has a zero byte"),
        _ => Ok(Sum { digest, name: OsString::from_vec(name) }),
    }
}

/// The digits and the name of `SHA256 (NAME) = DIGITS`.
fn tagged(line: &[u8]) -> Option<(&[u8], &[u8])> {
    let rest = line.strip_prefix(b"SHA256 (")?;
    let (before, digits) = rest.split_at(rest.len().checked_sub(64)?);
    Some((digits, before.strip_suffix(b") = ")?))
}

fn unescaped(name: &[u8]) -> Option<Vec<u8>> {
    let mut bytes = Vec::new();
    let mut rest = name.iter();
    while let Some(&byte) = rest.next() {
        bytes.push(match (byte, byte == b'\\') {
            (byte, false) => byte,
            _ => match rest.next()? {
                b'\\' => b'\\',
                b'n' => b'\n',
                b'r' => b'\r',
                _ => return None,
            },
        });
    }
    Some(bytes)
}

#[cfg(test)]
mod tests {
    use super::{line, read, Sum};
    use codebook::digest_text;
    use std::ffi::OsStr;
    use std::os::unix::ffi::OsStrExt;

    #[test]
    fn lines() {
        let digest = digest_text(b"");
        let written = |name: &[u8]| String::from_utf8(line(&digest, name)).expect("a line");
        assert_eq!(written(b"a b.tree"), format!("{digest}  a b.tree\n"));
        assert_eq!(written(b"a\\b\n.tree"), format!("\\{digest}  a\\\\b\\n.tree\n"));
        // every name is read back unchanged
        for name in [b"a".as_slice(), b" a", b"*a", b"a\nb", b"\\", b"\r", b"a\\nb", b"#a", b"\xff\n\xfe", b"SHA256 (a) = 0"] {
            let name = OsStr::from_bytes(name);
            assert_eq!(read(&line(&digest, name.as_bytes())), Ok(vec![Sum { digest, name: name.to_owned() }]), "{name:?}");
        }
    }

    #[test]
    fn lists() {
        let digest = digest_text(b"abc");
        let list =
            format!("# trees\r\n\n{digest}  a\r\n{} *b\nSHA256 (c) (d) = {digest}\n\\SHA256 (e\\nf) = {digest}", digest.to_string().to_uppercase());
        let names: Vec<String> = read(list.as_bytes()).expect("a list").iter().map(|sum| sum.name.to_string_lossy().into_owned()).collect();
        assert_eq!(names, ["a", "b", "c) (d", "e\nf"]);
        assert_eq!(read(b""), Ok(Vec::new()));
        for wrong in ["x", "  a", &format!("{digest} a"), &format!("{digest}  "), &format!("\\{digest}  a\\x"), &format!("SHA256 () = {digest}")] {
            let list = format!("{digest}  a\n{wrong}\n");
            assert_eq!(read(list.as_bytes()).map_err(|(number, _)| number), Err(2), "{wrong}");
        }
        assert!(read(format!("{digest}  a\0b\n").as_bytes()).is_err());
    }
}

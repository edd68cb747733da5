//! `digest`: the SHA-256 of trees' texts.

use crate::check::{open, refused};
use crate::given::Given;
use crate::input::{self, TREE};
use crate::json::Object;
use crate::table::UNCHECKED;
use crate::{say, sums, Failure};
use std::os::unix::ffi::OsStrExt;

pub fn digest(given: &Given) -> Result<(), Failure> {
    given.each(|path| {
        let input = input::read(path, &TREE)?;
        let digest = open(&input, given.has(&UNCHECKED))?.digest().map_err(|refusal| refused(&input, refusal))?;
        if given.json() {
            return say::print(Object::new().text("tree", &input.name).text("text_sha256", &digest.to_string()).line().as_bytes());
        }
        say::print(&sums::line(&digest, path.map_or(b"-", |path| path.as_os_str().as_bytes())))
    })
}

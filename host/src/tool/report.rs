//! The report of a build.

use crate::book::{self, Warning};
use crate::build::{listed, shape, share, Built};
use crate::input::Input;
use crate::json::Object;
use crate::manifest::Digests;
use crate::say::grouped;
use crate::stats;
use crate::trials::{Chosen, Trial};
use codebook::{text_rows, Settings, Tree};

/// A tree that was built, and its report.
pub struct Report {
    /// The names of the book, of the tree, and of the manifest if one is written.
    pub book: String,
    pub tree: String,
    pub manifest: Option<String>,
    /// Bytes and rows of the book.
    pub length: usize,
    pub rows: u64,
    /// The trials, without the tree's bytes, which are written by then.
    built: Built,
    /// The tree's size and layout, and its size without edges if it has edges.
    pub size: usize,
    layout: u32,
    without_edges: Option<u64>,
    /// None if nothing is reported.
    digests: Option<Digests>,
    pub warnings: Vec<Warning>,
}

impl Report {
    /// The report of a tree, which is no longer needed.
    pub fn of(text: &Input, mut built: Built, digests: Option<Digests>, tree: &str, manifest: Option<String>) -> Self {
        let warnings = warnings(&text.bytes, &built);
        let bytes = std::mem::take(&mut built.chosen.tree);
        let layout = Tree::unchecked(&bytes).layout();
        Report {
            book: text.name.clone(),
            tree: tree.to_owned(),
            manifest,
            length: text.bytes.len(),
            rows: text_rows(&text.bytes).count() as u64,
            built,
            size: bytes.len(),
            layout,
            without_edges: (layout == 2).then(|| stats::without_edges(Tree::unchecked(&bytes))),
            digests,
            warnings,
        }
    }

    /// The trials, the choice and its reason, and the size of the tree next to that of the text.
    pub fn whole(&self) -> String {
        let Built { chosen, title, besides, .. } = &self.built;
        let mut text = format!("{title}: {} bytes\n", grouped(self.length as u64));
        if chosen.tried.len() > 1 {
            text += "leaf  arity  levels  tree's bytes\n";
            for Trial { settings, size } in &chosen.tried {
                text += &format!("{:>4}  {:>5}  {:>6}  {:>12}\n", settings.leaf, settings.arity, settings.levels, grouped(*size as u64));
            }
            text += &format!("chosen: {}, since its tree is the smallest of these {}\n", shape(&chosen.settings), chosen.tried.len());
        }
        text += &format!("{}\n", self.sizes());
        text += &self.digests.map_or(String::new(), |Digests { tree, text }| format!("SHA-256 of the tree {tree}\nSHA-256 of its text {text}\n"));
        text += &self.manifest.as_ref().map_or(String::new(), |name| format!("manifest {name}\n"));
        text + &besides.as_ref().map_or(String::new(), |compared| compared.words(self.size))
    }

    /// The line of one book of several.
    pub fn line(&self) -> String {
        let digests = self.digests.map_or(String::new(), |Digests { tree, text }| format!("; SHA-256 of the tree {tree}, of its text {text}"));
        let manifest = self.manifest.as_ref().map_or(String::new(), |name| format!("; manifest {name}"));
        format!("{}{digests}{manifest}\n", self.sizes())
    }

    fn sizes(&self) -> String {
        let settings = &self.built.chosen.settings;
        format!(
            "{}: {} bytes, {}; {}; bytes counted: {}{}",
            self.tree,
            grouped(self.size as u64),
            share(self.size, self.length),
            shape(settings),
            listed(&settings.counted),
            if self.layout == 1 { "; without edges" } else { "" }
        )
    }

    pub fn object(&self) -> Object {
        let Chosen { settings, tried, .. } = &self.built.chosen;
        let digest = |object: Object, name: &str, digest: Option<codebook::Digest>| match digest {
            Some(digest) => object.text(name, &digest.to_string()),
            None => object,
        };
        let tried = tried.iter().map(|trial| shaped(Object::new(), &trial.settings).number("size", trial.size));
        let object = Object::new().text("book", &self.book).number("length", self.length).text("tree", &self.tree).number("size", self.size);
        let object = shaped(object, settings).numbers("counted", &settings.counted);
        let object = digest(object, "sha256", self.digests.map(|digests| digests.tree)).objects("tried", tried);
        let object = self.built.besides.as_ref().map_or(object.clone(), |compared| compared.members(object));
        let warnings: Vec<String> = self.warnings.iter().map(Warning::words).collect();
        let object = object.texts("warnings", &warnings).number("layout", self.layout);
        let object = self.without_edges.map_or(object.clone(), |size| object.number("size_without_edges", size));
        let object = digest(object, "text_sha256", self.digests.map(|digests| digests.text)).number("rows", self.rows);
        self.manifest.as_ref().map_or(object.clone(), |name| object.text("manifest", name))
    }
}

fn warnings(text: &[u8], built: &Built) -> Vec<Warning> {
    let mut warnings = book::warnings(text, &built.chosen.settings.counted);
    if !text.is_empty() && built.chosen.tree.len() >= text.len() {
        warnings.push(Warning::NoSmaller);
        warnings.extend(built.small.map(|size| Warning::Small(size, text.len())));
    }
    warnings
}

fn shaped(object: Object, settings: &Settings) -> Object {
    object.number("leaf", settings.leaf).number("arity", settings.arity).number("levels", settings.levels)
}

//! Links the proved library, target/staticlib/libabi.a; makes it first with `host/make-archive` if it is missing.
//!
//! BLOCKTREE_ARCHIVE names another build of the archive, a file called lib*.a.
//!
//! The tool gets the library's WebAssembly module for `codebook page`, target/other/wasm32/blocktree.wasm, if `targets/make wasm32` has made it;
//! BLOCKTREE_WASM names another one.

use std::env;
use std::fs;
use std::path::{Path, PathBuf};
use std::process::{exit, Command};

fn main() {
    println!("cargo:rerun-if-env-changed=BLOCKTREE_ARCHIVE");
    let repository = Path::new(&env::var("CARGO_MANIFEST_DIR").expect("cargo sets it")).join("..");
    let archive = match env::var_os("BLOCKTREE_ARCHIVE") {
        Some(path) => PathBuf::from(path),
        None => repository.join("target/staticlib/libabi.a"),
    };
    if !archive.exists() && env::var_os("BLOCKTREE_ARCHIVE").is_none() {
        make(&repository);
    }
    let Ok(archive) = archive.canonicalize() else {
        fail(&format!("there is no archive {}", archive.display()));
    };
    println!("cargo:rerun-if-changed={}", archive.display());
    println!("cargo:rustc-env=BLOCKTREE_ARCHIVE={}", archive.display());
    let name = archive.file_name().and_then(|name| name.to_str()).and_then(|name| name.strip_prefix("lib")).and_then(|name| name.strip_suffix(".a"));
    let (Some(folder), Some(name)) = (archive.parent(), name) else {
        fail(&format!("{} is not called lib*.a", archive.display()));
    };
    println!("cargo:rustc-link-search=native={}", folder.display());
    println!("cargo:rustc-link-lib=static={name}");
    let module = module(&repository, &archive).map_or(Vec::new(), |path| {
        println!("cargo:rerun-if-changed={}", path.display());
        fs::read(&path).unwrap_or_else(|error| fail(&format!("{} cannot be read: {error}", path.display())))
    });
    let out = Path::new(&env::var("OUT_DIR").expect("cargo sets it")).join("blocktree.wasm");
    fs::write(&out, module).unwrap_or_else(|error| fail(&format!("{} cannot be written: {error}", out.display())));
}

/// The module to put into the tool, if there is one. One that is older than the archive may be of another library and is left out.
fn module(repository: &Path, archive: &Path) -> Option<PathBuf> {
    println!("cargo:rerun-if-env-changed=BLOCKTREE_WASM");
    if let Some(path) = env::var_os("BLOCKTREE_WASM") {
        return Some(PathBuf::from(path));
    }
    let folder = repository.join("target/other/wasm32");
    // cargo runs this again and again while a path that it watches is missing, so the folder is watched, not the module
    if fs::create_dir_all(&folder).is_ok() {
        println!("cargo:rerun-if-changed={}", folder.display());
    }
    let module = folder.join("blocktree.wasm");
    let changed = |path: &Path| fs::metadata(path).and_then(|metadata| metadata.modified()).ok();
    let made = changed(&module)?;
    if changed(archive).is_some_and(|archive| archive > made) {
        println!("cargo:warning=target/other/wasm32/blocktree.wasm is older than the library and is left out; targets/make wasm32 makes it anew");
        return None;
    }
    Some(module)
}

fn make(repository: &Path) {
    match Command::new(repository.join("host/make-archive")).current_dir(repository).status() {
        Ok(status) if status.success() => {}
        Ok(status) => fail(&format!("`host/make-archive` ended with {status}; run it at the top of the repository to see why")),
        Err(error) => fail(&format!(
            "the library target/staticlib/libabi.a is not built, and `host/make-archive`, which builds it with `rt` of the Rattle toolchain, cannot be started \
             ({error}). Install the toolchain, or run `host/make-archive` where it is and copy the archive here"
        )),
    }
}

fn fail(words: &str) -> ! {
    eprintln!("codebook: {words}");
    exit(1)
}

//! What documents say of the sources.
use std::fs;
use std::path::{Path, PathBuf};

/// The files of a folder and of those in it.
fn files(folder: &Path) -> Vec<PathBuf> {
    let entries = fs::read_dir(folder).unwrap().map(|entry| entry.unwrap().path());
    entries.flat_map(|path| if path.is_dir() { files(&path) } else { vec![path] }).collect()
}

/// The README lists the modules with `unsafe` code. Others may have none (`deny` of lib.rs).
#[test]
fn modules_with_unsafe_code_are_listed() {
    let package = Path::new(env!("CARGO_MANIFEST_DIR"));
    let readme = fs::read_to_string(package.join("README.md")).unwrap();
    let (_, list) = readme.split_once("These modules have `unsafe` code: ").unwrap();
    let (list, _) = list.split_once("\n\n").unwrap();
    let mut listed: Vec<_> = list.split('`').skip(1).step_by(2).collect();
    // these words of the list are no modules with such code
    listed.retain(|name| !["sys", "std"].contains(name));
    listed.sort_unstable();
    let sources = package.join("src");
    let mut found = Vec::new();
    for path in files(&sources) {
        if fs::read_to_string(&path).unwrap().contains("allow(unsafe_code)") {
            let name = path.strip_prefix(&sources).unwrap().with_extension("");
            found.push(name.to_str().unwrap().to_owned());
        }
    }
    found.sort_unstable();
    assert_eq!(listed, found);
}

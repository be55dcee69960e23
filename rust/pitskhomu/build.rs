//! Finds the library's archive, `libpitskhomu.a`, and has it linked. It takes the first of these:
//!
//! 1. the file that `PITSKHOMU_ARCHIVE` names. If it is empty, nothing is linked, so that
//!    `cargo check` and `cargo doc` need no archive;
//! 2. `../../lib/libpitskhomu.a`, which a release has;
//! 3. the newer of a clone's two: `../../out/proved/libpitskhomu.a`, and
//!    `../../out/unproved/libpitskhomu.a`, which isn't proved;
//! 4. the one in the folder `libdir` of pkg-config's `pitskhomu`.
//!
//! An archive whose version of pitskhomu.h doesn't have all that the crate calls is refused.
use std::env;
use std::fs;
use std::path::{Path, PathBuf};
use std::process::{self, Command};

const NAME: &str = "libpitskhomu.a";
/// What is in an archive that isn't proved, in the text of `pk_build`.
const UNPROVED: &[u8] = b", NOT PROVED";
/// What is before the version in an archive (`tools/pk_build.c`), and in the crate.
const VERSION: &[u8] = b"PK_VERSION 0x";
const NEEDED: &[u8] = b"\npub const VERSION: u32 = 0x";

fn main() {
    let archive = match env::var_os("PITSKHOMU_ARCHIVE").map(PathBuf::from) {
        Some(path) if path.as_os_str().is_empty() => None,
        Some(path) if path.is_file() => Some(path),
        Some(path) => refuse(&format!(
            "there is no archive {}, which PITSKHOMU_ARCHIVE names",
            path.display()
        )),
        None if env::var_os("DOCS_RS").is_some() => None,
        None => Some(of_release().or_else(of_clone).or_else(of_pkg_config).unwrap_or_else(|| {
            refuse(
                "there is no libpitskhomu.a to link: make one in a clone with `./run --rust` (a \
                 minute), or take lib/libpitskhomu.a of a release, and say where it is with \
                 `export PITSKHOMU_ARCHIVE=/path/to/libpitskhomu.a`, or without an archive check \
                 with `PITSKHOMU_ARCHIVE= cargo check`",
            )
        })),
    };
    // Nothing is printed before a refusal, which cargo would show beside it.
    println!("cargo:rerun-if-changed=build.rs");
    for name in ["PITSKHOMU_ARCHIVE", "PKG_CONFIG_PATH"] {
        println!("cargo:rerun-if-env-changed={name}");
    }
    if let Some(archive) = archive {
        link(&archive);
    }
}

/// Ends with one sentence.
fn refuse(why: &str) -> ! {
    eprintln!("pitskhomu: {why}");
    process::exit(1)
}

/// The top of the release or clone, if the package lies in one.
fn top() -> PathBuf {
    let package = env::var_os("CARGO_MANIFEST_DIR").map(PathBuf::from).unwrap_or_default();
    package.ancestors().nth(2).map(Path::to_path_buf).unwrap_or_default()
}

fn of_release() -> Option<PathBuf> {
    Some(top().join("lib").join(NAME)).filter(|path| path.is_file())
}

/// The newer of the clone's two archives.
fn of_clone() -> Option<PathBuf> {
    ["unproved", "proved"]
        .into_iter()
        .map(|kind| top().join("out").join(kind).join(NAME))
        .filter(|path| path.is_file())
        .max_by_key(|path| fs::metadata(path).and_then(|data| data.modified()).ok())
}

fn of_pkg_config() -> Option<PathBuf> {
    let asked =
        Command::new("pkg-config").args(["--variable=libdir", "pitskhomu"]).output().ok()?;
    let folder = String::from_utf8(asked.stdout).ok()?;
    Some(Path::new(folder.trim()).join(NAME)).filter(|path| path.is_file())
}

/// Where a text ends in a file.
fn end_of(text: &[u8], file: &[u8]) -> Option<usize> {
    file.windows(text.len()).position(|part| part == text).map(|at| at + text.len())
}

/// The hexadecimal number after a text in a file.
fn number_after(text: &[u8], file: &[u8]) -> Option<u32> {
    let rest = &file[end_of(text, file)?..];
    let digits = rest.iter().take_while(|byte| byte.is_ascii_hexdigit());
    u32::from_str_radix(&digits.map(|&digit| char::from(digit)).collect::<String>(), 16).ok()
}

/// Refuses an archive that lacks what the crate calls (`pk_is_compatible`).
fn compare_versions(archive: &Path, bytes: &[u8]) {
    let needed = number_after(NEEDED, include_bytes!("src/sys.rs")).expect("sys.rs has it");
    let (major, minor) = (needed >> 16, needed & 0xffff);
    let has = match number_after(VERSION, bytes) {
        Some(version) if version >> 16 == major && version >= needed => return,
        Some(version) => format!("version {}.{}", version >> 16, version & 0xffff),
        None => "an earlier version".into(),
    };
    refuse(&format!(
        "{} has {has} of the C interface, and this crate needs {major}.{minor} or a later \
         {major}.N: take both from one release",
        archive.display()
    ));
}

/// Links the archive, and warns if it isn't proved.
fn link(archive: &Path) {
    let bytes = fs::read(archive)
        .unwrap_or_else(|error| refuse(&format!("{} can't be read: {error}", archive.display())));
    let has = |text: &[u8]| end_of(text, &bytes).is_some();
    if !has(b"pk_build") {
        refuse(&format!(
            "{} isn't a libpitskhomu.a: `tools/library take` makes one of the toolchain's archive",
            archive.display()
        ));
    }
    compare_versions(archive, &bytes);
    println!("cargo:rerun-if-changed={}", archive.display());
    if has(UNPROVED) {
        println!("cargo:warning=the library was built without proofs: {}", archive.display());
    }
    let folder = env::var_os("OUT_DIR").map(PathBuf::from).expect("cargo sets OUT_DIR");
    fs::write(folder.join(NAME), bytes)
        .unwrap_or_else(|error| panic!("{NAME} can't be written: {error}"));
    println!("cargo:rustc-link-search=native={}", folder.display());
    println!("cargo:rustc-link-lib=static=pitskhomu");
}

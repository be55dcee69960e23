//! The archive that `build.rs` links: a program by itself, over files that stand for archives.
use pitskhomu::VERSION;
use std::env;
use std::fs;
use std::path::{Path, PathBuf};
use std::process::Command;

/// A folder that is removed.
struct Folder(PathBuf);

impl Drop for Folder {
    fn drop(&mut self) {
        let _ = fs::remove_dir_all(&self.0);
    }
}

/// What `build.rs` does with an archive of these bytes: whether it links it, and what it says.
fn linked(folder: &Path, bytes: &[u8]) -> (bool, String) {
    let archive = folder.join("archive.a");
    fs::write(&archive, bytes).unwrap();
    let ran = Command::new(folder.join("build"))
        .env("PITSKHOMU_ARCHIVE", &archive)
        .env("OUT_DIR", folder)
        .output()
        .unwrap();
    let told = String::from_utf8(ran.stderr).unwrap();
    let printed = String::from_utf8(ran.stdout).unwrap();
    assert_eq!(printed.contains("rustc-link-lib=static=pitskhomu"), ran.status.success());
    (ran.status.success(), told.replace(archive.to_str().unwrap(), "ARCHIVE"))
}

#[test]
fn an_archive_of_another_version_is_not_linked() {
    let name = format!("pitskhomu_archive_{}", std::process::id());
    let folder = Folder(env::temp_dir().join(name));
    fs::create_dir_all(&folder.0).unwrap();
    let rustc = env::var_os("RUSTC").unwrap_or_else(|| "rustc".into());
    let build = concat!(env!("CARGO_MANIFEST_DIR"), "/build.rs");
    let mut compiler = Command::new(rustc);
    compiler.args(["--edition=2021", build, "-o"]).arg(folder.0.join("build"));
    assert!(compiler.status().unwrap().success());

    let (major, minor) = (VERSION >> 16, VERSION & 0xffff);
    let needs = format!("this crate needs {major}.{minor} or a later {major}.N");
    let of = |version: u32| format!("!<arch>\n\0pk_build\0PK_VERSION {version:#x}u\0");
    for version in [VERSION, VERSION + 1, VERSION | 0xffff] {
        assert_eq!(linked(&folder.0, of(version).as_bytes()), (true, String::new()));
    }
    for version in [VERSION - 1, VERSION + 0x1_0000, 0xc_0000, 0] {
        let (major, minor) = (version >> 16, version & 0xffff);
        let wanted = format!(
            "pitskhomu: ARCHIVE has version {major}.{minor} of the C interface, and {needs}: take \
             both from one release\n"
        );
        assert_eq!(linked(&folder.0, of(version).as_bytes()), (false, wanted));
    }
    let (is_linked, told) = linked(&folder.0, b"!<arch>\n\0pk_build\0");
    assert!(!is_linked && told.contains("has an earlier version of the C interface"), "{told}");
    let (is_linked, told) = linked(&folder.0, b"!<arch>\n\0pk_version\0");
    assert!(!is_linked && told.contains("isn't a libpitskhomu.a"), "{told}");
}

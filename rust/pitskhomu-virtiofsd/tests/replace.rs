//! The daemon is replaced by others under a driver's load, without a guest: a part of `rust/test
//! replace`, whose driver this compiles.
use std::ffi::CString;
use std::fs;
use std::os::unix::ffi::OsStrExt;
use std::path::{Path, PathBuf};
use std::process::Command;

/// The driver's parts that are tried here, with their counts.
const PARTS: &[(&str, &str)] = &[
    ("refusals", "1"),
    ("held", "1"),
    ("gone", "1"),
    ("liars", "1"),
    ("race", "2"),
    ("logged", "1"),
    ("between", "9"),
    ("given-up", "20"),
    ("times", "4"),
];

fn compile(folder: &Path) -> PathBuf {
    let rust = Path::new(concat!(env!("CARGO_MANIFEST_DIR"), "/.."));
    let (testing, by_chance) = (rust.join("testing"), rust.join("../examples/c/tests"));
    let names = ["replaced", "replaced_parts", "between", "stream", "iommu", "front"];
    let program = folder.join("replaced");
    let status = Command::new("cc")
        .args(["-std=c11", "-pthread", "-O2", "-Wall", "-Wextra", "-Werror", "-I"])
        .arg(&by_chance)
        .arg("-o")
        .arg(&program)
        .args(names.map(|name| testing.join(name).with_extension("c")))
        .arg(by_chance.join("chance.c"))
        .status()
        .expect("cc");
    assert!(status.success(), "the driver isn't compiled");
    program
}

/// Whether the folder's file system has file handles.
fn has_handles(folder: &Path) -> bool {
    let path = CString::new(folder.as_os_str().as_bytes()).expect("a path");
    let (mut none, mut mount) = ([0u32, 0], 0i32);
    let (at, none, mount) = (path.as_ptr(), none.as_mut_ptr(), &raw mut mount);
    // SAFETY: the path is a C string, and the handle has room for 0 bytes, as it says.
    let got =
        unsafe { libc::syscall(libc::SYS_name_to_handle_at, libc::AT_FDCWD, at, none, mount, 0) };
    got != 0 && std::io::Error::last_os_error().raw_os_error() == Some(libc::EOVERFLOW)
}

fn try_part(program: &Path, folder: &Path, (part, count): (&str, &str), more: [&str; 2]) {
    let [iommu, options] = more;
    let share = folder.join(format!("{part}-{iommu}-{options}"));
    fs::create_dir_all(&share).expect("a directory");
    fs::write(share.join("file"), "file").expect("a file");
    let tried = Command::new(program)
        .args([env!("CARGO_BIN_EXE_pitskhomu-virtiofsd").as_ref(), share.as_os_str()])
        .args([part, count])
        .envs([("IOMMU", iommu), ("THREADS", "2"), ("OPTIONS", options)])
        .env("TMPDIR", folder)
        .output()
        .expect("the driver");
    let errors = String::from_utf8_lossy(&tried.stderr);
    assert!(tried.status.success(), "{part}, IOMMU {iommu}, {options}: {errors}");
}

/// Strangers and namespaces need root. Elsewhere only `rust/test replace` tries this.
#[test]
fn the_daemon_is_replaced_under_load() {
    // SAFETY: no memory is touched.
    if unsafe { libc::geteuid() } != 0 {
        return;
    }
    let folder = std::env::temp_dir().join(format!("pitskhomu-replace-{}", std::process::id()));
    fs::create_dir_all(&folder).expect("a folder");
    let program = compile(&folder);
    for iommu in ["0", "1"] {
        PARTS.iter().for_each(|part| try_part(&program, &folder, *part, [iommu, ""]));
    }
    if has_handles(&folder) {
        for options in [
            "--migration-mode=file-handles --modcaps=+dac_read_search",
            "--inode-file-handles=mandatory",
            "--inode-file-handles=mandatory --migration-mode=file-handles",
        ] {
            try_part(&program, &folder, ("gone", "1"), ["0", options]);
        }
    }
    fs::remove_dir_all(&folder).expect("removed");
}

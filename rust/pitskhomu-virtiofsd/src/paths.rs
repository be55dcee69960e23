//! The paths of the command line. Each error names the path and the reason. virtiofsd says of each
//! that it doesn't exist, and these words stay for those that don't.
use log::warn;
use std::fs;
use std::io::ErrorKind;
use std::path::Path;
use virtiofsd::sandbox::SandboxMode;

/// Whether the directory can be shared. An error is a message. virtiofsd shares a file, too, if no
/// sandbox needs a directory.
pub fn check_shared(path: &str, sandbox: SandboxMode) -> Result<(), String> {
    if path.is_empty() {
        return Err("the shared directory's path is empty".into());
    }
    let metadata = fs::metadata(path).map_err(|e| match e.kind() {
        ErrorKind::NotFound => format!("{path} does not exist"),
        _ => format!("{path} can't be shared: {e}"),
    })?;
    if metadata.is_dir() {
        if let Err(e) = fs::read_dir(path) {
            warn!("{path} can't be read: {e}");
        }
        return Ok(());
    }
    match (metadata.is_file(), sandbox) {
        (true, SandboxMode::None) => Ok(()),
        (true, _) => Err(format!("{path} is a file, which only --sandbox=none can share")),
        _ => Err(format!("{path} is neither a directory nor a file")),
    }
}

/// Whether the folder can have the socket. An error is a message.
pub fn check_folder(folder: &Path) -> Result<(), String> {
    if folder.as_os_str().is_empty() {
        return Ok(());
    }
    let name = folder.display();
    match fs::metadata(folder) {
        Ok(metadata) if metadata.is_dir() => Ok(()),
        Err(e) if e.kind() != ErrorKind::NotFound => {
            Err(format!("the socket's folder {name}: {e}"))
        }
        _ => Err(format!("{name} does not exist or is not a directory")),
    }
}

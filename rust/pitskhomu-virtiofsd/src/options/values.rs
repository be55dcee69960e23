//! The values of options, with virtiofsd's messages for wrong ones.
use std::str::FromStr;
use virtiofsd::passthrough::xattrmap::XattrMap;
use virtiofsd::passthrough::InodeFileHandlesMode;
use virtiofsd::vhost_user::MAX_TAG_LEN;

/// Whether inodes are held by file handles or by open descriptors.
#[derive(Debug, Clone, Copy, PartialEq, Eq)]
pub enum Handles {
    /// By descriptors.
    Never,
    /// The same as `Prefer`, by its old name.
    Fallback,
    /// By handles where the host's file system has them.
    Prefer,
    /// Only by handles.
    Mandatory,
}

impl FromStr for Handles {
    type Err = &'static str;
    fn from_str(text: &str) -> Result<Handles, &'static str> {
        match text {
            "never" => Ok(Handles::Never),
            "fallback" => Ok(Handles::Fallback),
            "prefer" => Ok(Handles::Prefer),
            "mandatory" => Ok(Handles::Mandatory),
            _ => Err("invalid inode file handles mode"),
        }
    }
}

impl From<Handles> for InodeFileHandlesMode {
    fn from(handles: Handles) -> InodeFileHandlesMode {
        match handles {
            Handles::Never => InodeFileHandlesMode::Never,
            Handles::Fallback | Handles::Prefer => InodeFileHandlesMode::Prefer,
            Handles::Mandatory => InodeFileHandlesMode::Mandatory,
        }
    }
}

/// The seccomp filter's action for a system call that the daemon doesn't need.
#[derive(Debug, Clone, Copy, PartialEq, Eq)]
pub enum Seccomp {
    /// The call is allowed: there is no filter.
    None,
    /// The daemon is killed.
    Kill,
    /// The call is allowed and logged.
    Log,
    /// The daemon gets SIGSYS.
    Trap,
}

impl FromStr for Seccomp {
    type Err = &'static str;
    fn from_str(text: &str) -> Result<Seccomp, &'static str> {
        match text {
            "none" => Ok(Seccomp::None),
            "kill" => Ok(Seccomp::Kill),
            "log" => Ok(Seccomp::Log),
            "trap" => Ok(Seccomp::Trap),
            _ => Err("Matching variant not found"),
        }
    }
}

/// Whether landlock confines the daemon.
#[derive(Debug, Clone, Copy, PartialEq, Eq)]
pub enum Landlock {
    /// It doesn't.
    Never,
    /// If the kernel has it, and the other options allow it.
    Prefer,
    /// It must.
    Mandatory,
}

impl FromStr for Landlock {
    type Err = &'static str;
    fn from_str(text: &str) -> Result<Landlock, &'static str> {
        match text {
            "never" => Ok(Landlock::Never),
            "prefer" => Ok(Landlock::Prefer),
            "mandatory" => Ok(Landlock::Mandatory),
            _ => Err("Matching variant not found"),
        }
    }
}

/// A change to the default capabilities: one that is kept or dropped.
#[derive(Debug, Clone, PartialEq, Eq)]
pub struct CapabilityChange {
    /// Its name, without `cap_`.
    pub name: String,
    /// Whether it is kept.
    pub keep: bool,
}

/// The value of --modcaps, as `+sys_admin:-chown`.
#[derive(Debug, Clone, Default, PartialEq, Eq)]
pub struct CapabilityChanges(pub Vec<CapabilityChange>);

impl FromStr for CapabilityChanges {
    type Err = String;
    fn from_str(text: &str) -> Result<Self, String> {
        text.split(':').map(change).collect::<Result<_, _>>().map(CapabilityChanges)
    }
}

fn change(word: &str) -> Result<CapabilityChange, String> {
    let mut rest = word.chars();
    let keep = match rest.next() {
        None => return Err("empty modcap found: expected (+|-)capability:...".into()),
        Some('+') => true,
        Some('-') => false,
        Some(other) => {
            return Err(format!("invalid modcap action: expecting '+'|'-' but found '{other}'"))
        }
    };
    let name = rest.as_str().to_uppercase();
    match capng::name_to_capability(&name) {
        Ok(_) => Ok(CapabilityChange { name: name.to_lowercase(), keep }),
        Err(e) => Err(format!("invalid capability '{name}': {e}")),
    }
}

/// A tag that front-ends may ask for.
pub fn tag(text: &str) -> Result<String, String> {
    match text.len() {
        1..=MAX_TAG_LEN => Ok(text.into()),
        _ => Err(virtiofsd::vhost_user::Error::InvalidTag.to_string()),
    }
}

/// Rules for names of extended attributes.
pub fn xattr_map(text: &str) -> Result<XattrMap, String> {
    XattrMap::try_from(text).map_err(|e| e.to_string())
}

//! The daemon keeps only those of root's capabilities that file calls need.
use crate::options::{CapabilityChanges, Handles, Options};
use capng::{Action, Set, Type};
use log::debug;

/// The default capabilities: to make files as other users, with any mode bits, and to change them
/// as root does.
const KEPT: [&str; 8] =
    ["chown", "dac_override", "fowner", "fsetid", "mknod", "setfcap", "setgid", "setuid"];
/// To open inodes by their handles.
const FOR_HANDLES: &str = "dac_read_search";

/// The changes to the default capabilities.
pub struct Changes {
    changes: CapabilityChanges,
    for_handles: bool,
}

impl Changes {
    /// The changes of --modcaps and --inode-file-handles, or an error message if these contradict
    /// each other.
    pub fn new(options: &Options) -> Result<Changes, String> {
        let changes =
            options.modcaps.as_deref().map_or(Ok(CapabilityChanges::default()), str::parse)?;
        Changes::of(changes, options.inode_file_handles)
    }

    fn of(changes: CapabilityChanges, handles: Handles) -> Result<Changes, String> {
        let for_handles = handles != Handles::Never;
        let last = changes.0.iter().rfind(|change| change.name == FOR_HANDLES);
        if for_handles && last.is_some_and(|change| !change.keep) {
            let name = FOR_HANDLES.to_uppercase();
            return Err(format!(
                "can't disable {name} when using --inode-file-handles={handles:?}"
            ));
        }
        Ok(Changes { changes, for_handles })
    }

    /// Whether the daemon may open inodes by their handles.
    pub fn opens_handles(&self) -> bool {
        self.wanted().iter().any(|name| name == FOR_HANDLES)
    }

    /// The names of the capabilities to keep, each once.
    fn wanted(&self) -> Vec<String> {
        let by_habit = KEPT.iter().copied().chain(self.for_handles.then_some(FOR_HANDLES));
        let mut names: Vec<String> = by_habit.map(String::from).collect();
        for change in &self.changes.0 {
            names.retain(|name| *name != change.name);
            if change.keep {
                names.push(change.name.clone());
            }
        }
        names
    }
}

/// Drops all capabilities except those to keep. A capability that the process lacks isn't kept; a
/// user other than root has none.
pub fn give_up(changes: &Changes) -> capng::Result<()> {
    let names = changes.wanted();
    let capabilities = names
        .iter()
        .map(|name| capng::name_to_capability(name))
        .collect::<capng::Result<Vec<_>>>()?;
    capng::get_caps_process()?;
    let has = |capability| capng::have_capability(Type::PERMITTED, capability);
    let may_bound = capng::name_to_capability("setpcap").is_ok_and(has);
    let kept: Vec<&str> = names
        .iter()
        .zip(capabilities)
        .filter(|(_, capability)| has(*capability))
        .map(|(name, _)| name.as_str())
        .collect();
    debug!("capabilities: {kept:?}");
    let set = if may_bound { Set::BOTH } else { Set::CAPS };
    capng::clear(set);
    capng::updatev(Action::ADD, Type::EFFECTIVE | Type::PERMITTED, kept)?;
    capng::apply(set)
}

#[cfg(test)]
mod tests {
    use super::*;

    fn changes(words: &str, handles: Handles) -> Result<Changes, String> {
        Changes::of(words.parse()?, handles)
    }

    #[test]
    fn changes_come_after_the_habit() {
        let names =
            changes("+sys_admin:-chown:+fowner", Handles::Prefer).expect("changes").wanted();
        assert!(
            names.iter().any(|name| name == "sys_admin")
                && names.iter().any(|name| name == FOR_HANDLES)
        );
        assert!(names.iter().all(|name| name != "chown"));
        assert_eq!(names.iter().filter(|name| *name == "fowner").count(), 1);
    }

    #[test]
    fn handles_want_a_capability() {
        let refused = changes("-dac_read_search", Handles::Mandatory).err();
        let why = "can't disable DAC_READ_SEARCH when using --inode-file-handles=Mandatory";
        assert_eq!(refused.as_deref(), Some(why));
        assert!(changes("-dac_read_search", Handles::Never).is_ok());
        assert!(changes("-dac_read_search:+dac_read_search", Handles::Prefer).is_ok());
    }
}

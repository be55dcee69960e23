//! The options that a daemon must share with the one that it replaces: those that the guest or the
//! host's files can notice.
use super::Options;
use clap::Parser;
use std::collections::BTreeMap;
use std::fmt::Debug;

/// Options by their names, each with its value as text.
pub type Listed = BTreeMap<String, String>;

/// The options in which two daemons may differ: names of files, logs and limits, and how inodes are
/// held and found. `--shared-dir` is compared by the directory's device and number.
#[cfg(test)]
const FREE: &[&str] = &[
    "control-socket",
    "debug",
    "detach",
    "fd",
    "foreground",
    "inode-file-handles",
    "keep-cache",
    "landlock",
    "log-level",
    "metrics",
    "migration-confirm-paths",
    "migration-mode",
    "migration-on-error",
    "migration-verify-handles",
    "negative-timeout",
    "no-flush",
    "poll-max-us",
    "print-capabilities",
    "rlimit-nofile",
    "seccomp",
    "shared-dir",
    "socket",
    "socket-group",
    "socket-path",
    "syslog",
    "take-over",
    "thread-pool-size",
];

fn text(value: &impl Debug) -> String {
    format!("{value:?}").to_lowercase()
}

fn flag(is_set: bool) -> String {
    if is_set { "on" } else { "off" }.into()
}

impl Options {
    fn listed(&self) -> Listed {
        let listed = [
            ("tag", format!("{:?}", self.tag)),
            ("num-request-queues", self.num_request_queues.to_string()),
            ("sandbox", text(&self.sandbox)),
            ("modcaps", format!("{:?}", self.modcaps)),
            ("cache", text(&self.cache)),
            ("cache-symlinks", flag(self.cache_symlinks)),
            ("writeback", flag(self.writeback)),
            ("readonly", flag(self.readonly)),
            ("allow-direct-io", flag(self.allow_direct_io)),
            ("allow-mmap", flag(self.allow_mmap)),
            ("announce-submounts", flag(!self.no_announce_submounts)),
            ("xattr", flag(self.has_xattr())),
            ("xattrmap", format!("{:?}", self.xattrmap)),
            ("posix-acl", flag(self.posix_acl)),
            ("security-label", flag(self.security_label)),
            ("killpriv-v2", flag(self.killpriv_v2)),
            ("no-readdirplus", flag(self.no_readdirplus)),
            ("preserve-noatime", flag(self.preserve_noatime)),
            ("uid-map", format!("{:?}", self.uid_map)),
            ("gid-map", format!("{:?}", self.gid_map)),
            ("translate-uid", format!("{:?}", self.translate_uid)),
            ("translate-gid", format!("{:?}", self.translate_gid)),
        ];
        listed.map(|(name, value)| (name.to_owned(), value)).into()
    }

    /// The options of a command line that sets none.
    pub fn defaults() -> Listed {
        let least = ["pitskhomu-virtiofsd", "--shared-dir=/", "--fd=3"];
        Options::try_parse_from(least).map_or_else(|_| Listed::new(), |options| options.listed())
    }

    /// The options that differ from the defaults. A later daemon's option that isn't set is none of
    /// them, so an earlier daemon needn't know it.
    pub fn differing(&self) -> Listed {
        let (mut listed, defaults) = (self.listed(), Options::defaults());
        listed.retain(|name, value| defaults.get(name) != Some(value));
        listed
    }
}

#[cfg(test)]
mod tests {
    use super::*;
    use clap::CommandFactory;

    fn set(words: &str) -> Listed {
        let words = format!("daemon --socket-path=/s --shared-dir=/d {words}");
        let options = Options::try_parse_from(words.split_whitespace());
        options.and_then(Options::with_compat).expect("options").differing()
    }

    /// An option that is added must be listed, or be one of the free ones.
    #[test]
    fn each_option_is_compared_or_free() {
        let (command, defaults) = (Options::command(), Options::defaults());
        let opposites = ["no-announce-submounts", "no-killpriv-v2"];
        for name in command.get_arguments().filter_map(clap::Arg::get_long) {
            let is_free = FREE.contains(&name) || opposites.contains(&name);
            assert!(is_free != defaults.contains_key(name), "{name}");
        }
    }

    #[test]
    fn only_options_that_are_set_are_listed() {
        assert!(
            set("--log-level=debug --thread-pool-size=4 --cache=auto --no-killpriv-v2").is_empty()
        );
        let is_set = |words: &str, name: &str, value: &str| {
            assert_eq!(set(words), Listed::from([(name.into(), value.into())]), "{words}");
        };
        is_set("--readonly", "readonly", "on");
        is_set("--cache=never", "cache", "never");
        is_set("-o xattr", "xattr", "on");
        is_set("--no-announce-submounts", "announce-submounts", "off");
        is_set("--tag=x", "tag", "Some(\"x\")");
        is_set("--num-request-queues=2", "num-request-queues", "2");
        for words in ["--translate-uid=map:0:1000:1", "--xattrmap=:map::user.virtiofs.:"] {
            assert!(!set(words).is_empty(), "{words}");
        }
    }
}

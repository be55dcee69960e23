//! `-o`: options in the form of the C virtiofsd, in one word with commas. libvirt before 9.1 uses
//! this form. The names, the values and the refusals are those of virtiofsd 1.13.2.
use super::values::xattr_map;
use super::Options;
use clap::error::ErrorKind;
use clap::{CommandFactory, Error};
use log::LevelFilter;
use virtiofsd::passthrough::CachePolicy;
use virtiofsd::sandbox::SandboxMode;

fn unknown(option: &str) -> Error {
    Options::command()
        .error(ErrorKind::UnknownArgument, format!("Invalid compat argument '-o {option}'"))
}

fn wrong(name: &str, value: &str) -> Error {
    Options::command()
        .error(ErrorKind::InvalidValue, format!("Invalid compat value '{value}' for '-o {name}'"))
}

impl Options {
    /// These options with those of `-o`, which are applied last.
    pub fn with_compat(mut self) -> Result<Options, Error> {
        for words in std::mem::take(&mut self.compat_options) {
            self.is_compat = true;
            for option in words.split(',') {
                match option.split('=').collect::<Vec<_>>()[..] {
                    [name] => self.set(name)?,
                    [name, value] => self.set_value(name, value, option)?,
                    _ => return Err(unknown(option)),
                }
            }
        }
        Ok(self)
    }

    fn set(&mut self, name: &str) -> Result<(), Error> {
        match name {
            "xattr" => self.xattr = true,
            "no_xattr" => self.xattr = false,
            "readdirplus" => self.no_readdirplus = false,
            "no_readdirplus" => self.no_readdirplus = true,
            "writeback" => self.writeback = true,
            "no_writeback" => self.writeback = false,
            "allow_direct_io" => self.allow_direct_io = true,
            "no_allow_direct_io" => self.allow_direct_io = false,
            "announce_submounts" => self.announce_submounts = true,
            "killpriv_v2" => self.killpriv_v2 = true,
            "no_killpriv_v2" => self.killpriv_v2 = false,
            "posix_acl" => self.posix_acl = true,
            "no_posix_acl" => self.posix_acl = false,
            "security_label" => self.security_label = true,
            "no_security_label" => self.security_label = false,
            // the guest's kernel keeps all locks itself
            "no_posix_lock" | "no_flock" => {}
            _ => return Err(unknown(name)),
        }
        Ok(())
    }

    fn set_value(&mut self, name: &str, value: &str, option: &str) -> Result<(), Error> {
        match (name, value) {
            ("source", _) => self.shared_dir = Some(value.into()),
            ("modcaps", _) => self.modcaps = Some(value.into()),
            ("xattrmap", _) => {
                self.xattrmap = Some(xattr_map(value).map_err(|_| wrong(name, value))?);
            }
            ("cache", "auto") => self.cache = CachePolicy::Auto,
            ("cache", "always") => self.cache = CachePolicy::Always,
            ("cache", "none") => self.cache = CachePolicy::Never,
            ("cache", "metadata") => self.cache = CachePolicy::Metadata,
            ("loglevel", "debug") => self.log_level = LevelFilter::Debug,
            ("loglevel", "info") => self.log_level = LevelFilter::Info,
            ("loglevel", "warn") => self.log_level = LevelFilter::Warn,
            ("loglevel", "err") => self.log_level = LevelFilter::Error,
            ("sandbox", "namespace") => self.sandbox = SandboxMode::Namespace,
            ("sandbox", "chroot") => self.sandbox = SandboxMode::Chroot,
            ("cache" | "loglevel" | "sandbox", _) => return Err(wrong(name, value)),
            _ => return Err(unknown(option)),
        }
        Ok(())
    }
}

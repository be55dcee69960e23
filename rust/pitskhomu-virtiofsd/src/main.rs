//! The daemon: from the command line to a served directory. It sets up the log, the limit of
//! descriptors, the socket and a file in memory for migrations before it enters the sandbox.
mod adapter;
mod capabilities;
mod fd_table;
mod guest_cache;
mod landlock;
mod logger;
mod numbers;
mod open_flags;
mod options;
mod paths;
mod replace;
mod serve;
mod signals;
mod socket;
mod start;
mod starter;
mod state;
mod system_calls;

use clap::Parser;
use logger::Logger;
use options::Options;
use pitskhomu_vhost_user::{notifier, ring};
use starter::Process;
use std::fs::File;
use std::process::ExitCode;

/// The output of --print-capabilities (vhost-user.json of QEMU's interop documents).
const CAPABILITIES: &str = r#"{
  "type": "fs",
  "features": [
    "migrate-precopy",
    "separate-options"
  ]
}"#;

fn main() -> ExitCode {
    numbers::begin();
    let options = Options::parse().with_compat().unwrap_or_else(|e| e.exit());
    if options.print_capabilities {
        println!("{CAPABILITIES}");
        return ExitCode::SUCCESS;
    }
    if !options.detach {
        return serve(options, None);
    }
    match starter::detach() {
        Ok(Process::Started(status)) => status,
        Ok(Process::Daemon(foreground)) => serve(options, Some(foreground)),
        Err(e) => {
            eprintln!("pitskhomu-virtiofsd: --detach: {e}");
            ExitCode::FAILURE
        }
    }
}

/// Serves with these options. A process in the foreground waits until then, if there is one.
fn serve(options: Options, foreground: Option<File>) -> ExitCode {
    let logger = match Logger::new(&options) {
        Ok(logger) => logger,
        Err(why) => {
            eprintln!("pitskhomu-virtiofsd: {why}");
            return ExitCode::FAILURE;
        }
    };
    let ended = start::run(options, foreground, &logger);
    if let Err(why) = &ended {
        log::error!("{why}");
    }
    logger.finish();
    if ended.is_ok() {
        ExitCode::SUCCESS
    } else {
        ExitCode::FAILURE
    }
}

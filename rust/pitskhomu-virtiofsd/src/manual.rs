//! `manual FOLDER` writes the manual page and the completions of the daemon's options to a folder.
//! (The package is ../manual.)
#[allow(dead_code, reason = "only the options need it")]
mod guest_cache;
#[allow(dead_code, unused_imports, reason = "only the command is used")]
mod options;

use clap::CommandFactory;
use clap_complete::{generate_to, Shell};
use std::env;
use std::fs::File;
use std::io::{Error, Result, Write};
use std::path::PathBuf;

/// The sections of the page behind those of the options.
const MORE: &str = r#".SH FILES
.TP
\fISOCKET_PATH\fR.pid
The daemon's process number, while it runs.
.TP
/usr/share/qemu/vhost\-user/50\-pitskhomu\-virtiofsd.json
By this file libvirt and other managers find the daemon.
.SH SIGNALS
.TP
SIGUSR1
Numbers are written to the log: requests by opcode with their times, chains in flight, descriptors.
.TP
SIGTERM, SIGINT, SIGHUP
The daemon ends, with status 0.
.SH "EXIT STATUS"
0 if the front\-end has left, 1 after an error that the log names, 2 for a wrong command line.
.SH EXAMPLES
.nf
pitskhomu\-virtiofsd \-\-socket\-path /run/shared.sock \-\-shared\-dir /srv/shared &
qemu\-system\-x86_64 .. \-m 2G \-object memory\-backend\-memfd,id=mem,size=2G,share=on \e
    \-machine memory\-backend=mem \-chardev socket,id=fs,path=/run/shared.sock \e
    \-device vhost\-user\-fs\-pci,chardev=fs,tag=shared
.fi
.PP
In the guest: mount \-t virtiofs shared /mnt
.SH "SEE ALSO"
qemu\-system\-x86_64(1), virsh(1), systemd.service(5)
"#;

fn main() -> Result<()> {
    let folder = env::args_os().nth(1).map(PathBuf::from);
    let folder = folder.ok_or_else(|| Error::other("usage: manual FOLDER"))?;
    let mut command = options::Options::command();
    for shell in [Shell::Bash, Shell::Zsh, Shell::Fish] {
        generate_to(shell, &mut command, "pitskhomu-virtiofsd", &folder)?;
    }
    let mut page = File::create(folder.join("pitskhomu-virtiofsd.1"))?;
    let command = command.version(env!("CARGO_PKG_VERSION"));
    clap_mangen::Man::new(command).render(&mut page)?;
    page.write_all(MORE.as_bytes())
}

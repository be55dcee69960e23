//! Serves a file system in memory to QEMU: a directory with one file, which the guest may read and
//! write. Another thread answers each READ a while later, as one does that asks a network.
//!
//!     cargo run --example in_memory /run/memory.sock
use pitskhomu::prelude::*;
use pitskhomu_vhost_user::{Builder, Error};
use std::path::PathBuf;
use std::sync::mpsc::channel;
use std::sync::{Arc, Mutex};
use std::{env, thread, time::Duration};

const NAME: &CStr = c"hello";
const FILE: Node = Node(2);
/// The greatest size of the file.
const MOST: u64 = 1 << 20;
/// The guest may keep names and attributes for so long.
const KEPT: Duration = Duration::from_secs(1);

/// The attributes of the directory, and of its file with this length.
fn attributes(node: Node, len: usize) -> Attributes {
    match node {
        FILE => Attributes::file(0o644).with_inode(2).with_size(len as u64),
        _ => Attributes::directory(0o755).with_inode(1),
    }
}

/// Makes a call on the file's bytes.
fn call(bytes: &mut Vec<u8>, operation: Operation<'_>) -> Answer<Response> {
    Ok(match operation {
        Operation::Init(_) => Options::empty().into(),
        Operation::Lookup { parent: Node::ROOT, name } if name == NAME => {
            Entry::new(FILE, attributes(FILE, bytes.len())).with_entry_timeout(KEPT).into()
        }
        Operation::Lookup { .. } => return Err(Errno::ENOENT),
        Operation::Getattr { node, .. } => (attributes(node, bytes.len()), KEPT).into(),
        Operation::Setattr { node, set } => {
            if let (FILE, Some(size)) = (node, set.size()) {
                bytes.resize(size.min(MOST) as usize, 0);
            }
            (attributes(node, bytes.len()), KEPT).into()
        }
        Operation::Open { open, .. } => {
            let len = if open.truncates() { 0 } else { bytes.len() };
            bytes.truncate(len);
            Opened::default().into()
        }
        Operation::Opendir { .. } => Opened::default().into(),
        Operation::Read { read, mut data, .. } => {
            data.put(&bytes[bytes.len().min(read.offset.min(MOST) as usize)..]);
            data.into()
        }
        Operation::Write { write, mut data, .. } => {
            let end = write.offset.checked_add(data.left()).filter(|end| *end <= MOST);
            let (from, end) = (write.offset as usize, end.ok_or(Errno::EFBIG)? as usize);
            bytes.resize(bytes.len().max(end), 0);
            data.take(&mut bytes[from..end]);
            data.into()
        }
        Operation::Readdir { read, mut list, .. } => {
            let file = DirectoryEntry::new(NAME, FILE.0, 1, FileKind::REGULAR);
            let entry = || Ok(Entry::new(FILE, attributes(FILE, bytes.len())));
            let _ = read.offset == 0 && list.add_with(file, entry)?;
            list.into()
        }
        Operation::Release { .. } | Operation::Releasedir { .. } => Response::Done,
        Operation::Destroy | Operation::Forget { .. } | Operation::BatchForget(_) => Response::Done,
        Operation::Statfs { .. } => Statistics::default().into(),
        _ => return Err(Errno::ENOSYS),
    })
}

/// Serves the file at this socket, until the VMM disconnects.
pub fn serve(socket: PathBuf) -> Result<(), Error> {
    let file = Arc::new(Mutex::new(b"Hello, guest!\n".to_vec()));
    let (jobs, reads) = channel::<OwnedRequest>();
    let bytes = file.clone();
    thread::spawn(move || {
        for OwnedRequest { call: read, reply, .. } in reads {
            thread::sleep(Duration::from_millis(20));
            let _ = reply.answer(call(&mut bytes.lock().unwrap(), read.operation()));
        }
    });
    let jobs = Mutex::new(jobs);
    let handler = move |request: Request<'_>| {
        if let Operation::Read { .. } = request.operation {
            // If a step fails, the reply object is dropped, and the guest gets EIO.
            if let Ok(request) = request.into_owned() {
                let _ = jobs.lock().unwrap().send(request);
            }
        } else {
            let _ = request.reply.answer(call(&mut file.lock().unwrap(), request.operation));
        }
    };
    Builder::new().threads(4).serve_by_values(socket, handler)
}

fn main() -> Result<(), Error> {
    serve(env::args_os().nth(1).expect("in_memory SOCKET").into())
}

//! The method of the file system for each operation.
use crate::errno::{Answer, Errno};
use crate::file_system::FileSystem;
use crate::operation::Operation;
use crate::reply::Response;
use crate::values::Context;
use alloc::vec::Vec;

impl Operation<'_> {
    /// Makes the call by the methods of a file system. What they return is the answer
    /// ([`Reply::answer`](crate::Reply::answer)). `FileSystem::reply_by_bytes` isn't asked.
    ///
    /// # Errors
    /// That of the method. `ERANGE`: it returned a length that its buffer doesn't have. `ENOMEM`:
    /// an allocation failed.
    pub fn call(self, file_system: &dyn FileSystem, context: &Context) -> Answer<Response> {
        let room = match self {
            Operation::Readlink { size, .. } => Some(size),
            Operation::Getxattr { size, .. } | Operation::Listxattr { size, .. } => size,
            Operation::None => return Ok(Response::Done),
            Operation::Readdir { node, read, mut list } => {
                return match file_system.readdir(context, node, read, &mut list) {
                    Ok(()) => Ok(list.into()),
                    Err(error) => list.fail(error),
                };
            }
            _ => None,
        };
        let mut buffer = Vec::new();
        buffer.try_reserve_exact(room.unwrap_or(0)).map_err(|_| Errno::ENOMEM)?;
        buffer.resize(room.unwrap_or(0), 0);
        match dispatch(file_system, context, self, &mut buffer)? {
            Made::Response(response) => Ok(response),
            Made::InBuffer(len) if room.is_none() => {
                u32::try_from(len).map(Response::Size).map_err(|_| Errno::ERANGE)
            }
            Made::InBuffer(len) if len > buffer.len() => Err(Errno::ERANGE),
            Made::InBuffer(len) => {
                buffer.truncate(len);
                Ok(buffer.into())
            }
        }
    }
}

/// An answer of the file system.
pub(super) enum Made {
    /// A value.
    Response(Response),
    /// So many bytes at the front of the buffer, or their number if the guest asked for it.
    InBuffer(usize),
}

impl<R: Into<Response>> From<R> for Made {
    fn from(response: R) -> Made {
        Made::Response(response.into())
    }
}

/// Makes the call. `buffer` takes the target of READLINK, and the value or list of GETXATTR and
/// LISTXATTR.
pub(super) fn dispatch(
    file_system: &dyn FileSystem,
    x: &Context,
    operation: Operation<'_>,
    buffer: &mut [u8],
) -> Answer<Made> {
    let fs = file_system;
    Ok(match operation {
        Operation::Init(init) => fs.init(init)?.into(),
        Operation::Lookup { parent, name } => fs.lookup(x, parent, name)?.into(),
        Operation::Getattr { node, handle } => fs.getattr(x, node, handle)?.into(),
        Operation::Setattr { node, set } => fs.setattr(x, node, &set)?.into(),
        Operation::Symlink { link, target } => fs.symlink(x, link, target)?.into(),
        Operation::Mknod { child, make } => fs.mknod(x, child, make)?.into(),
        Operation::Mkdir { child, make } => fs.mkdir(x, child, make)?.into(),
        Operation::Link { node, child } => fs.link(x, node, child)?.into(),
        Operation::Create { child, create } => fs.create(x, child, create)?.into(),
        Operation::Open { node, open } => fs.open(x, node, open)?.into(),
        Operation::Opendir { node, flags } => fs.opendir(x, node, flags)?.into(),
        Operation::Statfs { node } => fs.statfs(x, node)?.into(),
        Operation::Lseek { node, seek } => Response::Offset(fs.lseek(x, node, seek)?).into(),
        Operation::CopyFileRange(copy) => Response::Written(fs.copy_file_range(x, copy)?).into(),
        Operation::Read { node, read, mut data } => {
            fs.read(x, node, read, &mut data)?;
            data.into()
        }
        Operation::Write { node, write, mut data } => {
            fs.write(x, node, write, &mut data)?;
            data.into()
        }
        Operation::Readdir { node, read, mut list } => {
            fs.readdir(x, node, read, &mut list)?;
            list.into()
        }
        Operation::Readlink { node, .. } => Made::InBuffer(fs.readlink(x, node, buffer)?),
        Operation::Getxattr { node, name, .. } => {
            Made::InBuffer(fs.getxattr(x, node, name, buffer)?)
        }
        Operation::Listxattr { node, .. } => Made::InBuffer(fs.listxattr(x, node, buffer)?),
        other => done(fs, x, other)?.into(),
    })
}

/// The calls whose answer is "done" or an error, and those that have none.
fn done(fs: &dyn FileSystem, x: &Context, operation: Operation<'_>) -> Answer<()> {
    match operation {
        Operation::Forget { node, count } => fs.forget(node, count),
        Operation::BatchForget(forgets) => fs.batch_forget(forgets),
        Operation::Destroy => fs.destroy(),
        Operation::Unlink(child) => fs.unlink(x, child)?,
        Operation::Rmdir(child) => fs.rmdir(x, child)?,
        Operation::Rename { from, to, flags } => fs.rename(x, from, to, flags)?,
        Operation::Setxattr { node, name, value, set } => {
            fs.setxattr(x, node, name, value, set)?;
        }
        Operation::Removexattr { node, name } => fs.removexattr(x, node, name)?,
        Operation::Access { node, mask } => fs.access(x, node, mask)?,
        Operation::Fsync { node, handle, data_only } => fs.fsync(x, node, handle, data_only)?,
        Operation::Fsyncdir { node, handle, data_only } => {
            fs.fsyncdir(x, node, handle, data_only)?;
        }
        Operation::Flush { node, handle, lock_owner } => fs.flush(x, node, handle, lock_owner)?,
        Operation::Release { node, release } => fs.release(x, node, release)?,
        Operation::Releasedir { node, handle, flags } => {
            fs.releasedir(x, node, handle, flags)?;
        }
        Operation::Fallocate { node, allocate } => fs.fallocate(x, node, allocate)?,
        Operation::Syncfs { node } => fs.syncfs(x, node)?,
        _ => return Err(Errno::ENOSYS),
    }
    Ok(())
}

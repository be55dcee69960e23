//! What is to be undone of a call whose answer the guest never gets.
use crate::file_system::FileSystem;
use crate::requests::Release;
use crate::sys::{self, kind};
use crate::values::{Context, Handle, Node};
use alloc::vec::Vec;

/// Something that an answer would have given the guest. The guest never got it, so it never gives
/// it back by FORGET or RELEASE.
#[derive(Clone, Copy, Debug, PartialEq, Eq)]
#[non_exhaustive]
pub enum Undo {
    /// The node was to be held once more.
    Forget(Node),
    /// The file was opened.
    Release(Node, Release),
    /// The directory was opened; its node, its handle, and the flags of OPENDIR.
    Releasedir(Node, Handle, u32),
}

/// A call whose chain was abandoned, because its queue was reset or its worker dropped, or whose
/// answer had no room.
#[derive(Clone, Debug)]
#[non_exhaustive]
pub struct Cancelled {
    /// The call's context: its [`id`](Context::id) is the one that it had.
    pub context: Context,
    /// What its answer would have given the guest, in the order in which it is to be undone.
    /// Nothing if it isn't answered.
    pub undo: Vec<Undo>,
}

impl Cancelled {
    /// Undoes the answer: calls `forget`, `release` or `releasedir` of the file system.
    pub fn undo<F: FileSystem + ?Sized>(&self, file_system: &F) {
        for undo in &self.undo {
            match *undo {
                Undo::Forget(node) => file_system.forget(node, 1),
                Undo::Release(node, release) => {
                    let _ = file_system.release(&self.context, node, release);
                }
                Undo::Releasedir(node, handle, flags) => {
                    let _ = file_system.releasedir(&self.context, node, handle, flags);
                }
            }
        }
    }
}

/// The node and the open file that an answer gives the guest, and the call's own node.
#[derive(Clone, Copy, Debug, Default)]
pub(crate) struct Given {
    /// Whether the answer is an entry: its node, unless that is 0.
    pub entry: Option<Node>,
    /// The open file.
    pub handle: Option<Handle>,
}

/// The call that an answer is for, as far as it matters to what is undone.
#[derive(Clone, Copy, Debug)]
pub(crate) struct Asked {
    pub context: Context,
    pub kind: u32,
    pub node: Node,
    pub flags: u32,
}

impl Asked {
    pub fn new(context: Context, call: &sys::Call) -> Asked {
        Asked { context, kind: call.kind, node: Node(call.node), flags: call.flags }
    }

    /// What is to be undone of what was given, and of these nodes that were listed.
    pub fn cancelled(&self, given: Given, listed: &[Node]) -> Cancelled {
        let mut undo = Vec::new();
        if let Some(handle) = given.handle {
            let release = Release { handle, flags: self.flags, ..Release::default() };
            undo.push(match (self.kind, given.entry) {
                (kind::OPENDIR, _) => Undo::Releasedir(self.node, handle, self.flags),
                (_, Some(made)) => Undo::Release(made, release),
                _ => Undo::Release(self.node, release),
            });
        }
        undo.extend(given.entry.filter(|node| node.0 != 0).map(Undo::Forget));
        undo.extend(listed.iter().copied().map(Undo::Forget));
        Cancelled { context: self.context, undo }
    }
}

//! From a call to its reply: by the file system's methods, or by a reply object's answer. What the
//! guest doesn't get of it is undone.
use super::dispatching::{dispatch, Made};
use super::Worker;
use crate::cancelled::{Asked, Cancelled};
use crate::chain::{Progress, Replied};
use crate::device::Device;
use crate::errno::{Answer, Errno};
use crate::file_system::FileSystem;
use crate::memory::GuestMemory;
use crate::operation;
use crate::reply::Response;
use crate::status::Status;
use crate::sys::kind;
use core::mem;

impl Worker {
    /// Makes the reply, once the reply object has the answer. `false` if it hasn't. So call this
    /// again when the waker was woken (`set_waker`), and `push` after `true`. It needs no lock on
    /// the queue. If the queue was reset or dropped before, no byte of the answer is stored, and
    /// `push` refuses the chain.
    ///
    /// # Errors
    /// `WrongOrder`: the worker has no chain, or one that isn't decoded.
    pub fn finish(&mut self, device: &Device, memory: &dyn GuestMemory) -> Result<bool, Status> {
        match self.chain.progress() {
            Progress::Free | Progress::Popped => return Err(Status::WrongOrder),
            Progress::Replied => return Ok(true),
            Progress::Decoded => {}
        }
        let is_waiting = self.slot.is_waiting();
        let responded = match self.slot.take() {
            Some(answer) if self.session.strong_count() == 0 => self.answer_ended(memory, answer),
            Some(answer) => {
                let made = answer.map(Made::Response);
                self.respond(device, memory, made).or_else(|_| self.answer_error(memory))
            }
            None if is_waiting => return Ok(false),
            None => self.answer_error(memory), // the memory panicked at the answer's stores
        };
        if responded.is_err() {
            self.drop_chain(); // can't happen: the library never refuses EIO
        }
        responded.map(|()| true)
    }

    /// Calls the file system for the chain that was popped, and makes the reply. It does nothing
    /// for a chain that has a reply, or gets none. Call it again after a panic of the file system:
    /// then the answer is EIO.
    ///
    /// # Errors
    /// `WrongOrder`: the worker has no chain, or one whose reply object isn't answered.
    pub fn answer(
        &mut self,
        device: &Device,
        file_system: &dyn FileSystem,
        memory: &dyn GuestMemory,
    ) -> Result<(), Status> {
        let answered = match self.chain.progress() {
            Progress::Free => return Err(Status::WrongOrder),
            Progress::Replied => return Ok(()),
            Progress::Decoded if self.slot.is_waiting() => {
                let is_finished = self.finish(device, memory)?;
                self.tell_cancelled(file_system);
                return if is_finished { Ok(()) } else { Err(Status::WrongOrder) };
            }
            Progress::Popped if !mem::replace(&mut self.is_asked, true) => {
                self.exchange(device, file_system, memory)
            }
            _ => self.answer_error(memory),
        };
        // If the library refuses the answer, the reply is EIO. Files may have changed, so the call
        // isn't made again.
        let answered = answered.or_else(|_| self.answer_error(memory));
        self.is_asked = false;
        if answered.is_err() {
            self.drop_chain(); // can't happen: the library never refuses EIO
        }
        self.tell_cancelled(file_system);
        answered
    }

    /// Answers EIO to a call, or to a request that isn't decoded. DESTROY can't fail, so its answer
    /// is "done".
    pub(super) fn answer_error(&mut self, memory: &dyn GuestMemory) -> Result<(), Status> {
        self.replied = match self.chain.reply_error(Errno::EIO) {
            Err(Status::OtherKind) => self.chain.reply_done()?,
            Err(Status::WrongOrder) => {
                self.load_front(memory); // the memory may have panicked amid its first load
                self.reply_error(memory, Errno::EIO)?;
                Replied::Whole
            }
            replied => replied?,
        };
        if self.replied != Replied::Entries {
            self.take_back();
        }
        Ok(())
    }

    /// The answer came in time, and the session has ended since: the guest's memory is another's
    /// by now. The push, which is refused, undoes the answer.
    fn answer_ended(
        &mut self,
        memory: &dyn GuestMemory,
        answer: Answer<Response>,
    ) -> Result<(), Status> {
        let listed = mem::take(&mut self.nodes);
        self.answer_error(memory)?;
        self.nodes = listed;
        self.keep_given(answer);
        Ok(())
    }

    /// Forgets the worker's chain, whose queue is reset
    /// ([`Queue::begin`](crate::Queue::begin)) or dropped. In a queue that isn't reset the chain
    /// stays in flight. Its reply object is refused from now on. Call it also before you drop a
    /// worker that has a chain.
    /// While a migration's log is on, call [`mark_data`](Worker::mark_data) before.
    ///
    /// If the file system has a call of the chain, the result is that call, and what is to be
    /// undone of its answer: pass it to [`FileSystem::cancelled`].
    #[allow(clippy::must_use_candidate)] // a device that is reset has no files open
    pub fn abandon(&mut self) -> Option<Cancelled> {
        self.drop_chain();
        self.cancelled()
    }

    /// The call that was cancelled by the last call of `finish` or `push`, and what is to be undone
    /// of its answer: its queue was reset, or its answer had no room. Pass it to
    /// [`FileSystem::cancelled`]. `None` is returned after that. `answer` and `serve` tell their
    /// file system by themselves.
    pub fn cancelled(&mut self) -> Option<Cancelled> {
        self.cancelled.take()
    }

    pub(super) fn tell_cancelled(&mut self, file_system: &dyn FileSystem) {
        if let Some(cancelled) = self.cancelled() {
            file_system.cancelled(&cancelled);
        }
    }

    /// Forgets the chain, and keeps for `cancelled` what is to be undone.
    pub(super) fn drop_chain(&mut self) {
        if let Some(answer) = self.slot.close() {
            self.keep_given(answer);
        }
        if mem::take(&mut self.is_called) {
            self.cancel();
        }
        self.chain.abandon();
    }

    /// Keeps what an answer gives, until it is known whether the guest gets it.
    fn keep_given(&mut self, answer: Answer<Response>) {
        if let Ok(response) = answer {
            self.given = response.given();
            if let Response::Entries(entries) = &response {
                self.nodes.extend(entries.nodes(0));
            }
        }
    }

    /// Keeps what was given for `cancelled`: the guest doesn't get it.
    pub(super) fn cancel(&mut self) {
        let (given, listed) = (mem::take(&mut self.given), mem::take(&mut self.nodes));
        let mut more = self.asked().cancelled(given, &listed);
        match &mut self.cancelled {
            Some(cancelled) => cancelled.undo.append(&mut more.undo),
            none => *none = Some(more),
        }
    }

    /// The same, if something was given.
    pub(super) fn take_back(&mut self) {
        if self.given.entry.is_some() || self.given.handle.is_some() || !self.nodes.is_empty() {
            self.cancel();
        }
    }

    /// The call, as far as it matters to what is undone.
    pub(super) fn asked(&self) -> Asked {
        Asked::new(operation::context(self.id, &self.call), &self.call)
    }

    /// Makes the reply to a popped chain: loads and decodes the request, and calls the file system.
    pub(super) fn exchange(
        &mut self,
        device: &Device,
        file_system: &dyn FileSystem,
        memory: &dyn GuestMemory,
    ) -> Result<(), Status> {
        let front = self.load_front(memory);
        if self.reply_by_bytes(front, file_system, memory)? {
            return Ok(());
        }
        self.decode_from(front, device, memory)?;
        if self.call.kind == kind::NONE {
            return Ok(());
        }
        self.is_called = true;
        let made = self.call(file_system, memory);
        self.respond(device, memory, made)
    }

    /// Calls the file system for a decoded request.
    pub(super) fn call(
        &mut self,
        file_system: &dyn FileSystem,
        memory: &dyn GuestMemory,
    ) -> Answer<Made> {
        let has_buffer =
            matches!(self.call.kind, kind::READLINK | kind::GETXATTR | kind::LISTXATTR);
        if has_buffer || self.is_listing() {
            self.grow_list()?;
        }
        let context = operation::context(self.id, &self.call);
        let (decoded, data, buffer) = self.parts(memory);
        dispatch(file_system, &context, decoded.operation(data)?, buffer)
    }
}

//! From a popped chain to its call: loads and decodes the request.
use super::{grow, Worker};
use crate::chain::{Decoded, Progress};
use crate::data::{at_most, load_request};
use crate::device::Device;
use crate::errno::{Answer, Errno};
use crate::exchange::{self, Exchange};
use crate::file_system::FileSystem;
use crate::memory::GuestMemory;
use crate::operation::{self, Data, Operation, Places, Request};
use crate::reply::Reply;
use crate::status::Status;
use crate::sys::{self, answer, kind};

impl Worker {
    /// Decodes the request of the chain that was popped: the call, and an object that takes its
    /// answer. The operation is [`Operation::None`] if nothing is to be answered.
    ///
    /// # Errors
    /// `WrongOrder`: the worker has no chain, or has decoded it.
    pub fn decode<'w>(
        &'w mut self,
        device: &Device,
        memory: &'w dyn GuestMemory,
    ) -> Result<Request<'w>, Status> {
        match self.chain.progress() {
            Progress::Popped if !self.is_asked => self.decode_call(device, memory)?,
            Progress::Replied if self.call.kind == kind::NONE => {} // a chain with a fault
            _ => return Err(Status::WrongOrder),
        }
        Ok(self.request(memory))
    }

    pub(super) fn decode_call(
        &mut self,
        device: &Device,
        memory: &dyn GuestMemory,
    ) -> Result<(), Status> {
        let front = self.load_front(memory);
        let decoded = self.decode_from(front, device, memory);
        decoded.or_else(|_| self.answer_error(memory))?;
        let listed = if self.is_listing() { self.grow_list() } else { Ok(()) };
        listed.or_else(|error| self.chain.reply_error(error).map(|_| ()))?;
        if self.chain.progress() == Progress::Decoded {
            self.is_called = true;
            self.slot.open(self.id, &self.session);
        }
        Ok(())
    }

    /// The request that was decoded.
    pub(super) fn request<'w>(&'w mut self, memory: &'w dyn GuestMemory) -> Request<'w> {
        let (is_open, asked) = (self.is_called, self.asked());
        let takes = if is_open { self.call.answer } else { answer::NONE };
        let reply = Reply::new(self.slot.clone(), asked, takes);
        let (decoded, data, _) = self.parts(memory);
        let has_call = is_open || matches!(decoded.call.kind, kind::FORGET | kind::BATCH_FORGET);
        let operation = if has_call { decoded.operation(data) } else { Ok(Operation::None) };
        let operation = operation.unwrap_or(Operation::None); // the library has tested the names
        Request { context: asked.context, operation, reply, decoded }
    }

    /// The call, the places of its data, and the buffer for a value.
    pub(super) fn parts<'w>(
        &'w mut self,
        memory: &'w dyn GuestMemory,
    ) -> (operation::Decoded<'w>, Data<'w>, &'w mut [u8]) {
        let len = self.list_len().min(self.list.len());
        let is_listing = self.is_listing();
        let decoded =
            operation::Decoded { call: &self.call, request: &self.request[..self.decoded] };
        let list = &mut self.list[..len];
        let (list, buffer) = if is_listing { (list, &mut [][..]) } else { (&mut [][..], list) };
        let places = Places {
            chain: &mut self.chain,
            memory,
            list: (list, &mut self.used, &mut self.nodes),
            counts: &mut self.counts,
        };
        (decoded, Data::InPlace(places), buffer)
    }

    pub(super) fn is_listing(&self) -> bool {
        matches!(self.call.kind, kind::READDIR | kind::READDIRPLUS)
    }

    /// The length of the reply's data, as far as it may be used. A longer reply buffer changes
    /// nothing: a link or a value has at most 64 KiB in Linux, a listing 1 MiB here.
    pub(super) fn list_len(&self) -> usize {
        at_most(self.call.data_len, sys::REQUEST_MAX)
    }

    pub(super) fn grow_list(&mut self) -> Answer<()> {
        let len = self.list_len();
        grow(&mut self.list, len).map_err(|_| Errno::ENOMEM)
    }

    /// The length of the request's first bytes, which are loaded before it is decoded.
    pub(super) fn front_len(&self) -> usize {
        at_most(self.pop.request_len, sys::FIRST)
    }

    /// Loads the request's first bytes, and returns their number.
    pub(super) fn load_front(&mut self, memory: &dyn GuestMemory) -> usize {
        let len = self.front_len();
        load_request(&mut self.chain, memory, 0, &mut self.request[..len]);
        len
    }

    /// The chain by its bytes. The first `front` bytes of the request are loaded.
    pub(super) fn by_bytes<'a>(
        &'a mut self,
        front: usize,
        memory: &'a dyn GuestMemory,
    ) -> Exchange<'a> {
        let sys::PopResult { request_len, reply_len: room_len, .. } = self.pop;
        self.call.opcode = exchange::opcode(&self.request[..front]);
        self.call.unique = exchange::unique(&self.request[..front]);
        let (chain, front) = (&mut self.chain, &self.request[..front]);
        Exchange::new(chain, memory, front, request_len, room_len, &mut self.counts)
    }

    /// Whether the file system replies by bytes (`FileSystem::reply_by_bytes`).
    pub(super) fn reply_by_bytes(
        &mut self,
        front: usize,
        file_system: &dyn FileSystem,
        memory: &dyn GuestMemory,
    ) -> Result<bool, Status> {
        let mut exchange = self.by_bytes(front, memory);
        let reply = file_system.reply_by_bytes(&mut exchange);
        exchange.settle();
        match reply.map(|len| self.chain.reply_bytes(len)) {
            None => Ok(false),
            Some(Err(Status::LongReply)) => self.reply_error(memory, Errno::EIO).map(|()| true),
            Some(replied) => replied.map(|()| true),
        }
    }

    /// Replies an error by bytes, to a request that isn't decoded.
    pub(super) fn reply_error(
        &mut self,
        memory: &dyn GuestMemory,
        error: Errno,
    ) -> Result<(), Status> {
        let front = self.front_len();
        let len = self.by_bytes(front, memory).store_error(error);
        self.chain.reply_bytes(len)
    }

    /// Decodes the request from as many of its bytes as the library needs. The answer is ENOMEM if
    /// the request is longer than any driver makes (a limit above the least allows it), or its
    /// buffer can't be allocated. If the chain stayed available, it would block its queue.
    pub(super) fn decode_from(
        &mut self,
        front: usize,
        device: &Device,
        memory: &dyn GuestMemory,
    ) -> Result<(), Status> {
        let numbers = device.numbers();
        let mut have = front;
        loop {
            let needed = match self.chain.decode(&numbers, &self.request[..have], &mut self.call)? {
                Decoded::Call => {
                    self.decoded = have;
                    return Ok(());
                }
                Decoded::More(needed) if needed > have => needed,
                Decoded::More(_) => return Err(Status::ShortBuffer),
            };
            if needed > sys::REQUEST_MAX || grow(&mut self.request, needed).is_err() {
                return self.reply_error(memory, Errno::ENOMEM);
            }
            load_request(&mut self.chain, memory, have as u64, &mut self.request[have..needed]);
            have = needed;
        }
    }
}

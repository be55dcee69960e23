//! The reply of an answer: the library's function for each.
use super::dispatching::Made;
use super::Worker;
use crate::cancelled::Given;
use crate::chain::Replied;
use crate::data::store_room;
use crate::device::Device;
use crate::errno::{Answer, Errno};
use crate::flags::Options;
use crate::listing::{Entries, Listing};
use crate::memory::GuestMemory;
use crate::reply::Response;
use crate::status::Status;
use crate::sys::{self, answer, kind};

/// A count as a reply's 32 bits, at most `u32::MAX`.
fn number(count: u64) -> u32 {
    u32::try_from(count).unwrap_or(u32::MAX)
}

impl Worker {
    /// Makes the reply of an answer. If the guest doesn't get the answer, it is kept for
    /// `cancelled`.
    pub(super) fn respond(
        &mut self,
        device: &Device,
        memory: &dyn GuestMemory,
        answer: Answer<Made>,
    ) -> Result<(), Status> {
        let made = match answer {
            Ok(made) => made,
            Err(error) => return self.respond_error(device, error),
        };
        self.given = match &made {
            Made::Response(response) => response.given(),
            Made::InBuffer(_) => Given::default(),
        };
        let replied = match made {
            Made::InBuffer(len) => self.reply_buffer(memory, len),
            Made::Response(response) => self.reply(device, memory, response),
        };
        match replied {
            Ok(replied) => self.replied = replied,
            Err(_) => self.respond_error(device, Errno::EIO)?,
        }
        if !matches!(replied, Ok(Replied::Whole | Replied::Entries)) {
            self.take_back();
        }
        Ok(())
    }

    /// Replies an error. DESTROY can't fail, so its answer is "done".
    fn respond_error(&mut self, device: &Device, error: Errno) -> Result<(), Status> {
        self.replied = match self.call.kind {
            kind::DESTROY => self.destroyed(device)?,
            _ => self.chain.reply_error(error)?,
        };
        if self.replied != Replied::Entries {
            self.take_back(); // entries of a list that fails, unless the guest gets them
        }
        Ok(())
    }

    fn destroyed(&mut self, device: &Device) -> Result<Replied, Status> {
        self.agree(device, Options::empty());
        self.chain.reply_done()
    }

    /// Sets what the session agreed on. The answer of a session that has ended sets nothing.
    fn agree(&self, device: &Device, options: Options) {
        if self.session.strong_count() > 0 {
            device.set_options(options);
        }
    }

    fn reply(
        &mut self,
        device: &Device,
        memory: &dyn GuestMemory,
        response: Response,
    ) -> Result<Replied, Status> {
        match response {
            Response::Done if self.call.kind == kind::DESTROY => self.destroyed(device),
            Response::Done if self.call.answer == answer::NONE => Ok(Replied::Whole),
            Response::Done => self.chain.reply_done(),
            Response::Entry(entry) => self.chain.reply_entry(&entry.raw()),
            Response::Created(entry, opened) => {
                let (handle, options) = (opened.handle.0, opened.options.bits());
                self.chain.reply_create(&entry.raw(), handle, options)
            }
            Response::Attributes(attributes, timeout) => {
                let (seconds, nanos) = (timeout.as_secs(), timeout.subsec_nanos());
                self.chain.reply_attributes(&attributes.raw(), seconds, nanos)
            }
            Response::Opened(opened) => {
                self.chain.reply_open(opened.handle.0, opened.options.bits())
            }
            Response::Data(bytes) if self.call.kind == kind::READ => {
                self.reply_read(memory, &bytes)
            }
            Response::Data(bytes) => self.reply_value(memory, &bytes),
            Response::Size(size) => self.chain.reply_xattr(size),
            Response::Written(count) if self.call.kind == kind::COPY_FILE_RANGE => {
                self.chain.reply_write(number(count.min(self.call.size)))
            }
            Response::Written(count) => self.chain.reply_write(number(count)),
            Response::Statistics(statistics) => self.chain.reply_statfs(&statistics.raw()),
            Response::Offset(offset) => self.chain.reply_lseek(offset),
            Response::Options(wanted) => {
                let mut numbers = device.numbers();
                let replied = self.chain.reply_init(&mut numbers, wanted.bits())?;
                self.agree(device, Options::from_bits(numbers.options));
                Ok(replied)
            }
            Response::Entries(entries) => self.reply_entries(memory, &entries),
        }
    }

    /// READ: bytes after those that were put in place.
    fn reply_read(&mut self, memory: &dyn GuestMemory, bytes: &[u8]) -> Result<Replied, Status> {
        let sys::Call { data_at, data_len, size, .. } = self.call;
        let left = data_len.min(size).saturating_sub(self.counts.put);
        let len = crate::data::at_most(left, bytes.len());
        let done = self.counts.put + len as u64;
        self.counts.reach(data_at + done);
        store_room(&mut self.chain, memory, data_at + self.counts.put, &bytes[..len]);
        self.chain.reply_data(done)
    }

    /// READLINK, GETXATTR and LISTXATTR: bytes, or their number if the guest asked for it.
    fn reply_value(&mut self, memory: &dyn GuestMemory, bytes: &[u8]) -> Result<Replied, Status> {
        if self.call.answer == answer::XATTR {
            return self.reply_size(bytes.len());
        }
        if bytes.len() as u64 > self.call.data_len {
            return self.chain.reply_error(Errno::ERANGE);
        }
        self.counts.reach(sys::HEADER + bytes.len() as u64);
        store_room(&mut self.chain, memory, sys::HEADER, bytes);
        self.chain.reply_data(bytes.len() as u64)
    }

    fn reply_size(&mut self, len: usize) -> Result<Replied, Status> {
        match u32::try_from(len) {
            Ok(len) => self.chain.reply_xattr(len),
            Err(_) => self.chain.reply_error(Errno::E2BIG),
        }
    }

    /// The same of bytes in the worker's buffer.
    fn reply_buffer(&mut self, memory: &dyn GuestMemory, len: usize) -> Result<Replied, Status> {
        if self.call.answer == answer::XATTR {
            return self.reply_size(len);
        }
        if len > self.list_len() {
            return self.chain.reply_error(Errno::ERANGE);
        }
        self.counts.reach(sys::HEADER + len as u64);
        store_room(&mut self.chain, memory, sys::HEADER, &self.list[..len]);
        self.chain.reply_data(len as u64)
    }

    /// READDIR and READDIRPLUS: the entries that were added in place, and these. Those that don't
    /// fit are undone.
    fn reply_entries(
        &mut self,
        memory: &dyn GuestMemory,
        entries: &Entries,
    ) -> Result<Replied, Status> {
        let len = self.list_len();
        let with_nodes = self.call.kind == kind::READDIRPLUS;
        let places = (&mut self.list[..len], &mut self.used, &mut self.nodes);
        let mut list = Listing::new(&mut self.chain, places, with_nodes, self.call.size);
        let (added, ended) = entries.add_to(&mut list);
        // READDIR gives no node, if the entries are of a READDIRPLUS.
        let left_out = entries.nodes(if with_nodes { added } else { 0 });
        if !left_out.is_empty() {
            self.cancelled = Some(self.asked().cancelled(Given::default(), &left_out));
        }
        if let Err(error) = ended {
            return self.chain.reply_error(error);
        }
        self.counts.reach(sys::HEADER + self.used as u64);
        store_room(&mut self.chain, memory, sys::HEADER, &self.list[..self.used]);
        self.chain.reply_entries()
    }
}

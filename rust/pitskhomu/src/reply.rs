//! Answers as values, and the object that takes a call's one answer.
use crate::cancelled::{Asked, Cancelled, Given};
use crate::data::{ReadData, WriteData};
use crate::errno::{Answer, Errno};
use crate::flags::Options;
use crate::listing::{Entries, Listing};
use crate::lock::Lock;
use crate::status::Status;
use crate::sys::answer as takes;
use crate::values::{Attributes, Entry, Opened, RequestId, Statistics};
use alloc::boxed::Box;
use alloc::sync::{Arc, Weak};
use alloc::vec::Vec;
use core::fmt;
use core::mem;
use core::task::Waker;
use core::time::Duration;

/// The answer to a call that succeeded, as a value. Most are made by `From`, so
/// [`send`](Reply::send) takes an [`Entry`], an [`Opened`] or a pair of an entry and a file as it
/// is. `()` is `Done`, bytes and a [`ReadData`] are `Data`, a [`WriteData`] is `Written`, and a
/// [`Listing`] is `Entries`. Numbers need a name, for example `Response::Offset(0)`.
#[derive(Clone, Debug, PartialEq)]
#[non_exhaustive]
pub enum Response {
    /// The call has no other answer than that it is done.
    Done,
    /// LOOKUP, SYMLINK, MKNOD, MKDIR, LINK.
    Entry(Entry),
    /// CREATE.
    Created(Entry, Opened),
    /// GETATTR, SETATTR: attributes, and how long the guest may cache them.
    Attributes(Attributes, Duration),
    /// OPEN, OPENDIR.
    Opened(Opened),
    /// READ: these bytes, after those that were put into its [`ReadData`]; none at all is the
    /// file's end. READLINK, GETXATTR, LISTXATTR: the bytes. If they don't fit, the guest gets
    /// ERANGE, and of a READ as many as do.
    Data(Vec<u8>),
    /// GETXATTR and LISTXATTR whose `size` is `None`: the length of the value or the list.
    Size(u32),
    /// WRITE, `COPY_FILE_RANGE`: the number of bytes.
    Written(u64),
    /// STATFS.
    Statistics(Statistics),
    /// LSEEK.
    Offset(u64),
    /// INIT.
    Options(Options),
    /// READDIR, READDIRPLUS: these entries, after those that were added to its [`Listing`].
    Entries(Entries),
}

impl Response {
    /// Whether a call of this kind, with this kind of answer, may have it.
    fn is_for(&self, kind: u32) -> bool {
        match self {
            Response::Done => kind == takes::DONE,
            Response::Entry(_) => kind == takes::ENTRY,
            Response::Created(..) => kind == takes::CREATE,
            Response::Attributes(..) => kind == takes::ATTR,
            Response::Opened(_) => kind == takes::OPEN,
            Response::Data(_) => kind == takes::DATA || kind == takes::XATTR,
            Response::Size(_) => kind == takes::XATTR,
            Response::Written(_) => kind == takes::WRITE,
            Response::Statistics(_) => kind == takes::STATFS,
            Response::Offset(_) => kind == takes::LSEEK,
            Response::Options(_) => kind == takes::INIT,
            Response::Entries(_) => kind == takes::ENTRIES,
        }
    }

    /// The node and the open file that it gives the guest.
    pub(crate) fn given(&self) -> Given {
        match self {
            Response::Entry(entry) => Given { entry: Some(entry.node), handle: None },
            Response::Created(entry, opened) => {
                Given { entry: Some(entry.node), handle: Some(opened.handle) }
            }
            Response::Opened(opened) => Given { entry: None, handle: Some(opened.handle) },
            _ => Given::default(),
        }
    }
}

/// `From` of the value of an answer.
macro_rules! responses {
    ($($from:ty, $value:pat => $response:expr;)*) => {
        $(impl From<$from> for Response {
            fn from($value: $from) -> Response {
                $response
            }
        })*
    };
}

responses! {
    (), () => Response::Done;
    Entry, entry => Response::Entry(entry);
    (Entry, Opened), (entry, opened) => Response::Created(entry, opened);
    (Attributes, Duration), (attributes, timeout) => Response::Attributes(attributes, timeout);
    Opened, opened => Response::Opened(opened);
    Vec<u8>, bytes => Response::Data(bytes);
    Statistics, statistics => Response::Statistics(statistics);
    Options, options => Response::Options(options);
    Entries, entries => Response::Entries(entries);
    ReadData<'_>, data => Response::Data(data.into_bytes());
    WriteData<'_>, data => Response::Written(data.done());
    Listing<'_>, listing => Response::Entries(listing.into_entries());
}

/// The place of a worker's answer, which its reply objects share.
#[derive(Default)]
pub(crate) struct Slot {
    state: Lock<State>,
    /// Woken when an answer comes.
    waker: Option<Waker>,
}

#[derive(Default)]
struct State {
    /// The request that has a reply object and no answer.
    open: Option<RequestId>,
    /// It dies when the request's queue is reset or dropped.
    session: Weak<()>,
    answer: Option<Answer<Response>>,
}

impl Slot {
    pub fn new(waker: Option<Waker>) -> Slot {
        Slot { state: Lock::default(), waker }
    }

    /// Waits for the answer to a request.
    pub fn open(&self, id: RequestId, session: &Weak<()>) {
        let session = session.clone();
        self.state.with(|state| *state = State { open: Some(id), session, answer: None });
    }

    /// Takes no answer any more. The answer that came, if any.
    pub fn close(&self) -> Option<Answer<Response>> {
        self.state.with(mem::take).answer
    }

    /// The answer that came, if any.
    pub fn take(&self) -> Option<Answer<Response>> {
        self.state.with(|state| state.answer.take())
    }

    /// Whether a reply object may still answer, or has.
    pub fn is_waiting(&self) -> bool {
        self.state.with(|state| state.open.is_some() || state.answer.is_some())
    }

    fn is_open(&self, id: RequestId) -> bool {
        self.state.with(|state| state.open == Some(id) && state.session.strong_count() > 0)
    }

    /// Puts an answer in, or returns it: it is too late.
    fn put(&self, id: RequestId, answer: Answer<Response>) -> Option<Answer<Response>> {
        let late = self.state.with(|state| {
            if state.open != Some(id) || state.session.strong_count() == 0 {
                return Some(answer);
            }
            (state.open, state.answer) = (None, Some(answer));
            None
        });
        if let (None, Some(waker)) = (&late, &self.waker) {
            waker.wake_by_ref();
        }
        late
    }
}

/// Takes the one answer to a call. It may move to another thread, and outlive the worker.
///
/// It belongs to one chain of one session of its queue. Once the chain was abandoned
/// ([`Worker::abandon`]), its queue reset or dropped, or the worker dropped, an answer is refused
/// and changes nothing. Dropped without an answer, it answers EIO.
///
/// After an answer came, [`Worker::finish`] makes the reply of it. The worker's waker
/// ([`Worker::set_waker`]) is woken for that.
///
/// [`Worker::abandon`]: crate::Worker::abandon
/// [`Worker::finish`]: crate::Worker::finish
/// [`Worker::set_waker`]: crate::Worker::set_waker
#[must_use = "a reply that is dropped answers EIO"]
pub struct Reply {
    slot: Arc<Slot>,
    asked: Asked,
    /// The kind of the answer (enum `pk_answer_kind`).
    takes: u32,
}

impl fmt::Debug for Reply {
    fn fmt(&self, f: &mut fmt::Formatter<'_>) -> fmt::Result {
        f.debug_struct("Reply").field("id", &self.id()).finish_non_exhaustive()
    }
}

impl Reply {
    pub(crate) fn new(slot: Arc<Slot>, asked: Asked, takes: u32) -> Reply {
        Reply { slot, asked, takes }
    }

    /// The number of its request.
    #[must_use]
    pub fn id(&self) -> RequestId {
        self.asked.context.id
    }

    /// Whether an answer would be refused as too late, so that nobody needs it any more.
    #[must_use]
    pub fn is_cancelled(&self) -> bool {
        self.takes != takes::NONE && !self.slot.is_open(self.id())
    }

    /// Answers the call. A call without an answer, such as FORGET, takes any, and drops it.
    ///
    /// # Errors
    /// The answer is given back.
    /// - `OtherCall`: it is too late. Undo it, by [`FileSystem::cancelled`] or by yourself.
    /// - `OtherKind`: the call has an answer of another kind. The guest gets EIO.
    ///
    /// [`FileSystem::cancelled`]: crate::FileSystem::cancelled
    pub fn send(self, response: impl Into<Response>) -> Result<(), Unsent> {
        self.answer(Ok(response))
    }

    /// Answers an error. EIO in place of a call that can't fail, DESTROY, is as good as done.
    ///
    /// # Errors
    /// `OtherCall`, as of `send`.
    pub fn error(self, error: Errno) -> Result<(), Unsent> {
        self.answer::<()>(Err(error))
    }

    /// Answers with a value or an error.
    ///
    /// # Errors
    /// Those of `send`.
    pub fn answer<R: Into<Response>>(self, answer: Answer<R>) -> Result<(), Unsent> {
        let answer = answer.map(Into::into);
        if self.takes == takes::NONE {
            return Ok(());
        }
        if let Ok(response) = &answer {
            if !response.is_for(self.takes) {
                // Not by the drop of `self`: if the waker panics there, the result leaks.
                let status = match self.slot.put(self.id(), Err(Errno::EIO)) {
                    None => Status::OtherKind,
                    Some(_) => Status::OtherCall,
                };
                return Err(self.unsent(status, answer));
            }
        }
        match self.slot.put(self.id(), answer) {
            None => Ok(()),
            Some(answer) => Err(self.unsent(Status::OtherCall, answer)),
        }
    }

    fn unsent(&self, status: Status, answer: Answer<Response>) -> Unsent {
        let given = answer.as_ref().map_or_else(|_| Given::default(), Response::given);
        let listed = match &answer {
            Ok(Response::Entries(entries)) => entries.nodes(0),
            _ => Vec::new(),
        };
        let cancelled = self.asked.cancelled(given, &listed);
        Unsent(Box::new(Late { status, answer, cancelled }))
    }
}

impl Drop for Reply {
    fn drop(&mut self) {
        let _ = self.slot.put(self.id(), Err(Errno::EIO)); // refused once it is answered
    }
}

#[derive(Debug)]
struct Late {
    status: Status,
    answer: Answer<Response>,
    cancelled: Cancelled,
}

/// An answer that wasn't taken ([`Reply::send`]).
#[derive(Debug)]
pub struct Unsent(Box<Late>);

impl Unsent {
    /// Why: `OtherCall` if it is too late, `OtherKind` if it is of another kind than the call's.
    #[must_use]
    pub fn status(&self) -> Status {
        self.0.status
    }

    /// The answer.
    #[allow(clippy::missing_errors_doc)] // an error is the answer
    pub fn into_answer(self) -> Answer<Response> {
        self.0.answer
    }

    /// The call, and what is to be undone of its answer.
    #[must_use]
    pub fn cancelled(&self) -> &Cancelled {
        &self.0.cancelled
    }
}

impl fmt::Display for Unsent {
    fn fmt(&self, f: &mut fmt::Formatter<'_>) -> fmt::Result {
        self.status().fmt(f)
    }
}

#[cfg(feature = "std")]
impl std::error::Error for Unsent {
    fn source(&self) -> Option<&(dyn std::error::Error + 'static)> {
        Some(&self.0.status)
    }
}

#[cfg(test)]
mod tests {
    use super::*;

    /// An object whose request's number differs in one bit is refused, and the other isn't.
    #[test]
    fn a_request_is_compared_by_each_bit() {
        let (session, slot) = (Arc::new(()), Slot::default());
        for bit in 0..u64::BITS {
            let (id, other) = (RequestId::of(0x8001), RequestId::of(0x8001 ^ 1 << bit));
            slot.open(id, &Arc::downgrade(&session));
            assert!(slot.is_open(id) && !slot.is_open(other), "{bit}");
            assert!(slot.put(other, Ok(Response::Done)).is_some() && slot.is_open(id), "{bit}");
            assert!(slot.put(id, Ok(Response::Done)).is_none() && !slot.is_open(id), "{bit}");
        }
    }
}

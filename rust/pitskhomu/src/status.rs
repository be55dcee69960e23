//! The library's error numbers: refusals of its calls, faults of chains, and faults of requests.
use core::fmt;

/// An enum over numbers of the header, each with its text.
macro_rules! numbered {
    ($(#[$about:meta])* $type:ident,
        $header:literal { $($(#[$doc:meta])* $name:ident = $number:literal, $text:literal;)* }) => {
        $(#[$about])*
        #[derive(Clone, Copy, Debug, PartialEq, Eq, Hash)]
        #[non_exhaustive]
        pub enum $type {
            $($(#[$doc])* $name,)*
            /// A number that this crate doesn't know: the archive is newer.
            Unknown(u32),
        }

        impl $type {
            pub(crate) fn of(number: u32) -> $type {
                match number {
                    $($number => $type::$name,)*
                    _ => $type::Unknown(number),
                }
            }

            #[doc = concat!("Its number in ", $header, ".")]
            pub fn number(self) -> u32 {
                match self {
                    $($type::$name => $number,)*
                    $type::Unknown(number) => number,
                }
            }
        }

        impl fmt::Display for $type {
            fn fmt(&self, f: &mut fmt::Formatter<'_>) -> fmt::Result {
                match self {
                    $($type::$name => f.write_str($text),)*
                    $type::Unknown(number) => write!(f, concat!("number {} of ", $header), number),
                }
            }
        }
    };
}

numbered! {
    /// A refusal of the library (enum `pk_status`). It changed nothing, except that 2 to 8 stop the
    /// queue.
    ///
    /// # Examples
    /// ```
    /// use pitskhomu::{Queue, QueueLayout, Status};
    ///
    /// let refused = Queue::new(QueueLayout::default(), 0).unwrap_err();
    /// assert_eq!((refused, refused.number()), (Status::BadQueueSize, 97));
    /// assert!(!refused.stops_queue() && Status::AvailTooFar.stops_queue());
    /// println!("{refused}");
    /// ```
    Status, "enum pk_status" {
        /// The queue stopped before. Reset it.
        Stopped = 1, "the queue stopped before";
        /// The available index lies in no region. It stops the queue.
        AvailIndexUnreachable = 2, "the available index can't be read";
        /// More chains are available than the queue holds (VIRTIO 1.2, 2.7.6). It stops the queue.
        AvailTooFar = 3, "more chains are available than the queue holds";
        /// An entry of the available ring lies in no region. It stops the queue.
        RingEntryUnreachable = 4, "the available ring's entry can't be read";
        /// The available ring names a descriptor that the table doesn't have. It stops the queue.
        HeadOutOfTable = 5, "a chain's head is out of the descriptor table";
        /// The used ring, or `avail_event` at its end, lies in no region. It stops the queue.
        UsedUnreachable = 6, "the used ring can't be written";
        /// The available flags, or `used_event` of a queue with an event index, lie in no region.
        /// It stops the queue.
        AvailFlagsUnreachable = 7, "the available flags, or used_event, can't be read";
        /// A descriptor of the table lies in no region. It stops the queue.
        DescriptorUnreachable = 8, "a descriptor can't be read";
        /// An allocation failed; call again later. The driver doesn't notify again for a chain that
        /// is available.
        OutOfMemory = 9, "out of memory";
        /// Another number that the call doesn't allow, or a wrong length.
        BadArgument = 66, "a number or a length that the call doesn't allow";
        /// The buffer is too short.
        ShortBuffer = 69, "the buffer is too short";
        /// 4 GiB of data or more, or more bytes than the reply buffer has.
        LongReply = 71, "the reply is too long";
        /// The chain's state doesn't allow the call, or no memory was set.
        WrongOrder = 73, "a call in a wrong order";
        /// The chain is of another queue, or its queue was reset.
        OtherQueue = 74, "the chain is of another queue";
        /// An answer of another kind than the call's.
        OtherKind = 75, "an answer of another kind than the call's";
        /// `Queue::max_in_flight` chains of the queue are in flight, or the worker has one.
        ChainInFlight = 76, "a chain is in flight";
        /// Bytes of a ring aren't in the worker's regions.
        NotMapped = 77, "bytes of a ring aren't mapped";
        /// Another chain of the queue is being returned.
        Pushing = 78, "another chain of the queue is being returned";
        /// A late answer: it is to a call of an earlier chain.
        OtherCall = 79, "a late answer, to a call of an earlier chain";
        /// The chain was popped with a table, and none is lent, or the other way round; or the
        /// table moved the used index. The worker keeps the chain: lend its table, and push again.
        /// Of a pop: the worker's table isn't lent.
        OtherTable = 80, "it isn't the table of the chain's pop";
        /// A record that ends early.
        RecordTruncated = 81, "the record ends early";
        /// Bytes that aren't a record.
        RecordBadMagic = 82, "it isn't a record";
        /// A record of a version that the library doesn't read.
        RecordBadVersion = 83, "the record's version isn't known";
        /// A record with no queue, or with more than 64.
        RecordBadCount = 84, "the record has no queue, or more than 64";
        /// A record whose reserved bytes aren't zero.
        RecordBadReserved = 85, "the record's reserved bytes aren't zero";
        /// A record with a queue whose numbers no queue can have.
        RecordBadQueue = 86, "a queue of the record is invalid";
        /// A record with unknown options.
        RecordBadOptions = 87, "the record's options aren't known";
        /// An allocation failed; call again later.
        RecordOutOfMemory = 89, "out of memory for the record";
        /// A record of a device with another page size or limit.
        RecordMismatch = 90, "the record is of a device with another page size or limit";
        /// The device's page size isn't a power of two from 4096 to 65536, or its limit isn't from
        /// 0x101000 to 2^31.
        BadDevice = 96, "the device's page size or limit is invalid";
        /// A queue's size isn't a power of two up to 32768.
        BadQueueSize = 97, "the queue's size isn't a power of two up to 32768";
        /// The descriptor table isn't aligned to 16 bytes, the available ring to 2, or the used
        /// ring to 4.
        BadQueueAlignment = 98, "an address of the queue isn't aligned";
        /// The descriptor table or a ring ends at 2^64 or later.
        BadQueueEnd = 99, "a part of the queue ends past the last address";
        /// More chains may be in flight than the queue has descriptors.
        BadMaxInFlight = 100, "more chains may be in flight than the queue's size";
        /// A queue whose event index is neither used nor unused. This crate makes none.
        BadEventIndex = 101, "event_index is above 1";
        /// A queue whose positions, stop or push are invalid. This crate makes none.
        BadQueueState = 102, "the queue's state is invalid";
        /// The queue isn't set up: it is `Queue::default()`.
        QueueNotBegun = 103, "the queue isn't set up";
        /// A region is empty.
        EmptyRegion = 104, "a region is empty";
        /// A region's host address isn't a multiple of 4096.
        BadRegionHost = 105, "a region's host address isn't a multiple of 4096";
        /// A region's guest address isn't a multiple of 4096.
        BadRegionGuest = 106, "a region's guest address isn't a multiple of 4096";
        /// A region's length isn't a multiple of 4096.
        BadRegionLen = 107, "a region's length isn't a multiple of 4096";
        /// A region ends past 2^64, in guest or host addresses.
        BadRegionEnd = 108, "a region ends past the last address";
        /// There are more than `Device::MAX_REGIONS` regions.
        TooManyRegions = 109, "there are too many regions";
        /// Two regions have a guest address in common.
        RegionsOverlap = 110, "two regions overlap";
    }
}

impl Status {
    /// Whether the refusal stops the queue, or the queue was stopped before. Then set
    /// `DEVICE_NEEDS_RESET` (VIRTIO 1.2, 2.1.2).
    #[must_use]
    pub fn stops_queue(self) -> bool {
        matches!(self.number(), 1..=8)
    }

    /// Whether an allocation failed: the same call may succeed later.
    #[must_use]
    pub fn is_out_of_memory(self) -> bool {
        matches!(self, Status::OutOfMemory | Status::RecordOutOfMemory)
    }

    /// `Ok` for the number 0, otherwise the refusal.
    pub(crate) fn check(number: u32) -> Result<(), Status> {
        match number {
            0 => Ok(()),
            _ => Err(Status::of(number)),
        }
    }
}

#[cfg(feature = "std")]
impl std::error::Error for Status {}

#[cfg(feature = "std")]
impl From<Status> for std::io::Error {
    fn from(status: Status) -> std::io::Error {
        let kind = if status.is_out_of_memory() {
            std::io::ErrorKind::OutOfMemory
        } else {
            std::io::ErrorKind::Other
        };
        std::io::Error::new(kind, status)
    }
}

numbered! {
    /// A fault of a chain of descriptors (enum `pk_fault`; VIRTIO 1.2, 2.7.5). The chain is
    /// returned without a reply.
    Fault, "enum pk_fault" {
        /// The chain has more descriptors than the table.
        TooLong = 1, "the chain is longer than its table";
        /// A descriptor's `next` is out of the table.
        NextOutOfTable = 2, "a next descriptor is out of the table";
        /// A buffer ends past the last address.
        AddressOverflow = 3, "a buffer ends past the last address";
        /// A descriptor with an indirect table has a `next` too (2.7.5.3.1).
        IndirectWithNext = 4, "an indirect descriptor has a next one";
        /// An indirect table has a descriptor with an indirect table (2.7.5.3.1).
        IndirectNested = 5, "an indirect table has an indirect descriptor";
        /// An indirect table's length isn't that of a number of descriptors (2.7.5.3).
        IndirectLength = 6, "an indirect table has a wrong length";
        /// An indirect table lies in no region.
        TableUnreachable = 7, "an indirect table can't be read";
        /// The request or the reply buffer has more bytes than the device's limit.
        OverLimit = 8, "the request or the reply buffer is over the limit";
        /// Bytes of the request lie in no region.
        RequestUnreachable = 9, "the request can't be read";
        /// Bytes of the reply buffer lie in no region.
        RoomUnreachable = 10, "the reply buffer can't be written";
    }
}

numbered! {
    /// A fault of a FUSE request (enum `pk_request_fault`). There is no file call and no reply.
    RequestFault, "enum pk_request_fault" {
        /// The request ends early.
        Decode = 1, "the request ends early";
        /// The reply buffer is too short.
        Encode = 2, "the reply buffer is too short";
        /// A name or a value is missing.
        MissingParameter = 4, "a parameter is missing";
        /// An extension that was agreed on is missing.
        MissingExtension = 5, "an extension is missing";
        /// The length in the request's header is too small (struct `fuse_in_header`).
        HeaderLength = 6, "the header's length is too small";
        /// A name doesn't end with its only zero byte.
        Name = 7, "a name doesn't end with its only zero byte";
        /// The size of an extended attribute isn't its value's (struct `fuse_setxattr_in`).
        XattrSize = 9, "the size of an extended attribute isn't its value's";
    }
}

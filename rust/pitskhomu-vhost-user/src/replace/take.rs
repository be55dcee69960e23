//! TAKE, the message with which the new daemon gets all that QEMU must not see close.

/// The words of TAKE.
#[derive(Debug, Clone, Copy, Default, PartialEq, Eq)]
pub struct Take {
    /// The rings that run, by their numbers' bits.
    pub enabled: u64,
    /// The rings that were refused.
    pub refused: u64,
    /// Which descriptors come after the front-end's socket: bits of `Take::CONTROL` and so on.
    pub with: u64,
    /// How many asks of the IOMMU are unanswered.
    pub unanswered: u64,
}

impl Take {
    /// The control socket.
    pub const CONTROL: u64 = 1;
    /// The PID file.
    pub const NUMBER: u64 = 2;
    /// The back-end's channel.
    pub const CHANNEL: u64 = 4;
    /// A pipe that closes when the old daemon dies.
    pub const LIFE: u64 = 8;
    /// The socket of --metrics.
    pub const METRICS: u64 = 32;
    /// No front-end has connected yet: the first descriptor is the socket that it connects to.
    pub const LISTENER: u64 = 16;
    /// The length of the words in bytes.
    pub const LEN: usize = 32;

    /// The words.
    pub fn words(self) -> [u64; 4] {
        [self.enabled, self.refused, self.with, self.unanswered]
    }

    /// Those of these bytes.
    pub fn of(bytes: &[u8; Take::LEN]) -> Take {
        let word = |k: usize| u64::from_ne_bytes(std::array::from_fn(|at| bytes[8 * k + at]));
        let [enabled, refused, with, unanswered] = [word(0), word(1), word(2), word(3)];
        Take { enabled, refused, with, unanswered }
    }
}

//! The old daemon: gives all to the one that takes over. If anything fails, it enables its rings
//! again and continues.
use super::successor::Successor;
use super::take::Take;
use super::{Control, LAST_PATIENCE, PATIENCE, PATIENCE_BYTES};
use crate::device::{Core, ServedFs};
use crate::front_end::{Agreed, FrontEnd};
use crate::memory::Table;
use crate::ring::{Handed, Ring};
use log::info;
use std::io::{self, Read, Seek, Write};
use std::os::fd::{AsRawFd, OwnedFd, RawFd};
use std::sync::Arc;
use std::time::Instant;
use vhost::vhost_user::message::{FrontendReq, VhostUserMemoryRegion, VhostUserProtocolFeatures};

/// So many regions fit in one message.
const REGIONS: usize = 8;
/// The greatest length of a state in bytes.
const STATE_MAX: u64 = 1 << 30;

/// Says to a daemon why it doesn't take over.
pub fn refuse(socket: OwnedFd, why: &str) {
    if let Ok(successor) = Successor::new(socket, Instant::now()) {
        successor.refuse(why);
    }
}

/// One daemon gives, and another takes.
struct Giving<'g, F> {
    front_end: &'g mut FrontEnd<F>,
    core: Arc<Core<F>>,
    control: &'g Control,
    /// The front-end's socket.
    socket: RawFd,
    to: Successor,
    rings: Vec<Handed>,
    agreed: Agreed,
    /// How often this is tried with that daemon.
    tries: u32,
}

/// Why a daemon doesn't take over.
pub enum Kept {
    /// It may succeed in a moment: this is its socket.
    Now(OwnedFd, String),
    /// The new daemon has the reason, or has ended.
    ForGood(io::Error),
}

/// Gives all to the daemon at the other end of `heir`. After `Ok` this one may only end.
pub fn give<F: ServedFs>(
    front_end: &mut FrontEnd<F>,
    control: &Control,
    sockets: (RawFd, OwnedFd),
    tries: u32,
) -> Result<(), Kept> {
    let begun = Instant::now();
    let mut giving = Giving::new(front_end, control, sockets, begun).map_err(Kept::ForGood)?;
    giving.tries = tries;
    let given = giving.run(begun);
    let Err(why) = given else { return Ok(()) };
    giving.front_end.stay();
    if why.kind() == Giving::<F>::IN_A_MOMENT {
        return Err(Kept::Now(giving.to.into_socket(), why.to_string()));
    }
    giving.to.refuse(&why.to_string());
    Err(Kept::ForGood(why))
}

/// A ring's index and a number, as `SET_VRING_NUM` has them.
fn pair(index: usize, number: impl Into<u64>) -> u64 {
    index as u64 | number.into() << 32
}

/// The body of a message about one region, or about one of several.
fn region_words(region: &VhostUserMemoryRegion) -> [u64; 4] {
    [region.guest_phys_addr, region.memory_size, region.user_addr, region.mmap_offset]
}

impl<'g, F: ServedFs> Giving<'g, F> {
    /// The kind of an error that may be none in a moment.
    const IN_A_MOMENT: io::ErrorKind = io::ErrorKind::ResourceBusy;

    fn new(
        front_end: &'g mut FrontEnd<F>,
        control: &'g Control,
        (socket, heir): (RawFd, OwnedFd),
        begun: Instant,
    ) -> io::Result<Giving<'g, F>> {
        let core = front_end.core().clone();
        let to = Successor::new(heir, begun + PATIENCE)?;
        let agreed = front_end.agreed()?;
        let rings = core.rings.iter().map(Ring::handed).collect::<io::Result<_>>()?;
        Ok(Giving { front_end, core, control, socket, to, rings, agreed, tries: 1 })
    }

    fn run(&mut self, begun: Instant) -> io::Result<()> {
        let memory = self.core.memory();
        self.agree()?;
        self.send_memory(&memory)?;
        for index in 0..self.rings.len() {
            self.send_ring(index, &memory)?;
        }
        let is_enabled: Vec<bool> = self.rings.iter().map(|ring| ring.is_enabled).collect();
        let stops = Instant::now();
        let moved = match self.front_end.stop_rings(&is_enabled) {
            None => self.move_state().and_then(|()| self.offer()).and_then(|()| self.to.go()),
            Some(held) => {
                let why = format!("the host holds a call of the guest's: {held}");
                Err(io::Error::new(Self::IN_A_MOMENT, why))
            }
        };
        if moved.is_err() {
            self.core.memory().iommu().channel.take_back()?;
            self.front_end.restart_rings(&is_enabled);
            return moved;
        }
        let ms = |from: Instant, to: Instant| (to - from).as_secs_f64() * 1e3;
        let (paused, told) = (ms(stops, Instant::now()), ms(begun, stops));
        info!("another daemon serves the guest: {told:.1} ms of messages, {paused:.1} ms of pause");
        self.control.process.leaves();
        self.to.set_end(Instant::now() + LAST_PATIENCE);
        self.to.wait_for_end();
        Ok(())
    }

    /// Features: all of the protocol's that the new daemon has, for the messages to come.
    fn agree(&self) -> io::Result<()> {
        let lacks = |offered: u64, wanted: u64| {
            let lack = wanted & !offered;
            if lack == 0 {
                return Ok(());
            }
            Err(io::Error::other(format!("the new daemon lacks features {lack:#x}")))
        };
        lacks(self.to.ask(FrontendReq::GET_FEATURES, &[], &[])?, self.agreed.features)?;
        let protocol = self.to.ask(FrontendReq::GET_PROTOCOL_FEATURES, &[], &[])?;
        let needed = VhostUserProtocolFeatures::REPLY_ACK
            | VhostUserProtocolFeatures::CONFIGURE_MEM_SLOTS
            | VhostUserProtocolFeatures::LOG_SHMFD
            | VhostUserProtocolFeatures::DEVICE_STATE;
        lacks(protocol, self.agreed.protocol | needed.bits())?;
        self.to.tell(FrontendReq::SET_PROTOCOL_FEATURES, &[protocol], &[])?;
        self.to.tell(FrontendReq::SET_OWNER, &[], &[])?;
        if self.agreed.features != 0 {
            self.to.tell(FrontendReq::SET_FEATURES, &[self.agreed.features], &[])?;
        }
        Ok(())
    }

    fn send_memory(&self, memory: &Table) -> io::Result<()> {
        let regions = memory.sent()?;
        if regions.len() > REGIONS {
            return regions.iter().try_for_each(|(region, file)| {
                let [guest, len, user, offset] = region_words(region);
                let words = [0, guest, len, user, offset];
                self.to.tell(FrontendReq::ADD_MEM_REG, &words, &[file.as_raw_fd()])
            });
        }
        if regions.is_empty() {
            return Ok(());
        }
        let mut words = vec![regions.len() as u64];
        words.extend(regions.iter().flat_map(|(region, _)| region_words(region)));
        let files: Vec<RawFd> = regions.iter().map(|(_, file)| file.as_raw_fd()).collect();
        self.to.tell(FrontendReq::SET_MEM_TABLE, &words, &files)
    }

    /// All of a ring that doesn't change while the guest runs. The front-end sends a ring that
    /// isn't started again before it starts it.
    fn send_ring(&self, index: usize, memory: &Table) -> io::Result<()> {
        let ring = &self.rings[index];
        if ring.is_started {
            let layout = ring.numbers.layout;
            let has_iommu = memory.iommu().is_on();
            let at = |guest| if has_iommu { Ok(guest) } else { memory.front_end_address(guest) };
            let parts = [at(layout.descriptors)?, at(layout.used)?, at(layout.available)?];
            self.to.tell(FrontendReq::SET_VRING_NUM, &[pair(index, layout.size)], &[])?;
            let words = [pair(index, 0u32), parts[0], parts[1], parts[2], 0];
            self.to.tell(FrontendReq::SET_VRING_ADDR, &words, &[])?;
        }
        let events =
            [(FrontendReq::SET_VRING_CALL, &ring.call), (FrontendReq::SET_VRING_ERR, &ring.err)];
        for (request, event) in events {
            if let Some(event) = event {
                self.to.tell(request, &[index as u64], &[event.as_raw_fd()])?;
            }
        }
        Ok(())
    }

    /// Positions, events, and the state, while the rings are disabled. Whether pages are logged is
    /// said after the state: the new daemon then prepares its own for the migration.
    fn move_state(&mut self) -> io::Result<()> {
        self.to.set_end(Instant::now() + PATIENCE);
        for index in 0..self.rings.len() {
            self.start_ring(index)?;
        }
        let len = self.front_end.save(&self.control.pipe, Instant::now() + PATIENCE)?;
        // An earlier daemon that failed may still have the file, and write to it.
        if len > STATE_MAX {
            return Err(io::Error::other("the state is longer than any"));
        }
        self.check_state(len)?;
        #[allow(clippy::cast_possible_truncation, reason = "a state has at most 1 GB")]
        let longer = PATIENCE * (len / PATIENCE_BYTES) as u32;
        self.to.set_end(Instant::now() + PATIENCE + longer);
        let load = [1u32.to_ne_bytes(), 0u32.to_ne_bytes()].concat();
        let set = self.to.ask(
            FrontendReq::SET_DEVICE_STATE_FD,
            &load,
            &[self.control.pipe.as_raw_fd()],
        )?;
        if set & 0xff != 0 || self.to.ask(FrontendReq::CHECK_DEVICE_STATE, &[], &[])? != 0 {
            let why = "the new daemon can't load the state: its log says why";
            return Err(io::Error::new(Self::IN_A_MOMENT, why));
        }
        let Agreed { features, protocol, log, logs } = &self.agreed;
        if let Some((file, offset, len)) = log {
            self.to.repeat(FrontendReq::SET_LOG_BASE, &[*len, *offset], &[file.as_raw_fd()])?;
        }
        if *logs {
            let log_all = vhost::vhost_user::message::VhostUserVirtioFeatures::LOG_ALL.bits();
            self.to.tell(FrontendReq::SET_FEATURES, &[features | log_all], &[])?;
        }
        // Now those of the front-end. It may lack acknowledgements, so none is asked for.
        let words: Vec<u8> = protocol.to_ne_bytes().into();
        self.to.say(FrontendReq::SET_PROTOCOL_FEATURES as u32, &words, &[])?;
        self.to.ask(FrontendReq::GET_FEATURES, &[], &[]).map(|_| ())
    }

    /// Refuses a state with a node that the new daemon wouldn't find, and drops the nodes that are
    /// gone for good. Only after a try that failed it looks at each file handle.
    fn check_state(&self, len: u64) -> io::Result<()> {
        if !self.control.process.checks_state() {
            return Ok(());
        }
        let (mut pipe, mut state) = (&self.control.pipe, Vec::new());
        pipe.take(len).read_to_end(&mut state)?;
        let len = state.len();
        let checked = self
            .core
            .fs
            .check_state(state, self.tries > 1)
            .map_err(|why| io::Error::new(Self::IN_A_MOMENT, why))?;
        pipe.rewind()?;
        if checked.len() != len {
            pipe.set_len(0)?;
            pipe.write_all(&checked)?;
            pipe.rewind()?;
        }
        Ok(())
    }

    fn start_ring(&self, index: usize) -> io::Result<()> {
        let now = self.core.rings[index].handed()?;
        if !now.is_started {
            return Ok(());
        }
        let Some(kick) = now.kick else {
            return Err(io::Error::other(format!("queue {index} has no event of the driver's")));
        };
        let base = pair(index, now.numbers.next_avail);
        self.to.tell(FrontendReq::SET_VRING_BASE, &[base], &[])?;
        self.to.tell(FrontendReq::SET_VRING_KICK, &[index as u64], &[kick.as_raw_fd()])
    }

    /// Offers all that the front-end must not see close.
    fn offer(&mut self) -> io::Result<()> {
        let mut take = Take::default();
        for (index, ring) in self.core.rings.iter().enumerate() {
            take.enabled |= u64::from(self.rings[index].is_enabled) << index;
            take.refused |= u64::from(ring.handed()?.is_refused) << index;
        }
        let channel = self.core.memory().iommu().channel.lend()?;
        let (socket, unanswered) = channel.unzip();
        take.unanswered = unanswered.unwrap_or(0) as u64;
        let channel = socket.as_ref().map(AsRawFd::as_raw_fd);
        offer(&mut self.to, take, (self.socket, channel), self.control)
    }
}

/// Offers a socket, and all that a daemon has besides the guest's state.
fn offer(
    to: &mut Successor,
    mut take: Take,
    (socket, channel): (RawFd, Option<RawFd>),
    control: &Control,
) -> io::Result<()> {
    let (mut fds, [number, metrics]) = (vec![socket], control.process.lend());
    for (fd, bit) in [
        (control.listener.as_ref().map(AsRawFd::as_raw_fd), Take::CONTROL),
        (number, Take::NUMBER),
        (channel, Take::CHANNEL),
        (metrics, Take::METRICS),
        (control.life.as_ref().map(|(reader, _)| reader.as_raw_fd()), Take::LIFE),
    ] {
        if let Some(fd) = fd {
            fds.push(fd);
            take.with |= bit;
        }
    }
    to.set_end(Instant::now() + PATIENCE);
    to.offer(&take.words(), &fds)
}

/// Gives the socket that a front-end will connect to, since none has yet. After `Ok` this daemon
/// may only end.
pub fn give_listener(listener: RawFd, control: &Control, heir: OwnedFd) -> io::Result<()> {
    let mut to = Successor::new(heir, Instant::now() + PATIENCE)?;
    let take = Take { with: Take::LISTENER, ..Take::default() };
    match offer(&mut to, take, (listener, None), control).and_then(|()| to.go()) {
        Ok(()) => {
            control.process.leaves();
            to.set_end(Instant::now() + LAST_PATIENCE);
            to.wait_for_end();
            Ok(())
        }
        Err(e) => {
            to.refuse(&e.to_string());
            Err(e)
        }
    }
}

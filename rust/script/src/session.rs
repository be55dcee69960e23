//! Runs a script's commands one after another, and prints their outcomes.
use crate::halt::Halt;
use crate::line::{self, Command, WrongLine};
use crate::machine::{bad_layout, fault_name, Dropped, Machine, Step, QUEUES_MAX};
use crate::memory::Refusal;
use pitskhomu::{QueueLayout, Served, Status};
use std::io::{self, Write};

/// The number of a kick's refusal: there is no such queue.
const NO_SUCH_QUEUE: u32 = 10;

pub struct Session {
    machine: Machine,
    /// Whether a command other than `queue` has run.
    began: bool,
}

impl Session {
    pub fn new() -> Result<Session, Status> {
        Ok(Session { machine: Machine::new()?, began: false })
    }

    /// Runs the command of a line, if it has one.
    pub fn run(&mut self, number: usize, text: &[u8], writer: &mut dyn Write) -> Result<(), Halt> {
        let not_a_command = |wrong| Halt::NotACommand(number, wrong);
        let command = match line::parse(text).map_err(not_a_command)? {
            Some(command) => command,
            None => return Ok(()),
        };
        self.admit(&command).map_err(|why| not_a_command(why.into()))?;
        match command {
            Command::Queue(layout) => self.add_queue(layout, writer)?,
            Command::Region { base, size } => {
                let made = self.machine.memory.new_block(size);
                let made = made.and_then(|block| {
                    self.machine.memory.insert(base, block as u64).map(|()| block)
                });
                print(writer, made.map(|block| format!("block {block}")))?;
            }
            Command::Alias { base, block } => {
                print(writer, done(self.machine.memory.insert(base, block)))?;
            }
            Command::Unregion { base, size } => {
                print(writer, done(self.machine.memory.remove(base, size)))?;
            }
            Command::Write { address, bytes } => {
                print(writer, done(self.machine.memory.guest_write(address, &bytes)))?;
            }
            Command::Read { address, len } => {
                let bytes = self.machine.memory.guest_read(address, len);
                print(writer, bytes.map(|bytes| format!("bytes {}", digits(&bytes))))?;
            }
            Command::Map { iova, target, len, access } => {
                let mapped = self.machine.iommu.map(iova, target, len, access);
                print(writer, done(mapped.map_err(|stuck| stuck.at(number))?))?;
            }
            Command::Unmap { iova, len } => {
                let unmapped = self.machine.iommu.unmap(iova, len);
                print(writer, done(unmapped.map_err(|stuck| stuck.at(number))?))?;
            }
            Command::Iommu(is_on) => {
                self.machine.iommu.is_on = is_on;
                writeln!(writer, "ok")?;
            }
            Command::Kick { queue, most } => self.kick(number, queue, most, writer)?,
            Command::Reset { queue, layout } => self.reset(number, queue, layout, writer)?,
            Command::EventIndex(is_accepted) => {
                self.machine.set_event_index(is_accepted);
                writeln!(writer, "ok")?;
            }
            Command::Notify { queue, enabled } => self.notify(number, queue, enabled, writer)?,
            Command::Drop { queue } => self.drop_chain(number, queue, writer)?,
            Command::Move => self.move_on(number, writer)?,
            Command::Harvest => self.harvest(writer)?,
        }
        Ok(())
    }

    /// Checks that a command is allowed here: 1 to 64 queues come first.
    fn admit(&mut self, command: &Command) -> Result<(), WrongLine> {
        match command {
            Command::Queue(_) if self.began => Err(WrongLine::LateQueue),
            Command::Queue(_) if self.machine.queue_count() == QUEUES_MAX => {
                Err(WrongLine::ManyQueues)
            }
            Command::Queue(_) => Ok(()),
            _ if self.machine.queue_count() == 0 => Err(WrongLine::NoQueue),
            _ => {
                self.began = true;
                Ok(())
            }
        }
    }

    fn add_queue(&mut self, layout: QueueLayout, writer: &mut dyn Write) -> io::Result<()> {
        if let Some(number) = bad_layout(&layout) {
            writeln!(writer, "badlayout {number}")
        } else {
            self.machine.add_queue(layout);
            writeln!(writer, "ok")
        }
    }

    /// Serves chains until none is available, one is refused, or `most` are done.
    fn kick(
        &mut self,
        number: usize,
        queue: u64,
        most: u16,
        writer: &mut dyn Write,
    ) -> Result<(), Halt> {
        if !self.machine.has_queue(queue) {
            writeln!(writer, "refused {NO_SUCH_QUEUE}")?;
            return Ok(());
        }
        let mut is_idle = true;
        for _ in 0..most {
            match self.machine.step(queue).map_err(|stuck| stuck.at(number))? {
                Step::Idle => break,
                Step::Refused(number) => {
                    writeln!(writer, "refused {number}")?;
                    return Ok(());
                }
                Step::Done(calls, served) => {
                    is_idle = false;
                    calls.lines.iter().try_for_each(|call| writeln!(writer, "call {call}"))?;
                    if calls.more > 0 {
                        writeln!(writer, "more {}", calls.more)?;
                    }
                    print_done(writer, &served)?;
                }
            }
        }
        if is_idle {
            writeln!(writer, "idle")?;
        }
        Ok(())
    }

    /// Enables or disables notifications of the driver.
    fn notify(
        &mut self,
        number: usize,
        queue: u64,
        enabled: bool,
        writer: &mut dyn Write,
    ) -> Result<(), Halt> {
        if !self.machine.has_queue(queue) {
            writeln!(writer, "refused {NO_SUCH_QUEUE}")?;
            return Ok(());
        }
        if self.machine.notify(queue, enabled).map_err(|stuck| stuck.at(number))? {
            writeln!(writer, "ok")?;
        } else {
            writeln!(writer, "refused {}", Status::UsedUnreachable.number())?;
        }
        Ok(())
    }

    /// Pops a chain, and drops it: it is available again. One with a fault is returned.
    fn drop_chain(
        &mut self,
        number: usize,
        queue: u64,
        writer: &mut dyn Write,
    ) -> Result<(), Halt> {
        if !self.machine.has_queue(queue) {
            writeln!(writer, "refused {NO_SUCH_QUEUE}")?;
            return Ok(());
        }
        match self.machine.drop_chain(queue).map_err(|stuck| stuck.at(number))? {
            Dropped::Idle => writeln!(writer, "idle")?,
            Dropped::Refused(number) => writeln!(writer, "refused {number}")?,
            Dropped::Available => writeln!(writer, "dropped")?,
            Dropped::Faulty(served) => print_done(writer, &served)?,
        }
        Ok(())
    }

    fn reset(
        &mut self,
        number: usize,
        queue: u64,
        layout: QueueLayout,
        writer: &mut dyn Write,
    ) -> Result<(), Halt> {
        if let Some(number) = bad_layout(&layout) {
            writeln!(writer, "badlayout {number}")?;
            return Ok(());
        }
        let reset = self.machine.reset(queue, layout);
        print(writer, done(reset.map_err(|stuck| stuck.at(number))?))?;
        Ok(())
    }

    fn move_on(&mut self, number: usize, writer: &mut dyn Write) -> Result<(), Halt> {
        let moved = self.machine.move_on().map_err(|stuck| stuck.at(number))?;
        writeln!(writer, "moved {}", moved.ok_or(Halt::OutOfMemory)?)?;
        Ok(())
    }

    fn harvest(&mut self, writer: &mut dyn Write) -> io::Result<()> {
        let pages = self.machine.memory.harvest();
        if pages.is_empty() {
            return writeln!(writer, "none");
        }
        pages.iter().try_for_each(|(block, page)| writeln!(writer, "page {block} {page}"))
    }
}

fn print_done(writer: &mut dyn Write, served: &Served) -> io::Result<()> {
    let (head, len, fault) = (served.head, served.reply_len, fault_name(served));
    writeln!(writer, "done {head} {len} {fault} {}", u8::from(served.notify))
}

fn done(result: Result<(), Refusal>) -> Result<String, Refusal> {
    result.map(|()| "ok".into())
}

fn print(writer: &mut dyn Write, result: Result<String, Refusal>) -> io::Result<()> {
    match result {
        Ok(line) => writeln!(writer, "{line}"),
        Err(refusal) => writeln!(writer, "refused {}", refusal as u32),
    }
}

fn digits(bytes: &[u8]) -> String {
    let mut text = String::with_capacity(2 * bytes.len());
    for &byte in bytes {
        text.extend(
            [byte >> 4, byte & 15].map(|digit| char::from(b"0123456789abcdef"[usize::from(digit)])),
        );
    }
    text
}

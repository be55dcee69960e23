//! Plays groups with their variants, in chains of several cuts.
use crate::files::{Files, WIDE_HANDLE, WIDE_NODE};
use crate::guest::Guest;
use crate::read::{End, Group, Mood, Row, Session, Variant};
use pitskhomu::Status;

const CUTS: [(usize, usize); 4] = [(1 << 21, 1 << 21), (1, 7), (7, 39), (39, 1)];

/// LOOKUP, SYMLINK, MKNOD, MKDIR, LINK, CREATE: their replies begin with an entry.
const WITH_ENTRY: [u8; 6] = [1, 6, 8, 9, 13, 35];

/// GETLK, SETLK, SETLKW, BMAP, IOCTL, POLL, `NOTIFY_REPLY` and TMPFILE: the library answers ENOSYS,
/// without a call.
const UNSERVED: [u8; 8] = [31, 32, 33, 37, 39, 40, 41, 51];

const OPEN: u8 = 14;
const OPENDIR: u8 = 27;
/// READLINK, GETXATTR, LISTXATTR.
const WITH_BYTES: [u8; 3] = [5, 22, 23];
const CREATE: u8 = 35;
const READDIRPLUS: u8 = 44;
const COPY_FILE_RANGE: u8 = 47;

#[derive(Default)]
pub struct Counts {
    pub passed: usize,
    pub failed: usize,
}

/// The number of so many bytes, or 0.
fn number(bytes: &[u8], at: usize, len: usize) -> u64 {
    let bytes = bytes.get(at..at + len).unwrap_or_default();
    bytes.iter().rev().fold(0, |number, &byte| number << 8 | u64::from(byte))
}

fn fault(name: &str) -> End {
    End::Fault(name.into())
}

impl Row {
    fn opcode(&self) -> u8 {
        self.request.get(4).copied().unwrap_or_default()
    }

    /// The call that forgets the node with which the reply begins, if it does.
    fn entry(&self) -> Option<String> {
        match &self.end {
            End::Reply(reply) if reply[4..8] == [0; 4] && WITH_ENTRY.contains(&self.opcode()) => {
                let [uid, gid, pid] = [24, 28, 32].map(|at| number(&self.request, at, 4));
                Some(format!("forget {uid} {gid} {pid} {} 1", number(reply, 16, 8)))
            }
            _ => None,
        }
    }

    fn error(&self, number: u32) -> End {
        let mut reply = 16u32.to_le_bytes().to_vec();
        reply.extend(number.wrapping_neg().to_le_bytes());
        reply.extend(&self.request[8..16]);
        End::Reply(reply)
    }

    /// The row with a variant.
    fn with(&self, variant: Variant) -> Row {
        let mut row = self.clone();
        row.agreed = None;
        match variant {
            Variant::Same => row.agreed = self.agreed,
            Variant::ShortRequest => {
                row.request.pop();
                row.calls.clear();
                row.end = fault("DecodeMessage");
            }
            Variant::ShortBuffer => {
                row.buffer -= 1;
                row.agreed = self.agreed;
                row.calls.extend(self.entry());
                row.end = fault("EncodeMessage");
            }
            Variant::Failing => {
                row.mood = Mood::Failing;
                row.end = self.error(5);
            }
            Variant::Default => {
                row.mood = Mood::Default;
                row.end = self.error(38);
            }
        }
        row
    }

    /// The row as the wrapper serves it, which passes on less.
    fn of_the_wrapper(mut self, variant: Variant) -> Row {
        let opcode = self.opcode();
        if UNSERVED.contains(&opcode) {
            self.calls.clear();
            if !matches!(self.end, End::Fault(_)) {
                self.end = self.error(38);
            }
        }
        if variant == Variant::ShortBuffer {
            self.closes(opcode);
            if WITH_BYTES.contains(&opcode) && self.buffer >= 16 {
                self.end = self.error(34); // ERANGE
            }
        }
        if opcode == READDIRPLUS {
            self.looks_up_what_fits();
        }
        self.calls.retain(|call| !call.starts_with("forget ") || !call.ends_with(" 0 1"));
        self.calls.iter_mut().for_each(|call| *call = passed_on(call));
        if let (COPY_FILE_RANGE, End::Reply(reply)) = (opcode, &mut self.end) {
            // At most as many bytes as were asked for.
            if reply.len() == 24 {
                let count = number(reply, 16, 4).min(number(&self.request, 80, 8)) as u32;
                reply[16..20].copy_from_slice(&count.to_le_bytes());
            }
        }
        self
    }

    /// A file or directory that was opened is closed if its reply has no room.
    fn closes(&mut self, opcode: u8) {
        let [uid, gid, pid, flags] = [24, 28, 32, 40].map(|at| number(&self.request, at, 4));
        let is_wide = self.mood == Mood::Wide;
        let handle = if is_wide { WIDE_HANDLE } else { 0x66 };
        let node = match opcode {
            CREATE if is_wide => WIDE_NODE,
            CREATE => 2,
            _ => number(&self.request, 16, 8),
        };
        let call = match opcode {
            OPEN | CREATE => format!("release {uid} {gid} {pid} {node} {flags} {handle} 0 0 -"),
            OPENDIR => format!("releasedir {uid} {gid} {pid} {node} {flags} {handle}"),
            _ => return,
        };
        let at = self.calls.len() - usize::from(opcode == CREATE);
        self.calls.insert(at, call);
    }

    /// A name that doesn't fit isn't looked up, and so isn't forgotten.
    fn looks_up_what_fits(&mut self) {
        let is_forgotten = |call: &String| call.starts_with("forget ") && !call.ends_with(" 0 1");
        if self.calls.last().map_or(false, is_forgotten) {
            self.calls.truncate(self.calls.len() - 2);
        }
    }
}

/// A call with `?` for each argument that the wrapper doesn't pass on.
fn passed_on(call: &str) -> String {
    let mut words: Vec<&str> = call.split(' ').collect();
    let hidden: &[usize] = match words[0] {
        "forget" | "batch_forget" => &[1, 2, 3],
        "setattr" => &[7, 8],
        "getxattr" | "listxattr" => &[5],
        "copy_file_range" => &[11],
        _ => &[],
    };
    for &k in hidden {
        words[k] = "?";
    }
    words.join(" ")
}

impl Counts {
    /// Plays a group: as it is written and in its variants, by chains of several cuts.
    pub fn play(&mut self, path: &str, group: &Group) -> Result<(), Status> {
        let variants = [&[Variant::Same], &group.variants[..]].concat();
        for cut in CUTS {
            for &variant in &variants {
                self.rows(path, group.session, &group.rows, variant, cut)?;
            }
        }
        if group.variants.contains(&Variant::ShortBuffer) {
            for row in group.rows.iter().filter(|row| row.entry().is_some()) {
                self.entry(path, group.session, row)?;
            }
        }
        Ok(())
    }

    /// Plays a row whose reply begins with an entry: in each cut of its buffer, and in each shorter
    /// buffer.
    fn entry(&mut self, path: &str, session: Session, row: &Row) -> Result<(), Status> {
        let mut row = [row.clone()];
        for cut in 1..row[0].buffer {
            for variant in [Variant::Same, Variant::ShortBuffer] {
                self.rows(path, session, &row, variant, (39, cut))?;
            }
        }
        while row[0].buffer > 1 {
            row[0].buffer -= 1;
            self.rows(path, session, &row, Variant::ShortBuffer, CUTS[0])?;
        }
        Ok(())
    }

    fn rows(
        &mut self,
        path: &str,
        session: Session,
        rows: &[Row],
        variant: Variant,
        cut: (usize, usize),
    ) -> Result<(), Status> {
        let (mut guest, files) = (Guest::new(session)?, Files::new());
        for row in rows {
            let row = row.with(variant).of_the_wrapper(variant);
            files.mood.set(row.mood);
            let end = guest.serve(&row.request, row.buffer, cut, &files)?;
            let (calls, agreed) = (files.take_calls(), guest.device.options().bits());
            if calls == row.calls && end == row.end && row.agreed.map_or(true, |it| it == agreed) {
                self.passed += 1;
                continue;
            }
            self.failed += 1;
            let (found, wanted) = ((calls, end, agreed), (row.calls, row.end, row.agreed));
            println!("FAILED: {path}:{}, {variant:?}, in pieces of {cut:?}:", row.line);
            println!("{found:x?}\nin place of\n{wanted:x?}");
        }
        Ok(())
    }
}

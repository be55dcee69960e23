//! The limits of the log's lines. A guest can cause lines without end, and must not fill the log.
use log::{Level, Record};
use std::collections::HashMap;
use std::sync::atomic::{AtomicU64, Ordering};
use std::time::{Duration, Instant};

/// The lines of one kind that a period has.
pub const MOST_LINES: u32 = 20;
/// The most bytes of a line's text. One that is longer ends with two dots.
pub const LONGEST_LINE: usize = 1024;
/// The first period. Each period that left lines out is followed by one twice as long.
pub const FIRST_PERIOD: Duration = Duration::from_secs(60);
/// The longest period.
pub const LONGEST_PERIOD: Duration = Duration::from_secs(60 * 60);

/// The number of all lines that were left out.
pub static LEFT_OUT: AtomicU64 = AtomicU64::new(0);

/// A line of the log, with its own text.
#[derive(Debug, Clone, PartialEq, Eq)]
pub struct Line {
    /// Its level.
    pub level: Level,
    /// Its target: the module that it is from.
    pub target: String,
    /// Its text.
    pub text: String,
}

impl Line {
    /// The line of a record.
    pub fn of(record: &Record<'_>) -> Line {
        let (level, target) = (record.level(), record.target().into());
        Line { level, target, text: one_line(&record.args().to_string()) }
    }
}

/// Whether a character would end a line, move a terminal's cursor, or turn the direction in which
/// the rest of the line is shown (Unicode's `Bidi_Control`).
fn leaves_line(c: char) -> bool {
    let is_turning = matches!(
        c,
        '\u{61c}' | '\u{200e}' | '\u{200f}' | '\u{202a}'..='\u{202e}' | '\u{2066}'..='\u{2069}'
    );
    c.is_control() || is_turning || matches!(c, '\u{2028}' | '\u{2029}')
}

/// A text on one line, of at most `LONGEST_LINE` bytes. A guest's names may have any bytes.
fn one_line(text: &str) -> String {
    let mut line = String::new();
    for c in text.chars() {
        let before = line.len();
        if leaves_line(c) {
            line.extend(c.escape_default());
        } else {
            line.push(c);
        }
        if line.len() > LONGEST_LINE {
            line.truncate(before);
            line.push_str("..");
            break;
        }
    }
    line
}

/// The place in the source that a line is from. Lines of one place are of one kind.
type Place = (Option<&'static str>, Option<u32>);

/// The lines of one kind in the current period.
#[derive(Debug)]
struct Kind {
    begun: Instant,
    period: Duration,
    written: u32,
    left_out: u64,
    /// The last line that was left out.
    last: Option<Line>,
}

impl Kind {
    fn new(now: Instant) -> Kind {
        Kind { begun: now, period: FIRST_PERIOD, written: 0, left_out: 0, last: None }
    }

    fn end(&self) -> Instant {
        self.begun + self.period
    }

    /// The line that has the number of those that were left out, if any were. It counts from zero
    /// again.
    fn summary(&mut self) -> Option<Line> {
        let last = self.last.take()?;
        let left_out = std::mem::take(&mut self.left_out);
        let Line { level, target, text } = last;
        Some(Line { level, target, text: format!("{left_out} more such lines, the last: {text}") })
    }

    /// Begins the next period, if this one is over.
    fn turn(&mut self, now: Instant) -> Option<Line> {
        if now < self.end() {
            return None;
        }
        let is_full = self.left_out > 0;
        let period =
            if is_full { LONGEST_PERIOD.min(self.period.saturating_mul(2)) } else { FIRST_PERIOD };
        (self.begun, self.period, self.written) = (now, period, 0);
        self.summary()
    }

    fn admits(&mut self, line: &Line) -> bool {
        if self.written < MOST_LINES {
            self.written += 1;
            return true;
        }
        self.left_out += 1;
        LEFT_OUT.fetch_add(1, Ordering::Relaxed);
        self.last = Some(line.clone());
        false
    }
}

/// The limits of all kinds of lines. Debug lines have none: who asks for them wants all.
#[derive(Debug, Default)]
pub struct Limits {
    kinds: HashMap<Place, Kind>,
}

impl Limits {
    /// The lines to write for a record: none if its kind has reached its limit.
    pub fn admit(&mut self, record: &Record<'_>, now: Instant) -> Vec<Line> {
        let line = Line::of(record);
        if record.level() > Level::Info {
            return vec![line];
        }
        let place = (record.file_static(), record.line());
        let kind = self.kinds.entry(place).or_insert_with(|| Kind::new(now));
        let mut lines: Vec<Line> = kind.turn(now).into_iter().collect();
        if kind.admits(&line) {
            lines.push(line);
        }
        lines
    }

    /// The numbers of lines left out, of the periods that are over.
    pub fn due(&mut self, now: Instant) -> Vec<Line> {
        let full = self.kinds.values_mut().filter(|kind| kind.left_out > 0);
        full.filter_map(|kind| kind.turn(now)).collect()
    }

    /// The numbers of lines left out, of all periods.
    pub fn all(&mut self) -> Vec<Line> {
        self.kinds.values_mut().filter_map(Kind::summary).collect()
    }

    /// The time until a period ends that has reached its limit.
    pub fn next_due(&self, now: Instant) -> Option<Duration> {
        let full = self.kinds.values().filter(|kind| kind.written >= MOST_LINES);
        full.map(Kind::end).filter(|end| *end > now).min().map(|end| end - now)
    }
}

#[cfg(test)]
mod tests {
    use super::*;

    /// The texts that are written for a warning from a place.
    fn admitted(limits: &mut Limits, at: u32, text: &str, now: Instant) -> Vec<String> {
        let mut record = Record::builder();
        let args = format_args!("{text}").to_string();
        record.level(Level::Warn).file_static(Some("file.rs")).line(Some(at));
        let lines = limits.admit(&record.args(format_args!("{args}")).build(), now);
        lines.into_iter().map(|line| line.text).collect()
    }

    #[test]
    fn a_kind_has_its_limit_and_the_number_left_out() {
        let (mut limits, now) = (Limits::default(), Instant::now());
        for k in 0..1500 {
            let lines = admitted(&mut limits, 7, &format!("line {k}"), now);
            assert_eq!(lines.len(), usize::from(k < MOST_LINES), "{k}");
        }
        // another kind has a limit of its own
        assert_eq!(admitted(&mut limits, 8, "another", now), ["another"]);
        assert_eq!(limits.due(now), []);
        assert_eq!(limits.next_due(now), Some(FIRST_PERIOD));
        let later = now + FIRST_PERIOD;
        let due: Vec<_> = limits.due(later).into_iter().map(|line| line.text).collect();
        assert_eq!(due, ["1480 more such lines, the last: line 1499"]);
        assert_eq!(limits.due(later), []);
        assert_eq!(admitted(&mut limits, 7, "again", later), ["again"]);
    }

    #[test]
    fn a_name_stays_on_its_line() {
        let (mut limits, now) = (Limits::default(), Instant::now());
        let lines = admitted(&mut limits, 1, "gone (/a\nb\u{1b}[31m\u{2028}\u{e4}\\n)", now);
        assert_eq!(lines, ["gone (/a\\nb\\u{1b}[31m\\u{2028}\u{e4}\\n)"]);
        let line = |text: &str| admitted(&mut Limits::default(), 1, text, now).remove(0);
        // the rest would be shown from right to left
        assert_eq!(line("/a\u{202e}on :rorre(\u{2066}"), "/a\\u{202e}on :rorre(\\u{2066}");
        assert_eq!(line(&"n".repeat(1024)), "n".repeat(1024));
        assert_eq!(line(&"n".repeat(1025)), "n".repeat(1024) + "..");
        // an escape isn't cut
        assert_eq!(line(&("n".repeat(1023) + "\n")), "n".repeat(1023) + "..");
        assert_eq!(line(&"\n".repeat(80_000)), "\\n".repeat(512) + "..");
    }

    #[test]
    fn periods_grow_while_lines_are_left_out() {
        let (mut limits, mut now) = (Limits::default(), Instant::now());
        let mut fill = |now| (0..100).map(|_| admitted(&mut limits, 1, "x", now).len()).sum();
        let first: usize = fill(now);
        assert_eq!(first, 20);
        for period in [60, 120, 240, 480, 960, 1920, 3600, 3600] {
            let almost: usize = fill(now + Duration::from_secs(period - 1));
            assert_eq!(almost, 0, "{period}");
            now += Duration::from_secs(period);
            let next: usize = fill(now);
            assert_eq!(next, 21, "{period}: one has the number that was left out");
        }
        // a period without any left out is followed by a short one
        now += Duration::from_secs(3600);
        let (lines, again) = (admitted(&mut limits, 1, "x", now), now + Duration::from_secs(3600));
        assert_eq!(lines.len(), 2);
        assert_eq!(admitted(&mut limits, 1, "x", again), ["x"]);
        assert_eq!(limits.kinds.values().next().map(|kind| kind.period), Some(FIRST_PERIOD));
    }

    #[test]
    fn at_the_end_all_numbers_are_written() {
        let (mut limits, now) = (Limits::default(), Instant::now());
        for _ in 0..22 {
            admitted(&mut limits, 1, "x", now);
        }
        let all: Vec<_> = limits.all().into_iter().map(|line| line.text).collect();
        assert_eq!(all, ["2 more such lines, the last: x"]);
        assert_eq!(limits.all(), []);
    }
}

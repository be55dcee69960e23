//! Reads a file of vectors/requests.
use std::collections::HashMap;

/// What the file system answers.
#[derive(Clone, Copy, Debug, PartialEq, Eq)]
pub enum Mood {
    Default,
    Good,
    Other,
    NoNode,
    Wide,
    WideFailing,
    Failing,
}

#[derive(Clone, Copy, Debug, PartialEq, Eq)]
pub enum Variant {
    Same,
    ShortRequest,
    ShortBuffer,
    Failing,
    Default,
}

/// How a request ends. A fault has its name, without its numbers.
#[derive(Clone, Debug, PartialEq, Eq)]
pub enum End {
    Reply(Vec<u8>),
    Silent,
    Fault(String),
}

#[derive(Clone, Debug)]
pub struct Row {
    pub line: usize,
    pub request: Vec<u8>,
    pub mood: Mood,
    /// The length of the reply buffer.
    pub buffer: usize,
    pub calls: Vec<String>,
    pub end: End,
    pub agreed: Option<u64>,
}

/// A session as it begins.
#[derive(Clone, Copy, Debug)]
pub struct Session {
    pub options: u64,
    pub page_size: u32,
}

#[derive(Debug)]
pub struct Group {
    pub session: Session,
    pub variants: Vec<Variant>,
    pub rows: Vec<Row>,
}

fn number(text: &str) -> Option<u64> {
    match text.strip_prefix("0x") {
        Some(digits) => u64::from_str_radix(digits, 16).ok(),
        None => text.parse().ok(),
    }
}

/// `count` bytes of the large file from an offset on.
pub fn pattern(offset: u64, count: u64) -> impl Iterator<Item = u8> {
    let byte = |offset: u64| ((offset as u32).wrapping_mul(0x9e37_79b1) >> 24) as u8;
    (0..count).map(move |at| byte(offset.wrapping_add(at)))
}

fn digits(word: &str) -> Option<Vec<u8>> {
    let pairs = (0..word.len()).step_by(2).map(|at| word.get(at..at + 2));
    pairs.map(|pair| u8::from_str_radix(pair?, 16).ok()).collect()
}

fn spell(lets: &HashMap<String, Vec<u8>>, words: &str) -> Option<Vec<u8>> {
    let mut bytes = Vec::new();
    for word in words.split_whitespace() {
        if let Some(named) = lets.get(word) {
            bytes.extend(named);
        } else if let Some(numbers) = word.strip_prefix('@') {
            let (offset, count) = numbers.split_once(':')?;
            bytes.extend(pattern(number(offset)?, number(count)?));
        } else {
            let (word, count) = word.split_once('*').unwrap_or((word, "1"));
            bytes.extend(digits(word)?.repeat(number(count)? as usize));
        }
    }
    Some(bytes)
}

fn mood(word: &str) -> Option<Mood> {
    Some(match word {
        "default" => Mood::Default,
        "good" => Mood::Good,
        "other" => Mood::Other,
        "no_node" => Mood::NoNode,
        "wide" => Mood::Wide,
        "wide_failing" => Mood::WideFailing,
        _ => return None,
    })
}

fn variant(word: &str) -> Option<Variant> {
    Some(match word {
        "short_request" => Variant::ShortRequest,
        "short_buffer" => Variant::ShortBuffer,
        "failing" => Variant::Failing,
        "default" => Variant::Default,
        _ => return None,
    })
}

/// Reads a line, with the lines that continue it.
fn read(
    lets: &mut HashMap<String, Vec<u8>>,
    groups: &mut Vec<Group>,
    line: usize,
    text: &str,
) -> Option<()> {
    let (key, words) = text.split_once(' ').unwrap_or((text, ""));
    match key {
        "" => {}
        _ if key.starts_with('#') => {}
        "let" => {
            let (name, words) = words.split_once(' ')?;
            let bytes = spell(lets, words)?;
            lets.insert(name.into(), bytes);
        }
        "group" => groups.push(Group {
            session: Session { options: 0, page_size: 4096 },
            variants: Vec::new(),
            rows: Vec::new(),
        }),
        "options" => groups.last_mut()?.session.options = number(words)?,
        "pages" => groups.last_mut()?.session.page_size = number(words)?.try_into().ok()?,
        "variants" => {
            let variants: Option<Vec<_>> = words.split(' ').map(variant).collect();
            groups.last_mut()?.variants = variants?;
        }
        "request" => groups.last_mut()?.rows.push(Row {
            line,
            request: spell(lets, words)?,
            mood: Mood::Default,
            buffer: 0,
            calls: Vec::new(),
            end: End::Silent,
            agreed: None,
        }),
        _ => {
            let row = groups.last_mut()?.rows.last_mut()?;
            match key {
                "files" => row.mood = mood(words)?,
                "buffer" => row.buffer = number(words)? as usize,
                "call" => row.calls.push(words.into()),
                "reply" => row.end = End::Reply(spell(lets, words)?),
                "silent" => row.end = End::Silent,
                "fault" => row.end = End::Fault(words.split(' ').next()?.into()),
                "agreed" => row.agreed = Some(number(words)?),
                _ => return None,
            }
        }
    }
    Some(())
}

/// The groups of a file.
///
/// # Errors
/// A line that can't be read.
pub fn groups(text: &str) -> Result<Vec<Group>, String> {
    let (mut lets, mut groups) = (HashMap::new(), Vec::new());
    let mut statements: Vec<(usize, String)> = Vec::new();
    for (line, text) in (1..).zip(text.lines()) {
        match statements.last_mut() {
            Some((_, before)) if text.starts_with("  ") => before.push_str(&text[1..]),
            _ => statements.push((line, text.into())),
        }
    }
    for (line, text) in statements {
        read(&mut lets, &mut groups, line, &text)
            .ok_or_else(|| format!("line {line} can't be read"))?;
    }
    Ok(groups)
}

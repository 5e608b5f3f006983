//! Lines of the bench script and the requests they stand for, by DESIGN.md and REQUESTS.md.

use crate::fields::{byte_number, long_number, long_numbers, number, pair, pairs, word, words};
use crate::settings::Setting;
use crate::wire::ChecksumModel;

/// The largest number of bytes in a line, its newline not counted.
pub const LINE_LENGTH_MAX: usize = 20_000;

/// The largest N of `buffer`.
const BUFFER_MAX: u64 = 512;

/// The largest N of `room`.
const ROOM_MAX: u64 = 4_096;

/// The most bytes of `lend`.
const LENT_MAX: usize = 4_096;

/// One request of the script.
#[derive(Debug, Clone, PartialEq, Eq)]
pub enum Request {
    /// `table W W ..`
    Table(Vec<u16>),
    /// `buffer N`
    Buffer(usize),
    /// `fresh`
    Fresh,
    /// `write S V`
    Write { signal: usize, value: u32 },
    /// `writes S HH ..`
    WriteArray { signal: usize, bytes: Vec<u8> },
    /// `row S .. : V ..`
    WriteRow { signals: Vec<u16>, values: Vec<u32> },
    /// `read S`
    Read { signal: usize },
    /// `reads S`
    ReadArray { signal: usize },
    /// `select N`
    Select { schedule: usize },
    /// `lend HH ..`
    Lend(Vec<u8>),
    /// `tick`
    Tick,
    /// `byte HH`
    Byte(u8),
    /// `status`
    Status,
    /// `send NAD LENGTH`
    Send { nad: u8, length: u32 },
    /// `message`
    Message,
    /// `ahead F`
    Ahead { frame: usize },
    /// `judge TICK BIT`
    Judge { tick: u32, bit: u32 },
    /// `pid N`
    ProtectedIdentifier(u8),
    /// `id HH`
    FrameIdentifier(u8),
    /// `checksum N classic HH ..` and `checksum N enhanced HH ..`
    Checksum(u8, ChecksumModel, Vec<u8>),
    /// `room N`
    Room(usize),
    /// `take HH ..`
    Take(Vec<u8>),
    /// `set ..`
    Set(Setting),
    /// A line that shows something.
    Show(Show),
}

/// What a line shows; no call is made for it.
#[derive(Debug, Clone, Copy, PartialEq, Eq)]
pub enum Show {
    /// `pending`
    Pending,
    /// `frames`
    Frames,
    /// `out`
    Out,
    /// `state`
    State,
    /// `received`
    Received,
    /// `taken`
    Taken,
    /// `assembly`
    Assembly,
}

/// What a line of the script is.
#[derive(Debug, Clone, PartialEq, Eq)]
pub enum Line {
    /// Empty or a comment: it has no answer.
    PassedOver,
    /// Answered with `?`.
    NoRequest,
    Request(Request),
}

/// Reads a line without its newline.
///
/// A line above `LINE_LENGTH_MAX` may be cut short anywhere behind that length.
pub fn read(line: &[u8]) -> Line {
    if line.is_empty() || line.starts_with(b"#") {
        return Line::PassedOver;
    }
    if line.len() > LINE_LENGTH_MAX {
        return Line::NoRequest;
    }
    let fields: Vec<&[u8]> = line.split(|&byte| byte == b' ').collect();
    let request = plain_request(&fields)
        .or_else(|| master_request(&fields))
        .or_else(|| other_request(&fields));
    request.map_or(Line::NoRequest, Line::Request)
}

/// Reads a request that is a keyword alone.
fn plain_request(fields: &[&[u8]]) -> Option<Request> {
    match fields {
        [b"fresh"] => Some(Request::Fresh),
        [b"tick"] => Some(Request::Tick),
        [b"status"] => Some(Request::Status),
        [b"message"] => Some(Request::Message),
        [b"pending"] => Some(Request::Show(Show::Pending)),
        [b"frames"] => Some(Request::Show(Show::Frames)),
        [b"out"] => Some(Request::Show(Show::Out)),
        [b"state"] => Some(Request::Show(Show::State)),
        [b"received"] => Some(Request::Show(Show::Received)),
        [b"taken"] => Some(Request::Show(Show::Taken)),
        [b"assembly"] => Some(Request::Show(Show::Assembly)),
        _ => None,
    }
}

/// Reads a call of the master that has arguments.
fn master_request(fields: &[&[u8]]) -> Option<Request> {
    match fields {
        [b"write", signal, value] => Some(Request::Write {
            signal: word(signal)?.into(),
            value: long_number(value)?,
        }),
        [b"writes", signal, bytes @ ..] => Some(Request::WriteArray {
            signal: word(signal)?.into(),
            bytes: pairs(bytes)?,
        }),
        [b"row", rows @ ..] => row_request(rows),
        [b"read", signal] => Some(Request::Read {
            signal: word(signal)?.into(),
        }),
        [b"reads", signal] => Some(Request::ReadArray {
            signal: word(signal)?.into(),
        }),
        [b"select", schedule] => Some(Request::Select {
            schedule: word(schedule)?.into(),
        }),
        [b"byte", byte] => Some(Request::Byte(pair(byte)?)),
        [b"send", nad, length] => Some(Request::Send {
            nad: byte_number(nad)?,
            length: long_number(length)?,
        }),
        [b"ahead", frame] => Some(Request::Ahead {
            frame: word(frame)?.into(),
        }),
        _ => None,
    }
}

/// Reads the two rows behind `row`, between which a colon stands alone.
fn row_request(rows: &[&[u8]]) -> Option<Request> {
    let colon = rows.iter().position(|field| field == b":")?;
    Some(Request::WriteRow {
        signals: words(&rows[..colon])?,
        values: long_numbers(&rows[colon + 1..])?,
    })
}

/// Reads a request to the bench itself, the judge, the wire or the reassembler.
fn other_request(fields: &[&[u8]]) -> Option<Request> {
    match fields {
        [b"table", numbers @ ..] => Some(Request::Table(words(numbers)?)),
        [b"judge", tick, bit] => Some(Request::Judge {
            tick: long_number(tick)?,
            bit: long_number(bit)?,
        }),
        [b"buffer", length] => Some(Request::Buffer(number(length, BUFFER_MAX)? as usize)),
        [b"lend", bytes @ ..] => {
            let message = pairs(bytes)?;
            (message.len() <= LENT_MAX).then_some(Request::Lend(message))
        }
        [b"pid", identifier] => Some(Request::ProtectedIdentifier(byte_number(identifier)?)),
        [b"id", protected] => Some(Request::FrameIdentifier(pair(protected)?)),
        [b"checksum", identifier, model, data @ ..] => Some(Request::Checksum(
            byte_number(identifier)?,
            checksum_model(model)?,
            pairs(data)?,
        )),
        [b"room", length] => Some(Request::Room(number(length, ROOM_MAX)? as usize)),
        [b"take", bytes @ ..] => Some(Request::Take(pairs(bytes)?)),
        [b"set", setting @ ..] => Setting::read(setting).map(Request::Set),
        _ => None,
    }
}

/// Reads the keyword of a checksum model.
fn checksum_model(field: &[u8]) -> Option<ChecksumModel> {
    match field {
        b"classic" => Some(ChecksumModel::Classic),
        b"enhanced" => Some(ChecksumModel::Enhanced),
        _ => None,
    }
}

#[cfg(test)]
#[path = "script_tests.rs"]
mod tests;

//! The `set` lines: parts of the state and the reassembler's state, by REQUESTS.md.

use crate::diagnostic::Message;
use crate::fields::{bit, byte_number, number, pair, pairs, word};
use crate::reassembler::OpenMessage;
use crate::state::{State, FRAMES_MAX, SIGNALS_MAX};
use crate::transfer::{Open, Status, RESPONSE_BYTES};

/// What a `set` line sets.
#[derive(Debug, Clone, PartialEq, Eq)]
pub enum Setting {
    /// A part of the master's state.
    Master(Part),
    /// `set assembly ..`
    Assembly(Option<OpenMessage>),
}

/// A part of the master's state.
#[derive(Debug, Clone, PartialEq, Eq)]
pub enum Part {
    /// `set wait N`
    Wait(u16),
    /// `set entry E` and `set entry none`
    Entry(Option<usize>),
    /// `set request N` and `set request none`
    Requested(Option<usize>),
    /// `set open ..`
    Open(Open),
    /// `set count N`
    Count(usize),
    /// `set bytes HH*9`
    Bytes([u8; RESPONSE_BYTES]),
    /// `set written B`
    Written(bool),
    /// `set message ..`
    Message(Message),
    /// `set status E S O HH`
    Status(Status),
    /// `set pending F B`
    Pending { frame: usize, pending: bool },
    /// `set received S K` and `set received S none`
    Received {
        signal: usize,
        placement: Option<usize>,
    },
}

impl Setting {
    /// Reads the fields behind `set`.
    pub fn read(fields: &[&[u8]]) -> Option<Setting> {
        match fields {
            [b"assembly", b"none"] => Some(Setting::Assembly(None)),
            [b"assembly", nad, length, count, counter] => {
                Some(Setting::Assembly(Some(OpenMessage {
                    nad: byte_number(nad)?,
                    length: word(length)?.into(),
                    count: word(count)?.into(),
                    counter: byte_number(counter)?,
                })))
            }
            _ => Part::read(fields).map(Setting::Master),
        }
    }
}

impl Part {
    /// Reads the fields behind `set`.
    fn read(fields: &[&[u8]]) -> Option<Part> {
        match fields {
            [b"wait", ticks] => word(ticks).map(Part::Wait),
            [b"entry", entry] => number_or_none(entry).map(Part::Entry),
            [b"request", schedule] => number_or_none(schedule).map(Part::Requested),
            [b"open", open @ ..] => read_open(open).map(Part::Open),
            [b"count", count] => Some(Part::Count(byte_number(count)?.into())),
            [b"bytes", bytes @ ..] => Some(Part::Bytes(pairs(bytes)?.try_into().ok()?)),
            [b"written", written] => bit(written).map(Part::Written),
            [b"message", message @ ..] => read_message(message).map(Part::Message),
            [b"status", status @ ..] => read_status(status).map(Part::Status),
            [b"pending", frame, pending] => Some(Part::Pending {
                frame: number(frame, FRAMES_MAX as u64 - 1)? as usize,
                pending: bit(pending)?,
            }),
            [b"received", signal, placement] => Some(Part::Received {
                signal: number(signal, SIGNALS_MAX as u64 - 1)? as usize,
                placement: number_or_none(placement)?,
            }),
            _ => None,
        }
    }

    /// Puts the part into a state.
    pub fn put(self, state: &mut State) {
        match self {
            Part::Wait(ticks) => state.wait = ticks,
            Part::Entry(entry) => state.entry = entry,
            Part::Requested(schedule) => state.requested = schedule,
            Part::Open(open) => state.transfer.open = open,
            Part::Count(count) => state.transfer.count = count,
            Part::Bytes(bytes) => state.transfer.bytes = bytes,
            Part::Written(written) => state.transfer.written = written,
            Part::Message(message) => state.message = message,
            Part::Status(status) => state.status = status,
            Part::Pending { frame, pending } => state.pending[frame] = pending,
            Part::Received { signal, placement } => state.received[signal] = placement,
        }
    }
}

/// Reads a number of at most 65,535, or the word for none.
fn number_or_none(field: &[u8]) -> Option<Option<usize>> {
    match field {
        b"none" => Some(None),
        _ => Some(Some(word(field)?.into())),
    }
}

/// Reads the fields behind `open`.
fn read_open(fields: &[&[u8]]) -> Option<Open> {
    match fields {
        [b"nothing"] => Some(Open::Nothing),
        [b"frame", number] => Some(Open::Frame(word(number)?.into())),
        [b"request"] => Some(Open::Request),
        [b"response"] => Some(Open::Response),
        _ => None,
    }
}

/// Reads the fields behind `message`.
fn read_message(fields: &[&[u8]]) -> Option<Message> {
    match fields {
        [b"none"] => Some(Message::None),
        [b"sending", nad, length, next] => Some(Message::Sending {
            nad: byte_number(nad)?,
            length: word(length)?.into(),
            next: word(next)?.into(),
        }),
        [b"completed"] => Some(Message::Completed),
        [b"failed"] => Some(Message::Failed),
        _ => None,
    }
}

/// Reads the fields behind `status`.
fn read_status(fields: &[&[u8]]) -> Option<Status> {
    match fields {
        [error, success, overrun, last] => Some(Status {
            error_in_response: bit(error)?,
            successful_transfer: bit(success)?,
            overrun: bit(overrun)?,
            last: pair(last)?,
        }),
        _ => None,
    }
}

#[cfg(test)]
#[path = "settings_tests.rs"]
mod tests;

//! The judge of schedules, by Req 02 of document 02 and the section on it in REQUESTS.md.
//!
//! The times are those of 5.2.3 of document 001, counted in whole numbers and never divided.

use crate::refusal::Refusal;
use crate::table::{Entry, Slot, Table};
use crate::transfer::Open;

/// The bit times of a header that is sent without a space.
const HEADER_BITS: u64 = 34;

/// The bit times of each byte of a response: its eight bits, a start bit and a stop bit.
const BYTE_BITS: u64 = 10;

/// The longest frame takes 1.4 times the shortest one: 14 tenths of a bit time for each bit time.
const LONGEST_TENTHS: u64 = 14;

/// The hundredths of a microsecond in a microsecond.
const HUNDREDTHS: u64 = 100;

/// The largest tick length and the largest bit time.
const TIME_MAX: u32 = 65_535;

/// What the judge says of a table.
#[derive(Debug, Clone, Copy, PartialEq, Eq)]
pub enum Judged {
    /// Every slot holds every frame that it can open.
    Holds,
    /// The entry with this number in the table is the first whose slot does not.
    Short(usize),
}

/// Judges a table for a tick length in microseconds and a bit time in tenths of a microsecond.
pub fn judge(table: &Table, tick: u32, bit: u32) -> Result<Judged, Refusal> {
    if !is_time(tick) || !is_time(bit) {
        return Err(Refusal::TimeOutOfRange);
    }
    for (number, entry) in table.entries.iter().enumerate() {
        if !holds_all(table, entry, tick, bit) {
            return Ok(Judged::Short(number));
        }
    }
    Ok(Judged::Holds)
}

/// Tells whether a tick length or a bit time is one that the judge takes.
fn is_time(time: u32) -> bool {
    (1..=TIME_MAX).contains(&time)
}

/// Tells whether the slot of an entry holds every frame that the entry can open.
fn holds_all(table: &Table, entry: &Entry, tick: u32, bit: u32) -> bool {
    let slot_time = slot_hundredths(entry.delay, tick);
    let mut frames = openable(table, entry.slot)
        .into_iter()
        .filter_map(|open| open.frame(table));
    frames.all(|frame| frame_hundredths(frame.length, bit) <= slot_time)
}

/// Gives everything that a slot can open, whatever is pending or being sent.
fn openable(table: &Table, slot: Slot) -> Vec<Open> {
    match slot {
        Slot::Frame(number) => vec![Open::Frame(number)],
        Slot::List(list) => table.lists[list].iter().copied().map(Open::Frame).collect(),
        Slot::Request => vec![Open::Request],
        Slot::Response => vec![Open::Response],
    }
}

/// Gives the time of a slot with this delay in hundredths of a microsecond, below 2^39.
fn slot_hundredths(delay: u16, tick: u32) -> u64 {
    HUNDREDTHS * u64::from(delay) * u64::from(tick)
}

/// Gives the longest time of a frame with so many data bytes in hundredths of a microsecond.
///
/// Tenths of a bit time are multiplied by tenths of a microsecond.
fn frame_hundredths(length: usize, bit: u32) -> u64 {
    LONGEST_TENTHS * shortest_bits(length) * u64::from(bit)
}

/// Gives the bit times of the shortest frame with so many data bytes; the checksum is one more.
fn shortest_bits(length: usize) -> u64 {
    HEADER_BITS + BYTE_BITS * (length as u64 + 1)
}

#[cfg(test)]
#[path = "timing_tests.rs"]
mod tests;

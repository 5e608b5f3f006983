//! Whether a state fits the table, by refusal 3 of document 01 and Req 03 of document 02.

use crate::diagnostic::{frame_count, Message, MESSAGE_LENGTH_MAX};
use crate::state::{State, FRAMES_MAX};
use crate::table::{Slot, Table};
use crate::transfer::Open;

/// Tells whether a state fits the table.
pub fn fits(state: &State, table: &Table) -> bool {
    schedules_fit(state, table)
        && wait_fits(state, table)
        && pending_fits(state, table)
        && transfer_fits(state, table)
        && message_fits(&state.message)
        && receptions_fit(state, table)
}

/// Tells whether the requested schedule and the current entry are there.
fn schedules_fit(state: &State, table: &Table) -> bool {
    let schedule = state.requested;
    schedule.is_none_or(|number| number < table.schedule_count())
        && state
            .entry
            .is_none_or(|number| number < table.entries.len())
}

/// Tells whether the wait is at most the current delay, or 0 with no schedule.
fn wait_fits(state: &State, table: &Table) -> bool {
    let entry = state.entry.and_then(|number| table.entries.get(number));
    state.wait <= entry.map_or(0, |entry| entry.delay)
}

/// Tells whether only frames that are there and published are pending.
fn pending_fits(state: &State, table: &Table) -> bool {
    let mut pending = (0..FRAMES_MAX).filter(|&number| state.pending[number]);
    pending.all(|number| {
        let frame = table.frames.get(number);
        frame.is_some_and(|frame| frame.published)
    })
}

/// Tells whether nothing is open, or what the current entry can open, with a byte to come.
fn transfer_fits(state: &State, table: &Table) -> bool {
    let transfer = &state.transfer;
    if transfer.open == Open::Nothing {
        return true;
    }
    let frame = transfer.open.frame(table);
    can_open(state, table) && frame.is_some_and(|frame| transfer.count < frame.length + 1)
}

/// Tells whether the current entry can open what is open.
fn can_open(state: &State, table: &Table) -> bool {
    let entry = state.entry.and_then(|number| table.entries.get(number));
    match (entry.map(|entry| entry.slot), state.transfer.open) {
        (Some(Slot::Frame(target)), Open::Frame(number)) => number == target,
        (Some(Slot::List(list)), Open::Frame(number)) => table.lists[list].contains(&number),
        (Some(Slot::Request), Open::Request) => matches!(state.message, Message::Sending { .. }),
        (Some(Slot::Response), Open::Response) => true,
        _ => false,
    }
}

/// Tells whether a message being sent has a length of 1 to 4,095 and a frame left to send.
fn message_fits(message: &Message) -> bool {
    match *message {
        Message::Sending { length, next, .. } => {
            (1..=MESSAGE_LENGTH_MAX).contains(&length) && next < frame_count(length)
        }
        _ => true,
    }
}

/// Tells whether each last reception is a placement of its signal in a frame that is received.
fn receptions_fit(state: &State, table: &Table) -> bool {
    let mut receptions = state.received.iter().enumerate();
    receptions.all(|(signal, received)| match *received {
        None => true,
        Some(number) => table
            .placements
            .get(number)
            .is_some_and(|placement| placement.signal == signal && !table.is_published(placement)),
    })
}

#[cfg(test)]
#[path = "fits_tests.rs"]
mod tests;

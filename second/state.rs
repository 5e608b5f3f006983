//! The master's state and its steps, by "Calls and steps" of document 01 and Req 03 of document 02.
//!
//! The steps here take a right table, a buffer and a state that fit it; refusals are tested before.

use crate::diagnostic::{self, Message};
use crate::table::{Slot, Table, FRAME_BYTES};
use crate::transfer::{protected_identifier, Open, Status, Transfer, Verdict, REQUEST_FRAME};

/// The largest number of frames in a table.
pub const FRAMES_MAX: usize = 60;

/// The largest number of signals in a table.
pub const SIGNALS_MAX: usize = 256;

/// The answer to a tick.
#[derive(Debug, Clone, Copy, PartialEq, Eq)]
pub enum Ticked {
    Waiting,
    Idle,
    Silent,
    /// A transfer is open, with this protected identifier.
    Opened(u8),
}

/// The answer to a byte in.
#[derive(Debug, Clone, PartialEq, Eq)]
pub enum Came {
    More,
    Success,
    Failure,
    /// A response frame came, with these eight bytes.
    Response(Vec<u8>),
}

/// The state of the master between calls.
#[derive(Debug, Clone, PartialEq, Eq)]
pub struct State {
    /// For each frame, whether it was written and not sent since.
    pub pending: [bool; FRAMES_MAX],
    /// The number of the current entry in the table.
    pub entry: Option<usize>,
    /// The schedule asked for by select.
    pub requested: Option<usize>,
    pub wait: u16,
    pub transfer: Transfer,
    pub message: Message,
    pub status: Status,
    /// For each signal the number of the placement that was received last, if any was.
    pub received: [Option<usize>; SIGNALS_MAX],
}

impl State {
    /// Gives the state with nothing pending, no schedule, no transfer, no message, status 0 and no reception.
    pub fn fresh() -> State {
        State {
            pending: [false; FRAMES_MAX],
            entry: None,
            requested: None,
            wait: 0,
            transfer: Transfer::none(),
            message: Message::None,
            status: Status::default(),
            received: [None; SIGNALS_MAX],
        }
    }

    /// Marks a frame as written.
    pub fn mark_written(&mut self, frame: usize) {
        self.pending[frame] = true;
        if self.transfer.open == Open::Frame(frame) {
            self.transfer.written = true;
        }
    }

    /// Makes the placements in a frame those that were received last.
    fn mark_received(&mut self, table: &Table, frame: usize) {
        for (number, placement) in table.placements.iter().enumerate() {
            if placement.frame == frame {
                self.received[placement.signal] = Some(number);
            }
        }
    }

    /// Does one tick.
    pub fn tick(&mut self, table: &Table, buffer: &[u8], lent: &[u8]) -> Ticked {
        if self.wait > 1 {
            self.wait -= 1;
            return Ticked::Waiting;
        }
        self.close(table, false);
        self.entry = self.entry_to_start(table);
        self.requested = None;
        let Some(entry) = self.entry.map(|number| &table.entries[number]) else {
            return Ticked::Idle;
        };
        self.wait = entry.delay;
        let Some(transfer) = self.opened(table, buffer, lent, entry.slot) else {
            return Ticked::Silent;
        };
        self.transfer = transfer;
        let frame = self.transfer.open.frame(table);
        Ticked::Opened(protected_identifier(&frame.expect("an opened frame")))
    }

    /// Gives the entry of the slot that starts: the requested schedule's first, or the next one.
    fn entry_to_start(&self, table: &Table) -> Option<usize> {
        match self.requested {
            Some(schedule) => table.first_entry(schedule),
            None => table.next_entry(self.entry?),
        }
    }

    /// Gives the transfer that a slot opens, if it isn't silent.
    fn opened(&self, table: &Table, buffer: &[u8], lent: &[u8], slot: Slot) -> Option<Transfer> {
        match slot {
            Slot::Frame(frame) => Some(frame_transfer(table, buffer, frame)),
            Slot::List(list) => {
                let mut members = table.lists[list].iter();
                let first = members.find(|&&frame| self.pending[frame])?;
                Some(frame_transfer(table, buffer, *first))
            }
            Slot::Request => self.request_transfer(lent),
            Slot::Response => Some(Transfer::receiving(Open::Response)),
        }
    }

    /// Gives the transfer of the next frame of the message being sent, if there is one.
    fn request_transfer(&self, lent: &[u8]) -> Option<Transfer> {
        let Message::Sending { nad, next, .. } = self.message else {
            return None;
        };
        let data = diagnostic::request_frame(nad, lent, next);
        Some(Transfer::sending(Open::Request, &REQUEST_FRAME, &data))
    }

    /// Gives a byte to the open transfer; a received frame's data go into the buffer.
    pub fn byte_in(&mut self, table: &Table, buffer: &mut [u8], byte: u8) -> Came {
        let open = self.transfer.open;
        let frame = open.frame(table).expect("an open frame");
        let verdict = self.transfer.take(&frame, byte);
        if verdict == Verdict::More {
            return Came::More;
        }
        let successful = verdict == Verdict::Success;
        let data = self.transfer.bytes[..frame.length].to_vec();
        self.close(table, successful);
        match open {
            _ if !successful => Came::Failure,
            Open::Response => Came::Response(data),
            Open::Frame(number) if !frame.published => {
                let begin = FRAME_BYTES * number;
                buffer[begin..begin + frame.length].copy_from_slice(&data);
                self.mark_received(table, number);
                Came::Success
            }
            _ => Came::Success,
        }
    }

    /// Closes the open transfer, if there is one: status, pending and message follow from it.
    fn close(&mut self, table: &Table, successful: bool) {
        let Some(frame) = self.transfer.open.frame(table) else {
            return;
        };
        if self.transfer.count > 0 {
            self.status.count(&frame, successful);
        }
        match self.transfer.open {
            Open::Frame(number) if successful && !self.transfer.written => {
                self.pending[number] = false;
            }
            Open::Request => self.message = self.message.after_transfer(successful),
            _ => {}
        }
        self.transfer = Transfer::none();
    }
}

/// Gives the transfer of a frame of the table: the master sends it or a slave does.
fn frame_transfer(table: &Table, buffer: &[u8], number: usize) -> Transfer {
    let frame = &table.frames[number];
    let open = Open::Frame(number);
    if !frame.published {
        return Transfer::receiving(open);
    }
    let begin = FRAME_BYTES * number;
    let data = &buffer[begin..begin + frame.length];
    Transfer::sending(open, frame, data)
}

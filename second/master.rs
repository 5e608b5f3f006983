//! The master's calls and their refusals, by document 01 and Req 01 and 03 of document 02.
//!
//! Each call tests its refusals in the order of their numbers, before it changes anything; a row
//! of values tests 12 directly after 3.

use crate::diagnostic::{Message, MESSAGE_LENGTH_MAX};
use crate::fits::fits;
use crate::refusal::Refusal;
use crate::signals;
use crate::state::{Came, State, Ticked};
use crate::table::{Placement, Signal, SignalKind, Table};
use crate::transfer::{Open, REQUEST_FRAME};

/// The master: its table, its frame bytes and its state.
#[derive(Clone)]
pub struct Master {
    /// The table, or the refusal that its check gave.
    pub table: Result<Table, Refusal>,
    /// The frame bytes.
    pub buffer: Vec<u8>,
    pub state: State,
}

impl Master {
    /// Gives a master with a table of no words.
    pub fn new() -> Master {
        Master {
            table: Table::read(&[]),
            buffer: Vec::new(),
            state: State::fresh(),
        }
    }

    /// Tests refusal 1.
    pub fn checked_table(&self) -> Result<&Table, Refusal> {
        self.table.as_ref().map_err(|refusal| *refusal)
    }

    /// Tests refusals 1 and 2.
    fn table_with_buffer(&self) -> Result<&Table, Refusal> {
        let table = self.checked_table()?;
        if self.buffer.len() != table.buffer_length() {
            return Err(Refusal::BufferLength);
        }
        Ok(table)
    }

    /// Tests refusals 1 and 3.
    fn fitting_table(&self) -> Result<&Table, Refusal> {
        let table = self.checked_table()?;
        if !fits(&self.state, table) {
            return Err(Refusal::StateMisfit);
        }
        Ok(table)
    }

    /// Tests refusals 1, 2 and 3.
    fn admitted_table(&self) -> Result<&Table, Refusal> {
        self.table_with_buffer()?;
        self.fitting_table()
    }

    /// Fills the frame bytes with the start values and makes the state fresh.
    pub fn fresh(&mut self) -> Result<(), Refusal> {
        self.buffer = self.table_with_buffer()?.fresh_buffer();
        self.state = State::fresh();
        Ok(())
    }

    /// Tests refusals 1 to 4 and gives a signal.
    fn signal(&self, number: usize) -> Result<&Signal, Refusal> {
        let table = self.admitted_table()?;
        table.signals.get(number).ok_or(Refusal::NotThere)
    }

    /// Tests refusals 1 to 4, 6 and gives a signal to read.
    fn readable(&self, number: usize, kind: SignalKind) -> Result<&Signal, Refusal> {
        let signal = self.signal(number)?;
        if signal.kind != kind {
            return Err(Refusal::OtherKind);
        }
        Ok(signal)
    }

    /// Tests refusals 1 to 6 and gives a signal to write.
    fn writable(&self, number: usize, kind: SignalKind) -> Result<Signal, Refusal> {
        self.signal(number)?;
        if !self.checked_table()?.publishes(number) {
            return Err(Refusal::NotPublished);
        }
        self.readable(number, kind).cloned()
    }

    /// Puts a value into every placement of a signal, at its offset, and marks each of its frames.
    fn put(&mut self, number: usize, put_at: impl Fn(&mut [u8], usize)) -> Result<(), Refusal> {
        let placements = self.checked_table()?.placements_of(number);
        let placements: Vec<Placement> = placements.copied().collect();
        for placement in placements {
            put_at(&mut self.buffer[placement.frame_bytes()], placement.offset);
            self.state.mark_written(placement.frame);
        }
        Ok(())
    }

    /// Gives the placement that a read goes by; there is none where the signal was never received.
    ///
    /// A published signal is read in its first placement, another one in the one received last.
    fn read_placement(&self, number: usize) -> Result<Option<&Placement>, Refusal> {
        let table = self.checked_table()?;
        if table.publishes(number) {
            return Ok(table.placements_of(number).next());
        }
        let received = self.state.received[number];
        Ok(received.map(|placement| &table.placements[placement]))
    }

    /// Writes a scalar.
    pub fn write(&mut self, number: usize, value: u32) -> Result<(), Refusal> {
        let signal = self.writable(number, SignalKind::Scalar)?;
        if value >= 1 << signal.width {
            return Err(Refusal::ValueOutOfRange);
        }
        self.put(number, |data, offset| {
            signals::put_scalar(data, offset, signal.width, value as u16);
        })
    }

    /// Writes a row of scalars one by one, or none of them where one is refused.
    pub fn write_row(&mut self, numbers: &[u16], values: &[u32]) -> Result<(), Refusal> {
        self.admitted_table()?;
        if numbers.len() != values.len() {
            return Err(Refusal::UnequalRows);
        }
        // The writes go into a copy, which is kept where none of them is refused.
        let mut written = self.clone();
        for (place, (&number, &value)) in numbers.iter().zip(values).enumerate() {
            let result = written.write(number.into(), value);
            result.map_err(|refusal| refusal.of_pair(place))?;
        }
        *self = written;
        Ok(())
    }

    /// Writes an array.
    pub fn write_array(&mut self, number: usize, bytes: &[u8]) -> Result<(), Refusal> {
        let signal = self.writable(number, SignalKind::Array)?;
        if bytes.len() * 8 != signal.width {
            return Err(Refusal::ValueOutOfRange);
        }
        self.put(number, |data, offset| {
            signals::put_array(data, offset, bytes);
        })
    }

    /// Reads a scalar.
    pub fn read(&self, number: usize) -> Result<u16, Refusal> {
        let signal = self.readable(number, SignalKind::Scalar)?;
        let Some(placement) = self.read_placement(number)? else {
            return Ok(signal.start);
        };
        let data = &self.buffer[placement.frame_bytes()];
        Ok(signals::scalar(data, placement.offset, signal.width))
    }

    /// Reads an array.
    pub fn read_array(&self, number: usize) -> Result<Vec<u8>, Refusal> {
        let signal = self.readable(number, SignalKind::Array)?;
        let Some(placement) = self.read_placement(number)? else {
            return Ok(signal.start_bytes());
        };
        let data = &self.buffer[placement.frame_bytes()];
        Ok(signals::array(data, placement.offset, signal.width))
    }

    /// Asks for a schedule.
    pub fn select(&mut self, schedule: usize) -> Result<(), Refusal> {
        if schedule >= self.fitting_table()?.schedule_count() {
            return Err(Refusal::NotThere);
        }
        self.state.requested = Some(schedule);
        Ok(())
    }

    /// Does one tick with this message lent.
    pub fn tick(&mut self, lent: &[u8]) -> Result<Ticked, Refusal> {
        self.admitted_table()?;
        if let Message::Sending { length, .. } = self.state.message {
            if lent.len() != length {
                return Err(Refusal::StateMisfit);
            }
        }
        let table = self.table.as_ref().map_err(|refusal| *refusal)?;
        Ok(self.state.tick(table, &self.buffer, lent))
    }

    /// Takes a byte from the bus.
    pub fn byte_in(&mut self, byte: u8) -> Result<Came, Refusal> {
        self.admitted_table()?;
        if self.state.transfer.open == Open::Nothing {
            return Err(Refusal::NoTransferOpen);
        }
        let table = self.table.as_ref().map_err(|refusal| *refusal)?;
        Ok(self.state.byte_in(table, &mut self.buffer, byte))
    }

    /// Gives the status word and sets it to 0.
    pub fn read_status(&mut self) -> Result<u16, Refusal> {
        self.fitting_table()?;
        Ok(std::mem::take(&mut self.state.status).word())
    }

    /// Begins to send a message of this length.
    pub fn send(&mut self, nad: u8, length: u32) -> Result<(), Refusal> {
        self.fitting_table()?;
        let length = length as usize;
        if length == 0 || length > MESSAGE_LENGTH_MAX {
            return Err(Refusal::MessageLength);
        }
        if matches!(self.state.message, Message::Sending { .. }) {
            return Err(Refusal::MessageBeingSent);
        }
        let next = 0;
        self.state.message = Message::Sending { nad, length, next };
        Ok(())
    }

    /// Gives the state of the message.
    pub fn message(&self) -> Result<Message, Refusal> {
        self.fitting_table()?;
        Ok(self.state.message)
    }

    /// Gives the number of pending members ahead of a frame in its list.
    pub fn ahead(&self, frame: usize) -> Result<usize, Refusal> {
        let table = self.fitting_table()?;
        let mut lists = table.lists.iter();
        let list = lists.find(|list| list.contains(&frame));
        let members = list.ok_or(Refusal::NotThere)?.iter();
        let ahead = members.take_while(|&&member| member != frame);
        Ok(ahead.filter(|&&member| self.state.pending[member]).count())
    }

    /// Gives the numbers of the pending frames.
    pub fn pending(&self) -> Vec<usize> {
        let frames = 0..self.state.pending.len();
        frames.filter(|&frame| self.state.pending[frame]).collect()
    }

    /// Gives each signal that has a last reception, with the number of its placement behind it.
    pub fn received(&self) -> Vec<usize> {
        let receptions = self.state.received.iter().enumerate();
        let pairs = receptions.filter_map(|(signal, placement)| Some([signal, (*placement)?]));
        pairs.flatten().collect()
    }

    /// Gives the bytes that the master sends in the open transfer; a wrong table has no frames.
    pub fn out(&self) -> Vec<u8> {
        let transfer = &self.state.transfer;
        let frame = match (&self.table, transfer.open) {
            (Ok(table), open) => open.frame(table),
            (Err(_), Open::Request) => Some(REQUEST_FRAME),
            (Err(_), _) => None,
        };
        match frame {
            Some(frame) if frame.published => transfer.bytes[..frame.length + 1].to_vec(),
            _ => Vec::new(),
        }
    }
}

#[cfg(test)]
#[path = "master_tests.rs"]
mod tests;

#[cfg(test)]
#[path = "placement_tests.rs"]
mod placement_tests;

#[cfg(test)]
#[path = "row_tests.rs"]
mod row_tests;

//! The bench that a script works on: its requests and their answers, by DESIGN.md and REQUESTS.md.

use crate::answers::{self, text, with_bytes, with_numbers};
use crate::master::Master;
use crate::reassembler::Reassembler;
use crate::refusal::Refusal;
use crate::script::{self, Line, Request, Show};
use crate::settings::Setting;
use crate::state::{State, FRAMES_MAX};
use crate::table::{Table, FRAME_BYTES};
use crate::timing;
use crate::wire::{self, ChecksumModel};

/// The answer to a line that is no request.
const NO_REQUEST: &str = "?";

/// Everything that lines of a script change.
pub struct Bench {
    pub master: Master,
    /// The message that ticks are lent.
    pub lent: Vec<u8>,
    pub reassembler: Reassembler,
    /// The reassembler's buffer.
    pub room: Vec<u8>,
}

impl Bench {
    /// Gives a bench before its first line.
    pub fn new() -> Bench {
        Bench {
            master: Master::new(),
            lent: Vec::new(),
            reassembler: Reassembler::fresh(),
            room: Vec::new(),
        }
    }

    /// Answers one line without its newline, or gives nothing where the line is passed over.
    pub fn answer(&mut self, line: &[u8]) -> Option<String> {
        match script::read(line) {
            Line::PassedOver => None,
            Line::NoRequest => Some(text(NO_REQUEST)),
            Line::Request(request) => {
                let answer = self.perform(request);
                Some(answer.unwrap_or_else(|refusal| refusal.to_string()))
            }
        }
    }

    /// Does a request and gives the text of its answer.
    fn perform(&mut self, request: Request) -> Result<String, Refusal> {
        let master = &mut self.master;
        match request {
            Request::Table(words) => self.set_table(&words),
            Request::Buffer(length) => Ok(self.set_buffer(length)),
            Request::Fresh => master.fresh().map(|()| text("fresh")),
            Request::Write { signal, value } => written(master.write(signal, value)),
            Request::WriteArray { signal, bytes } => written(master.write_array(signal, &bytes)),
            Request::WriteRow { signals, values } => written(master.write_row(&signals, &values)),
            Request::Read { signal } => master.read(signal).map(|value| format!("value {value}")),
            Request::ReadArray { signal } => master
                .read_array(signal)
                .map(|bytes| with_bytes("bytes", &bytes)),
            Request::Select { schedule } => master.select(schedule).map(|()| text("selected")),
            Request::Lend(message) => Ok(self.set_lent(message)),
            Request::Tick => master.tick(&self.lent).map(answers::ticked),
            Request::Byte(byte) => master.byte_in(byte).map(answers::came),
            Request::Status => master
                .read_status()
                .map(|word| format!("status {word:04X}")),
            Request::Send { nad, length } => master.send(nad, length).map(|()| text("sending")),
            Request::Message => master.message().map(answers::message),
            Request::Ahead { frame } => master.ahead(frame).map(|count| format!("ahead {count}")),
            Request::Judge { tick, bit } => self.judge(tick, bit),
            Request::ProtectedIdentifier(identifier) => pid_answer(identifier),
            Request::FrameIdentifier(protected) => id_answer(protected),
            Request::Checksum(identifier, model, data) => checksum_answer(identifier, model, &data),
            Request::Room(length) => Ok(self.set_room(length)),
            Request::Take(frame) => self
                .reassembler
                .take(&mut self.room, &frame)
                .map(answers::taken),
            Request::Set(setting) => Ok(self.set(setting)),
            Request::Show(show) => Ok(self.show(show)),
        }
    }

    /// Shows a part of the bench.
    fn show(&self, show: Show) -> String {
        let master = &self.master;
        match show {
            Show::Pending => with_numbers("pending", &master.pending()),
            Show::Frames => with_bytes("frames", &master.buffer),
            Show::Out => with_bytes("out", &master.out()),
            Show::State => answers::state(&master.state),
            Show::Received => with_numbers("received", &master.received()),
            Show::Taken => with_bytes("taken", &self.room),
            Show::Assembly => answers::assembly(self.reassembler.open),
        }
    }

    /// Makes these words the table and the state fresh, also where the check finds a fault.
    fn set_table(&mut self, words: &[u16]) -> Result<String, Refusal> {
        let frames = words.first().map_or(0, |&count| usize::from(count));
        let frames = if frames > FRAMES_MAX { 0 } else { frames };
        self.master.table = Table::read(words);
        self.master.buffer = vec![0; FRAME_BYTES * frames];
        self.master.state = State::fresh();
        match &self.master.table {
            Ok(_) => Ok(text("accepted")),
            Err(refusal) => Err(*refusal),
        }
    }

    /// Judges the table that is there; neither the state nor the frame bytes matter.
    fn judge(&self, tick: u32, bit: u32) -> Result<String, Refusal> {
        let table = self.master.checked_table()?;
        timing::judge(table, tick, bit).map(answers::judged)
    }

    /// Sets a part of the state or the reassembler's state, whether it fits or not.
    fn set(&mut self, setting: Setting) -> String {
        match setting {
            Setting::Master(part) => part.put(&mut self.master.state),
            Setting::Assembly(open) => self.reassembler.open = open,
        }
        text("set")
    }

    /// Makes the frame bytes this many zeros.
    fn set_buffer(&mut self, length: usize) -> String {
        self.master.buffer = vec![0; length];
        format!("buffer {length}")
    }

    /// Makes these bytes the message that later ticks are lent.
    fn set_lent(&mut self, message: Vec<u8>) -> String {
        self.lent = message;
        format!("lent {}", self.lent.len())
    }

    /// Starts the reassembler anew with a buffer of this many zeros.
    fn set_room(&mut self, length: usize) -> String {
        self.reassembler = Reassembler::fresh();
        self.room = vec![0; length];
        format!("room {length}")
    }
}

/// Gives the answer to a write or a row.
fn written(result: Result<(), Refusal>) -> Result<String, Refusal> {
    result.map(|()| text("written"))
}

/// Builds a protected identifier.
fn pid_answer(identifier: u8) -> Result<String, Refusal> {
    wire::protected_identifier(identifier).map(|byte| format!("pid {byte:02X}"))
}

/// Reads a protected identifier.
fn id_answer(protected: u8) -> Result<String, Refusal> {
    wire::frame_identifier(protected).map(|identifier| format!("id {identifier}"))
}

/// Gives the checksum for an identifier.
fn checksum_answer(identifier: u8, model: ChecksumModel, data: &[u8]) -> Result<String, Refusal> {
    wire::checksum(identifier, model, data).map(|byte| format!("checksum {byte:02X}"))
}

#[cfg(test)]
#[path = "bench_tests.rs"]
pub mod tests;

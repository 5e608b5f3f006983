//! A script under construction, with the second program's answers to the lines so far.

use crate::bench::Bench;
use crate::random::Random;
use crate::table::{Frame, Table};
use crate::transfer::Open;

/// The state is shown after one of so many lines.
const STATE_SHOWN: usize = 12;

/// The receptions are shown after one of so many lines.
const RECEPTIONS_SHOWN: usize = 40;

/// A script and the bench it leads to, by which its further lines are steered.
pub struct Script {
    pub bench: Bench,
    pub random: Random,
    pub lines: Vec<Vec<u8>>,
    /// The answers, each with the number of its line.
    pub answers: Vec<(usize, String)>,
    /// The last table line that was accepted.
    pub table_line: Vec<u8>,
    /// How many of a hundred transfers are to be successful.
    pub success: usize,
}

impl Script {
    /// A script with no lines.
    pub fn new(random: Random) -> Script {
        Script {
            bench: Bench::new(),
            random,
            lines: Vec::new(),
            answers: Vec::new(),
            table_line: Vec::new(),
            success: 60,
        }
    }

    /// Adds a line and gives its answer, empty where it has none; shows the state now and then.
    pub fn say(&mut self, line: impl Into<Vec<u8>>) -> String {
        let line = line.into();
        let answer = self.add(line.clone());
        if answer == "accepted" {
            self.table_line = line;
        }
        if self.random.once_in(STATE_SHOWN) {
            self.add(b"state".to_vec());
        }
        if self.random.once_in(RECEPTIONS_SHOWN) {
            self.add(b"received".to_vec());
        }
        answer
    }

    /// Adds a line and gives its answer, empty where it has none.
    fn add(&mut self, line: Vec<u8>) -> String {
        let answer = self.bench.answer(&line);
        self.lines.push(line);
        if let Some(text) = &answer {
            self.answers.push((self.lines.len(), text.clone()));
        }
        answer.unwrap_or_default()
    }

    /// Adds a word with bytes behind it.
    pub fn say_bytes(&mut self, word: &str, bytes: &[u8]) -> String {
        self.say(with_bytes(word, bytes))
    }

    /// The table, if it is right.
    pub fn table(&self) -> Option<&Table> {
        self.bench.master.table.as_ref().ok()
    }

    /// The number of frames, 0 where the table is wrong.
    pub fn frame_count(&self) -> usize {
        self.table().map_or(0, |table| table.frames.len())
    }

    /// The number of signals, 0 where the table is wrong.
    pub fn signal_count(&self) -> usize {
        self.table().map_or(0, |table| table.signals.len())
    }

    /// The number of schedules, 0 where the table is wrong.
    pub fn schedule_count(&self) -> usize {
        self.table().map_or(0, Table::schedule_count)
    }

    /// What is open.
    pub fn open(&self) -> Open {
        self.bench.master.state.transfer.open
    }

    /// The open frame, if the table has it or it is a diagnostic one.
    pub fn open_frame(&self) -> Option<Frame> {
        self.open().frame(self.table()?)
    }
}

/// A word with bytes behind it as hexadecimal pairs.
pub fn with_bytes(word: &str, bytes: &[u8]) -> String {
    let mut line = word.to_string();
    for byte in bytes {
        line.push_str(&format!(" {byte:02X}"));
    }
    line
}

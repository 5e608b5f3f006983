//! The records of a cluster table that the check accepts, by "The cluster table" of document 01 and
//! Req 03 of document 02.

use crate::cluster::{self, ENTRIES, FRAMES, MEMBERS, PLACEMENTS, SIGNALS};
use crate::refusal::Refusal;
use crate::signals;
use crate::wire::ChecksumModel;
use std::ops::Range;

/// The bytes of the frame buffer that belong to one frame.
pub const FRAME_BYTES: usize = 8;

/// One frame.
#[derive(Debug, Clone, PartialEq, Eq)]
pub struct Frame {
    pub identifier: u8,
    /// The number of data bytes.
    pub length: usize,
    /// The master publishes it; otherwise the master receives it.
    pub published: bool,
    pub model: ChecksumModel,
}

/// The kind of a signal.
#[derive(Debug, Clone, Copy, PartialEq, Eq)]
pub enum SignalKind {
    Scalar,
    Array,
}

/// One signal.
#[derive(Debug, Clone, PartialEq, Eq)]
pub struct Signal {
    pub kind: SignalKind,
    /// Its number of data bits.
    pub width: usize,
    /// The value of a scalar, or of each byte of an array, after fresh and before any reception.
    pub start: u16,
}

impl Signal {
    /// Gives the bytes of an array at the start.
    pub fn start_bytes(&self) -> Vec<u8> {
        vec![self.start as u8; self.width / 8]
    }
}

/// One place of a signal.
#[derive(Debug, Clone, Copy, PartialEq, Eq)]
pub struct Placement {
    /// The number of its signal.
    pub signal: usize,
    /// The number of its frame.
    pub frame: usize,
    /// Its first data bit in the frame.
    pub offset: usize,
}

impl Placement {
    /// Gives where the bytes of its frame stand in the frame buffer.
    pub fn frame_bytes(&self) -> Range<usize> {
        FRAME_BYTES * self.frame..FRAME_BYTES * (self.frame + 1)
    }
}

/// What a slot opens.
#[derive(Debug, Clone, Copy, PartialEq, Eq)]
pub enum Slot {
    /// This frame.
    Frame(usize),
    /// The first pending member of this list.
    List(usize),
    /// The master request frame.
    Request,
    /// The slave response frame.
    Response,
}

/// One entry of a schedule.
#[derive(Debug, Clone, PartialEq, Eq)]
pub struct Entry {
    /// The number of its schedule.
    pub schedule: usize,
    pub slot: Slot,
    /// The ticks until the next slot.
    pub delay: u16,
}

/// An accepted cluster table.
#[derive(Debug, Clone, PartialEq, Eq)]
pub struct Table {
    pub frames: Vec<Frame>,
    pub signals: Vec<Signal>,
    /// The places of all signals, by ascending signal numbers; each signal has one at least.
    pub placements: Vec<Placement>,
    /// The frame numbers of each list's members, in priority order.
    pub lists: Vec<Vec<usize>>,
    /// The entries of all schedules, in the table's order.
    pub entries: Vec<Entry>,
}

impl Table {
    /// Checks the words and reads the records of a right table.
    pub fn read(words: &[u16]) -> Result<Table, Refusal> {
        if let Some(position) = cluster::first_fault(words) {
            return Err(Refusal::TableFault(position));
        }
        let (frames, _) = cluster::records::<3>(words, FRAMES);
        let (signals, _) = cluster::records::<3>(words, SIGNALS);
        let (placements, _) = cluster::records::<3>(words, PLACEMENTS);
        let (members, _) = cluster::records::<2>(words, MEMBERS);
        let (entries, _) = cluster::records::<4>(words, ENTRIES);
        let members = members.iter().map(|&[list, frame]| (list, frame.into()));
        Ok(Table {
            frames: frames.iter().map(read_frame).collect(),
            signals: signals.iter().map(read_signal).collect(),
            placements: placements.iter().map(read_placement).collect(),
            lists: grouped(members),
            entries: entries.iter().map(read_entry).collect(),
        })
    }

    /// Gives the number of schedules.
    pub fn schedule_count(&self) -> usize {
        self.entries.last().map_or(0, |entry| entry.schedule + 1)
    }

    /// Gives the number of a schedule's first entry, if there is such a schedule.
    pub fn first_entry(&self, schedule: usize) -> Option<usize> {
        let mut entries = self.entries.iter();
        entries.position(|entry| entry.schedule == schedule)
    }

    /// Gives the number of the entry that follows an entry in its schedule, cyclically.
    pub fn next_entry(&self, entry: usize) -> Option<usize> {
        let schedule = self.entries.get(entry)?.schedule;
        match self.entries.get(entry + 1) {
            Some(next) if next.schedule == schedule => Some(entry + 1),
            _ => self.first_entry(schedule),
        }
    }

    /// Gives the number of bytes of the frame buffer.
    pub fn buffer_length(&self) -> usize {
        FRAME_BYTES * self.frames.len()
    }

    /// Gives the placements of a signal, in the table's order.
    pub fn placements_of(&self, signal: usize) -> impl Iterator<Item = &Placement> {
        let placements = self.placements.iter();
        placements.filter(move |placement| placement.signal == signal)
    }

    /// Tells whether the master publishes the frame of a placement.
    pub fn is_published(&self, placement: &Placement) -> bool {
        self.frames[placement.frame].published
    }

    /// Tells whether the master publishes a signal: all its frames are published, or none is.
    pub fn publishes(&self, signal: usize) -> bool {
        let mut placements = self.placements_of(signal);
        placements.any(|placement| self.is_published(placement))
    }

    /// Gives the frame bytes that a fresh call leaves.
    pub fn fresh_buffer(&self) -> Vec<u8> {
        let mut buffer = vec![255; self.buffer_length()];
        for placement in &self.placements {
            let signal = &self.signals[placement.signal];
            let data = &mut buffer[placement.frame_bytes()];
            match signal.kind {
                SignalKind::Scalar => {
                    signals::put_scalar(data, placement.offset, signal.width, signal.start);
                }
                SignalKind::Array => {
                    signals::put_array(data, placement.offset, &signal.start_bytes());
                }
            }
        }
        buffer
    }
}

/// Reads a frame record.
fn read_frame(&[identifier, length, flags]: &[u16; 3]) -> Frame {
    Frame {
        identifier: identifier as u8,
        length: length.into(),
        published: flags & 1 != 0,
        model: if flags & 2 != 0 {
            ChecksumModel::Classic
        } else {
            ChecksumModel::Enhanced
        },
    }
}

/// Reads a signal record.
fn read_signal(&[kind, width, start]: &[u16; 3]) -> Signal {
    Signal {
        kind: if kind == 0 {
            SignalKind::Scalar
        } else {
            SignalKind::Array
        },
        width: width.into(),
        start,
    }
}

/// Reads a placement record.
fn read_placement(&[signal, frame, offset]: &[u16; 3]) -> Placement {
    Placement {
        signal: signal.into(),
        frame: frame.into(),
        offset: offset.into(),
    }
}

/// Reads an entry record.
fn read_entry(&[schedule, kind, target, delay]: &[u16; 4]) -> Entry {
    let slot = match kind {
        0 => Slot::Frame(target.into()),
        1 => Slot::List(target.into()),
        2 => Slot::Request,
        _ => Slot::Response,
    };
    Entry {
        schedule: schedule.into(),
        slot,
        delay,
    }
}

/// Groups items by their number, which is first 0, then that of the item before or one more.
fn grouped<T>(items: impl Iterator<Item = (u16, T)>) -> Vec<Vec<T>> {
    let mut groups: Vec<Vec<T>> = Vec::new();
    for (number, item) in items {
        if groups.len() == usize::from(number) {
            groups.push(Vec::new());
        }
        groups[usize::from(number)].push(item);
    }
    groups
}

#[cfg(test)]
mod tests {
    use super::*;
    use crate::table_words::{placed, unplaced, worked};

    #[test]
    fn a_fault_is_refused_with_its_position() {
        assert_eq!(Table::read(&[]), Err(Refusal::TableFault(0)));
        assert_eq!(
            Table::read(&[0, 0, 0, 0, 0, 9]),
            Err(Refusal::TableFault(5))
        );
    }

    #[test]
    fn frames_signals_and_placements() {
        let frames = [[7, 8, 1], [9, 2, 2]];
        let signals = [[0, 12, 4095], [1, 48, 9]];
        let words = placed(&frames, &signals, &[[0, 1, 3], [1, 0, 16]]);
        let table = Table::read(&words).unwrap();
        assert_eq!(table.buffer_length(), 16);
        assert_eq!(table.frames[0].identifier, 7);
        assert_eq!(table.frames[0].length, 8);
        let published: Vec<bool> = table.frames.iter().map(|frame| frame.published).collect();
        assert_eq!(published, [true, false]);
        assert_eq!(table.frames[0].model, ChecksumModel::Enhanced);
        assert_eq!(table.frames[1].model, ChecksumModel::Classic);
        let scalar = Signal {
            kind: SignalKind::Scalar,
            width: 12,
            start: 4095,
        };
        assert_eq!(table.signals[0], scalar);
        assert_eq!(table.signals[1].kind, SignalKind::Array);
        assert_eq!(table.signals[1].start_bytes(), [9; 6]);
        let placement = Placement {
            signal: 0,
            frame: 1,
            offset: 3,
        };
        assert_eq!(table.placements[0], placement);
        assert_eq!(table.placements[0].frame_bytes(), 8..16);
        assert!(!table.publishes(0) && table.publishes(1));
    }

    #[test]
    fn placements_of_a_signal() {
        let table = Table::read(&worked().words()).unwrap();
        let places = |signal| -> Vec<(usize, usize)> {
            let placements = table.placements_of(signal);
            placements
                .map(|place| (place.frame, place.offset))
                .collect()
        };
        assert_eq!(places(0), [(0, 0), (1, 4)]);
        assert_eq!(places(1), [(1, 8)]);
        assert_eq!(places(2), []);
    }

    #[test]
    fn lists_and_schedules() {
        let words = unplaced(
            &[[1, 1, 1], [2, 1, 3], [3, 1, 1]],
            &[[0, 2], [0, 0], [1, 1]],
            &[
                [0, 0, 1, 5],
                [0, 1, 1, 6],
                [1, 2, 0, 7],
                [2, 3, 0, 65_535],
                [2, 1, 0, 1],
            ],
        );
        let table = Table::read(&words).unwrap();
        assert_eq!(table.lists, [vec![2, 0], vec![1]]);
        let entries: Vec<(usize, Slot, u16)> = table
            .entries
            .iter()
            .map(|entry| (entry.schedule, entry.slot, entry.delay))
            .collect();
        let expected = [
            (0, Slot::Frame(1), 5),
            (0, Slot::List(1), 6),
            (1, Slot::Request, 7),
            (2, Slot::Response, 65_535),
            (2, Slot::List(0), 1),
        ];
        assert_eq!(entries, expected);
        assert_eq!(table.schedule_count(), 3);
        let firsts: Vec<Option<usize>> = (0..4).map(|n| table.first_entry(n)).collect();
        assert_eq!(firsts, [Some(0), Some(2), Some(3), None]);
        let followers: Vec<Option<usize>> = (0..6).map(|n| table.next_entry(n)).collect();
        assert_eq!(
            followers,
            [Some(1), Some(0), Some(2), Some(4), Some(3), None]
        );
    }

    #[test]
    fn fresh_bytes() {
        let frames = [[7, 8, 1], [9, 2, 2]];
        let signals = [[0, 12, 0], [1, 32, 9], [0, 1, 0]];
        let words = placed(&frames, &signals, &[[0, 1, 3], [1, 0, 16], [2, 0, 63]]);
        let table = Table::read(&words).unwrap();
        let mut expected = vec![255, 255, 9, 9, 9, 9, 255, 127];
        expected.extend([0b0000_0111, 0b1000_0000, 255, 255, 255, 255, 255, 255]);
        assert_eq!(table.fresh_buffer(), expected);
        assert_eq!(Table::read(&[0; 5]).unwrap().fresh_buffer(), []);
    }

    #[test]
    fn fresh_bytes_of_the_worked_table() {
        let table = Table::read(&worked().words()).unwrap();
        let mut expected = vec![0xF5, 255, 255, 255, 255, 255, 255, 255];
        expected.extend([0x5F, 0x00, 255, 255, 255, 255, 255, 255]);
        assert_eq!(table.fresh_buffer(), expected);
    }
}

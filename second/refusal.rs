//! Refusals, by "Refusal numbers" of document 01 and Req 01 and 02 of document 02.

use std::fmt;

/// Why a call is refused; a refused call changes nothing.
#[derive(Debug, Clone, Copy, PartialEq, Eq)]
pub enum Refusal {
    /// The table check finds a fault, at this position.
    TableFault(usize),
    /// The frame buffer isn't 8F bytes, or a message buffer is shorter than its open message.
    BufferLength,
    /// The state doesn't fit the table or the lent message, or is no reassembler's.
    StateMisfit,
    /// No such signal, schedule, or frame in a list.
    NotThere,
    /// Write to a signal the master doesn't publish.
    NotPublished,
    /// Scalar call on an array or the reverse.
    OtherKind,
    /// Value of 2^width or more, or array of another length.
    ValueOutOfRange,
    /// Byte in with no transfer open.
    NoTransferOpen,
    /// Message length 0 or above 4,095.
    MessageLength,
    /// Send while a message is being sent.
    MessageBeingSent,
    /// Identifier above 63, wrong parity, or a wrong number of bytes.
    BytesRefused,
    /// Rows of unequal length.
    UnequalRows,
    /// A pair of a row is refused with this number, at this place from 0.
    BadPair { number: u8, place: usize },
    /// A tick length or bit time of 0 or above 65,535.
    TimeOutOfRange,
}

impl Refusal {
    /// Gives the number of the refusal in the paper's table.
    pub fn number(self) -> u8 {
        match self {
            Refusal::TableFault(_) => 1,
            Refusal::BufferLength => 2,
            Refusal::StateMisfit => 3,
            Refusal::NotThere => 4,
            Refusal::NotPublished => 5,
            Refusal::OtherKind => 6,
            Refusal::ValueOutOfRange => 7,
            Refusal::NoTransferOpen => 8,
            Refusal::MessageLength => 9,
            Refusal::MessageBeingSent => 10,
            Refusal::BytesRefused => 11,
            Refusal::UnequalRows => 12,
            Refusal::BadPair { number, .. } => number,
            Refusal::TimeOutOfRange => 13,
        }
    }

    /// Gives the refusal of a row whose pair at this place is refused so.
    pub fn of_pair(self, place: usize) -> Refusal {
        let number = self.number();
        Refusal::BadPair { number, place }
    }
}

/// Writes the answer line of the bench script: the number, and the position or place if it has one.
impl fmt::Display for Refusal {
    fn fmt(&self, out: &mut fmt::Formatter) -> fmt::Result {
        match self {
            Refusal::TableFault(place) | Refusal::BadPair { place, .. } => {
                write!(out, "refused {} {place}", self.number())
            }
            _ => write!(out, "refused {}", self.number()),
        }
    }
}

#[cfg(test)]
mod tests {
    use super::*;

    #[test]
    fn numbers_and_texts() {
        let all = [
            (Refusal::TableFault(17), "refused 1 17"),
            (Refusal::BufferLength, "refused 2"),
            (Refusal::StateMisfit, "refused 3"),
            (Refusal::NotThere, "refused 4"),
            (Refusal::NotPublished, "refused 5"),
            (Refusal::OtherKind, "refused 6"),
            (Refusal::ValueOutOfRange, "refused 7"),
            (Refusal::NoTransferOpen, "refused 8"),
            (Refusal::MessageLength, "refused 9"),
            (Refusal::MessageBeingSent, "refused 10"),
            (Refusal::BytesRefused, "refused 11"),
            (Refusal::UnequalRows, "refused 12"),
            (Refusal::NotThere.of_pair(0), "refused 4 0"),
            (Refusal::NotPublished.of_pair(1), "refused 5 1"),
            (Refusal::OtherKind.of_pair(255), "refused 6 255"),
            (Refusal::ValueOutOfRange.of_pair(256), "refused 7 256"),
            (Refusal::TimeOutOfRange, "refused 13"),
        ];
        for (refusal, text) in all {
            assert_eq!(refusal.to_string(), text);
        }
    }
}

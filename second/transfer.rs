//! The open transfer and the status, by "Calls and steps" of document 01.

use crate::table::{Frame, Table};
use crate::wire::{self, ChecksumModel};

/// The most bytes of a response: eight data bytes and the checksum.
pub const RESPONSE_BYTES: usize = 9;

/// The master request frame.
pub const REQUEST_FRAME: Frame = Frame {
    identifier: 60,
    length: 8,
    published: true,
    model: ChecksumModel::Classic,
};

/// The slave response frame.
const RESPONSE_FRAME: Frame = Frame {
    identifier: 61,
    length: 8,
    published: false,
    model: ChecksumModel::Classic,
};

/// What is open.
#[derive(Debug, Clone, Copy, PartialEq, Eq)]
pub enum Open {
    Nothing,
    /// The frame with this number.
    Frame(usize),
    /// The master request frame.
    Request,
    /// The slave response frame.
    Response,
}

impl Open {
    /// Gives the frame that is open, if there is one in the table or it is a diagnostic one.
    pub fn frame(self, table: &Table) -> Option<Frame> {
        match self {
            Open::Nothing => None,
            Open::Frame(number) => table.frames.get(number).cloned(),
            Open::Request => Some(REQUEST_FRAME),
            Open::Response => Some(RESPONSE_FRAME),
        }
    }
}

/// How a transfer stands after a byte.
#[derive(Debug, Clone, Copy, PartialEq, Eq)]
pub enum Verdict {
    More,
    Success,
    Failure,
}

/// The record of the open transfer; what closing leaves is that of a fresh state.
#[derive(Debug, Clone, PartialEq, Eq)]
pub struct Transfer {
    pub open: Open,
    /// The number of response bytes that have passed.
    pub count: usize,
    /// The data and checksum that the master sends, or the bytes that have come in.
    pub bytes: [u8; RESPONSE_BYTES],
    /// The frame was written since it was opened.
    pub written: bool,
}

impl Transfer {
    /// Gives the record of a fresh state: nothing open, the unused bytes 255.
    pub fn none() -> Transfer {
        Transfer {
            open: Open::Nothing,
            count: 0,
            bytes: [255; RESPONSE_BYTES],
            written: false,
        }
    }

    /// Opens a transfer in which a slave sends.
    pub fn receiving(open: Open) -> Transfer {
        Transfer {
            open,
            ..Transfer::none()
        }
    }

    /// Opens a transfer in which the master sends these data of a frame, copied now.
    pub fn sending(open: Open, frame: &Frame, data: &[u8]) -> Transfer {
        let mut transfer = Transfer::receiving(open);
        transfer.bytes[..data.len()].copy_from_slice(data);
        transfer.bytes[data.len()] = checksum(frame, data);
        transfer
    }

    /// Takes a response byte of the open frame and tells how the transfer stands.
    pub fn take(&mut self, frame: &Frame, byte: u8) -> Verdict {
        let complete = self.count == frame.length;
        let right = if frame.published {
            byte == self.bytes[self.count]
        } else {
            !complete || byte == checksum(frame, &self.bytes[..frame.length])
        };
        self.bytes[self.count] = byte;
        self.count += 1;
        match (right, complete) {
            (false, _) => Verdict::Failure,
            (true, false) => Verdict::More,
            (true, true) => Verdict::Success,
        }
    }
}

/// Gives the checksum of a frame of the table or of a diagnostic frame.
pub fn checksum(frame: &Frame, data: &[u8]) -> u8 {
    wire::checksum(frame.identifier, frame.model, data)
        .expect("a right identifier and 1 to 8 data bytes")
}

/// Gives the protected identifier of a frame of the table or of a diagnostic frame.
pub fn protected_identifier(frame: &Frame) -> u8 {
    wire::protected_identifier(frame.identifier).expect("an identifier of at most 63")
}

/// What the status reading tells of the transfers counted since the last reading.
#[derive(Debug, Clone, Copy, Default, PartialEq, Eq)]
pub struct Status {
    pub error_in_response: bool,
    pub successful_transfer: bool,
    pub overrun: bool,
    /// The protected identifier of the last transfer counted.
    pub last: u8,
}

impl Status {
    /// Counts a closed transfer with at least one response byte.
    ///
    /// One was counted before where one of the first two bits is set.
    pub fn count(&mut self, frame: &Frame, successful: bool) {
        self.overrun |= self.error_in_response || self.successful_transfer;
        if successful {
            self.successful_transfer = true;
        } else {
            self.error_in_response = true;
        }
        self.last = protected_identifier(frame);
    }

    /// Gives the status word.
    pub fn word(&self) -> u16 {
        u16::from(self.error_in_response)
            | u16::from(self.successful_transfer) << 1
            | u16::from(self.overrun) << 2
            | u16::from(self.last) << 8
    }
}

#[cfg(test)]
mod tests {
    use super::ChecksumModel::{Classic, Enhanced};
    use super::Verdict::{Failure, More, Success};
    use super::*;

    /// A frame with identifier 2.
    fn frame(length: usize, published: bool, model: ChecksumModel) -> Frame {
        Frame {
            identifier: 2,
            length,
            published,
            model,
        }
    }

    /// Takes bytes one by one and gives what each one answers.
    fn verdicts(mut transfer: Transfer, frame: &Frame, bytes: &[u8]) -> Vec<Verdict> {
        let answers = bytes.iter().map(|&byte| transfer.take(frame, byte));
        answers.collect()
    }

    #[test]
    fn sent_bytes_must_come_back() {
        let frame = frame(2, true, Enhanced);
        let transfer = Transfer::sending(Open::Frame(0), &frame, &[0x00, 0x01]);
        let expected = [0x00, 0x01, 0xBC, 255, 255, 255, 255, 255, 255];
        assert_eq!(transfer.bytes, expected);
        let verdicts = |bytes| verdicts(transfer.clone(), &frame, bytes);
        assert_eq!(verdicts(&[0x00, 0x01, 0xBC]), [More, More, Success]);
        assert_eq!(verdicts(&[0x01]), [Failure]);
        assert_eq!(verdicts(&[0x00, 0x00]), [More, Failure]);
        assert_eq!(verdicts(&[0x00, 0x01, 0xBD]), [More, More, Failure]);
    }

    #[test]
    fn received_bytes_are_judged_at_the_end() {
        let verdicts = |model, bytes| {
            let transfer = Transfer::receiving(Open::Frame(0));
            verdicts(transfer, &frame(1, false, model), bytes)
        };
        assert_eq!(verdicts(Enhanced, &[0x00, 0xBD]), [More, Success]);
        assert_eq!(verdicts(Enhanced, &[0x00, 0xFF]), [More, Failure]);
        assert_eq!(verdicts(Classic, &[0x00, 0xFF]), [More, Success]);
        assert_eq!(verdicts(Classic, &[0x00, 0xBD]), [More, Failure]);
        assert_eq!(verdicts(Classic, &[0xFF, 0xFF]), [More, Failure]);
        assert_eq!(verdicts(Classic, &[0xFF, 0x00]), [More, Success]);
    }

    #[test]
    fn received_bytes_stand_behind_those_before_them() {
        let mut transfer = Transfer::receiving(Open::Response);
        transfer.take(&RESPONSE_FRAME, 0x01);
        transfer.take(&RESPONSE_FRAME, 0x02);
        assert_eq!(transfer.count, 2);
        assert_eq!(transfer.bytes, [1, 2, 255, 255, 255, 255, 255, 255, 255]);
    }

    #[test]
    fn status_words() {
        let mut status = Status::default();
        assert_eq!(status.word(), 0);
        status.count(&frame(1, false, Enhanced), false);
        assert_eq!(status.word(), 0x4201);
        status.count(&RESPONSE_FRAME, true);
        assert_eq!(status.word(), 0x7D07);
        let mut status = Status::default();
        status.count(&REQUEST_FRAME, true);
        assert_eq!(status.word(), 0x3C02);
        status.count(&RESPONSE_FRAME, true);
        assert_eq!(status.word(), 0x7D06);
    }
}

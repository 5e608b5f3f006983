//! The reassembler of diagnostic messages, by "Diagnostic messages" of document 01.

use crate::diagnostic::{
    DIAGNOSTIC_LENGTH, FIRST_BYTES, MESSAGE_LENGTH_MAX, NEXT_BYTES, SINGLE_MAX,
};
use crate::refusal::Refusal;

/// The answer to a frame.
#[derive(Debug, Clone, Copy, PartialEq, Eq)]
pub enum Taken {
    Ignored,
    Started,
    More,
    /// The message is complete and has this length.
    Done(usize),
    Broken,
}

/// A message of which the first frame has come and the last one has not.
#[derive(Debug, Clone, Copy, PartialEq, Eq)]
pub struct OpenMessage {
    pub nad: u8,
    pub length: usize,
    /// The number of bytes delivered so far.
    pub count: usize,
    /// The counter that the next frame must have.
    pub counter: u8,
}

impl OpenMessage {
    /// Tells whether frames lead here, by refusal 3 of document 01.
    fn fits(&self) -> bool {
        self.nad != 0
            && (SINGLE_MAX + 1..=MESSAGE_LENGTH_MAX).contains(&self.length)
            && self.count < self.length
            && self.counter_due() == Some(self.counter)
    }

    /// Gives the counter due behind 5 + 6k bytes, and nothing behind another number of them.
    fn counter_due(&self) -> Option<u8> {
        let behind_first = self.count.checked_sub(FIRST_BYTES)?;
        let next_frames = behind_first / NEXT_BYTES;
        (behind_first % NEXT_BYTES == 0).then_some(((next_frames + 1) % 16) as u8)
    }
}

/// The state of the reassembler.
#[derive(Debug, Clone, PartialEq, Eq)]
pub struct Reassembler {
    pub open: Option<OpenMessage>,
}

impl Reassembler {
    /// Gives a reassembler with no message open.
    pub fn fresh() -> Reassembler {
        Reassembler { open: None }
    }

    /// Takes a frame and puts the bytes that it delivers into the buffer.
    pub fn take(&mut self, buffer: &mut [u8], frame: &[u8]) -> Result<Taken, Refusal> {
        if self.open.is_some_and(|open| !open.fits()) {
            return Err(Refusal::StateMisfit);
        }
        if frame.len() != DIAGNOSTIC_LENGTH {
            return Err(Refusal::BytesRefused);
        }
        let nad = frame[0];
        let of_another = self.open.is_some_and(|open| open.nad != nad);
        if nad == 0 || of_another {
            return Ok(Taken::Ignored);
        }
        match frame[1] {
            pci @ 1..=6 => Ok(self.take_single(buffer, frame, pci.into())),
            pci @ 16..=31 => {
                let length = usize::from(pci - 16) * 256 + usize::from(frame[2]);
                Ok(self.take_first(buffer, frame, length))
            }
            pci @ 32..=47 => self.take_next(buffer, frame, pci - 32),
            _ => Ok(Taken::Ignored),
        }
    }

    /// Takes a single frame: a whole message of this length.
    fn take_single(&mut self, buffer: &mut [u8], frame: &[u8], length: usize) -> Taken {
        if length > buffer.len() {
            return Taken::Ignored;
        }
        buffer[..length].copy_from_slice(&frame[2..2 + length]);
        self.open = None;
        Taken::Done(length)
    }

    /// Takes a first frame: a message of this length begins.
    fn take_first(&mut self, buffer: &mut [u8], frame: &[u8], length: usize) -> Taken {
        if length <= SINGLE_MAX || length > buffer.len() {
            return Taken::Ignored;
        }
        buffer[..FIRST_BYTES].copy_from_slice(&frame[3..3 + FIRST_BYTES]);
        self.open = Some(OpenMessage {
            nad: frame[0],
            length,
            count: FIRST_BYTES,
            counter: 1,
        });
        Taken::Started
    }

    /// Takes a next frame with this counter; it is one of the open message if there is one.
    fn take_next(
        &mut self,
        buffer: &mut [u8],
        frame: &[u8],
        counter: u8,
    ) -> Result<Taken, Refusal> {
        let Some(open) = &mut self.open else {
            return Ok(Taken::Ignored);
        };
        if counter != open.counter {
            self.open = None;
            return Ok(Taken::Broken);
        }
        if buffer.len() < open.length {
            return Err(Refusal::BufferLength);
        }
        let delivered = NEXT_BYTES.min(open.length - open.count);
        let end = open.count + delivered;
        buffer[open.count..end].copy_from_slice(&frame[2..2 + delivered]);
        if end == open.length {
            self.open = None;
            return Ok(Taken::Done(end));
        }
        open.count = end;
        open.counter = (open.counter + 1) % 16;
        Ok(Taken::More)
    }
}

#[cfg(test)]
mod tests {
    use super::Taken::{Broken, Done, Ignored, More, Started};
    use super::*;
    use crate::diagnostic::{frame_count, request_frame};

    /// A reassembler and its buffer.
    struct Receiver {
        state: Reassembler,
        buffer: Vec<u8>,
    }

    impl Receiver {
        /// A fresh one with this room.
        fn new(room: usize) -> Receiver {
            Receiver {
                state: Reassembler::fresh(),
                buffer: vec![0; room],
            }
        }

        /// Takes a frame that is not refused.
        fn take(&mut self, frame: [u8; 8]) -> Taken {
            self.state.take(&mut self.buffer, &frame).unwrap()
        }

        /// Tests that a frame is ignored and changes nothing.
        fn expect_ignored(&mut self, frame: [u8; 8]) {
            let before = (self.state.clone(), self.buffer.clone());
            assert_eq!(self.take(frame), Ignored, "frame {frame:?}");
            assert_eq!((self.state.clone(), self.buffer.clone()), before);
        }
    }

    #[test]
    fn what_was_cut_is_put_together() {
        for length in (1..=130).chain([4_094, 4_095]) {
            let message: Vec<u8> = (0..length).map(|n| (n % 253) as u8).collect();
            let mut receiver = Receiver::new(length + 3);
            let last = frame_count(length) - 1;
            for number in 0..=last {
                let frame = request_frame(7, &message, number).try_into().unwrap();
                let expected = match number {
                    _ if number == last => Done(length),
                    0 => Started,
                    _ => More,
                };
                assert_eq!(receiver.take(frame), expected);
            }
            assert_eq!(receiver.buffer[..length], message);
            assert_eq!(receiver.buffer[length..], [0, 0, 0]);
            assert_eq!(receiver.state, Reassembler::fresh());
        }
    }

    #[test]
    fn ignored_in_any_state() {
        let mut receiver = Receiver::new(100);
        for _ in 0..2 {
            receiver.expect_ignored([0, 1, 1, 2, 3, 4, 5, 6]);
            receiver.expect_ignored([0, 0x10, 9, 2, 3, 4, 5, 6]);
            for pci in [0].into_iter().chain(7..=15).chain(48..=255) {
                receiver.expect_ignored([5, pci, 7, 2, 3, 4, 5, 6]);
            }
            receiver.expect_ignored([5, 0x10, 6, 1, 2, 3, 4, 5]);
            receiver.expect_ignored([5, 0x10, 101, 1, 2, 3, 4, 5]);
            receiver.expect_ignored([5, 0x1F, 255, 1, 2, 3, 4, 5]);
            receiver.take([5, 0x10, 20, 1, 2, 3, 4, 5]);
        }
        for pci in [1, 0x10, 0x20, 0x21] {
            receiver.expect_ignored([6, pci, 7, 1, 2, 3, 4, 5]);
        }
    }

    #[test]
    fn next_frames_with_none_open_are_ignored() {
        let mut receiver = Receiver::new(100);
        for pci in 32..=47 {
            receiver.expect_ignored([5, pci, 1, 2, 3, 4, 5, 6]);
        }
    }

    #[test]
    fn rooms() {
        for length in 1..=6 {
            let mut receiver = Receiver::new(usize::from(length) - 1);
            receiver.expect_ignored([5, length, 1, 2, 3, 4, 5, 6]);
            let mut receiver = Receiver::new(length.into());
            assert_eq!(
                receiver.take([5, length, 1, 2, 3, 4, 5, 6]),
                Done(length.into())
            );
        }
        Receiver::new(6).expect_ignored([5, 0x10, 7, 1, 2, 3, 4, 5]);
        assert_eq!(Receiver::new(7).take([5, 0x10, 7, 1, 2, 3, 4, 5]), Started);
        Receiver::new(4_094).expect_ignored([5, 0x1F, 255, 1, 2, 3, 4, 5]);
        assert_eq!(
            Receiver::new(4_095).take([5, 0x1F, 255, 1, 2, 3, 4, 5]),
            Started
        );
    }

    #[test]
    fn wrong_counters_break() {
        for counter in 0..16 {
            let mut receiver = Receiver::new(40);
            receiver.take([5, 0x10, 40, 1, 2, 3, 4, 5]);
            let expected = if counter == 1 { More } else { Broken };
            assert_eq!(receiver.take([5, 32 + counter, 1, 2, 3, 4, 5, 6]), expected);
            assert_eq!(receiver.state.open.is_some(), counter == 1);
        }
        let mut receiver = Receiver::new(40);
        receiver.take([5, 0x10, 40, 1, 2, 3, 4, 5]);
        receiver.take([5, 0x22, 9, 9, 9, 9, 9, 9]);
        assert_eq!(receiver.buffer[..7], [1, 2, 3, 4, 5, 0, 0]);
        receiver.expect_ignored([5, 0x21, 1, 2, 3, 4, 5, 6]);
    }

    #[test]
    fn single_and_first_frames_begin_anew() {
        let mut receiver = Receiver::new(20);
        receiver.take([5, 0x10, 20, 1, 2, 3, 4, 5]);
        receiver.take([5, 0x21, 6, 7, 8, 9, 10, 11]);
        assert_eq!(receiver.take([5, 0x10, 7, 21, 22, 23, 24, 25]), Started);
        assert_eq!(receiver.take([5, 0x21, 26, 27, 28, 29, 30, 31]), Done(7));
        assert_eq!(receiver.buffer[..9], [21, 22, 23, 24, 25, 26, 27, 8, 9]);
        receiver.take([5, 0x10, 20, 1, 2, 3, 4, 5]);
        assert_eq!(receiver.take([5, 2, 9, 9, 8, 8, 8, 8]), Done(2));
        assert_eq!(receiver.buffer[..4], [9, 9, 3, 4]);
        receiver.expect_ignored([5, 0x21, 1, 2, 3, 4, 5, 6]);
    }

    #[test]
    fn frames_not_of_eight_bytes_are_refused() {
        let mut receiver = Receiver::new(20);
        for length in (0..20).filter(|&length| length != 8) {
            let refused = receiver.state.take(&mut receiver.buffer, &vec![1; length]);
            assert_eq!(refused, Err(Refusal::BytesRefused));
        }
    }

    #[test]
    fn a_buffer_shorter_than_the_open_message_is_refused() {
        let mut state = Reassembler::fresh();
        state
            .take(&mut [0; 9], &[5, 0x10, 9, 1, 2, 3, 4, 5])
            .unwrap();
        let before = state.clone();
        let refused = state.take(&mut [0; 8], &[5, 0x21, 6, 7, 8, 9, 1, 1]);
        assert_eq!(refused, Err(Refusal::BufferLength));
        assert_eq!(state, before);
        let broken = state.take(&mut [0; 8], &[5, 0x22, 6, 7, 8, 9, 1, 1]);
        assert_eq!(broken, Ok(Broken));
    }
}

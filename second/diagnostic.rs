//! Diagnostic messages cut into request frames, by "Diagnostic messages" of document 01.

/// The data bytes of a diagnostic frame.
pub const DIAGNOSTIC_LENGTH: usize = 8;

/// The largest length of a message.
pub const MESSAGE_LENGTH_MAX: usize = 4_095;

/// The most message bytes in a single frame.
pub const SINGLE_MAX: usize = 6;

/// The message bytes in a first frame.
pub const FIRST_BYTES: usize = 5;

/// The most message bytes in a next frame.
pub const NEXT_BYTES: usize = 6;

/// What the master knows of the message it sends.
#[derive(Debug, Clone, Copy, PartialEq, Eq)]
pub enum Message {
    None,
    Sending {
        nad: u8,
        length: usize,
        /// The number, from 0, of the frame that is sent next.
        next: usize,
    },
    Completed,
    Failed,
}

impl Message {
    /// Gives the message after a request transfer was closed.
    pub fn after_transfer(&self, successful: bool) -> Message {
        match *self {
            Message::Sending { nad, length, next } if successful => {
                let next = next + 1;
                if next == frame_count(length) {
                    Message::Completed
                } else {
                    Message::Sending { nad, length, next }
                }
            }
            _ => Message::Failed,
        }
    }
}

/// Gives the number of frames that a message of this length takes.
pub fn frame_count(length: usize) -> usize {
    if length <= SINGLE_MAX {
        1
    } else {
        1 + (length - FIRST_BYTES).div_ceil(NEXT_BYTES)
    }
}

/// Cuts one frame from a message; the frames are numbered from 0.
pub fn request_frame(nad: u8, message: &[u8], number: usize) -> Vec<u8> {
    let length = message.len();
    let mut frame = vec![nad];
    if length <= SINGLE_MAX {
        frame.push(length as u8);
        frame.extend(message);
    } else if number == 0 {
        frame.push((16 + length / 256) as u8);
        frame.push((length % 256) as u8);
        frame.extend(&message[..FIRST_BYTES]);
    } else {
        let begin = FIRST_BYTES + NEXT_BYTES * (number - 1);
        let end = length.min(begin + NEXT_BYTES);
        frame.push((32 + number % 16) as u8);
        frame.extend(&message[begin..end]);
    }
    frame.resize(DIAGNOSTIC_LENGTH, 255);
    frame
}

#[cfg(test)]
mod tests {
    use super::*;

    /// A message of this length whose bytes tell their place.
    fn message(length: usize) -> Vec<u8> {
        (1..=length).map(|n| (n % 251) as u8).collect()
    }

    #[test]
    fn seven_bytes_of_the_paper() {
        let frames: Vec<Vec<u8>> = (0..2).map(|n| request_frame(5, &message(7), n)).collect();
        assert_eq!(frames[0], [5, 0x10, 7, 1, 2, 3, 4, 5]);
        assert_eq!(frames[1], [5, 0x21, 6, 7, 255, 255, 255, 255]);
    }

    #[test]
    fn single_frames() {
        assert_eq!(
            request_frame(0, &[9], 0),
            [0, 1, 9, 255, 255, 255, 255, 255]
        );
        assert_eq!(
            request_frame(255, &message(6), 0),
            [255, 6, 1, 2, 3, 4, 5, 6]
        );
    }

    #[test]
    fn numbers_of_frames() {
        let counts = [
            (1, 1),
            (6, 1),
            (7, 2),
            (11, 2),
            (12, 3),
            (17, 3),
            (18, 4),
            (4_094, 683),
            (4_095, 683),
        ];
        for (length, count) in counts {
            assert_eq!(frame_count(length), count, "length {length}");
        }
    }

    #[test]
    fn counters_run_from_1_to_15_then_0() {
        let bytes = message(MESSAGE_LENGTH_MAX);
        assert_eq!(request_frame(1, &bytes, 0)[1..3], [0x1F, 0xFF]);
        for number in 1..frame_count(bytes.len()) {
            let counter = request_frame(1, &bytes, number)[1];
            assert_eq!(usize::from(counter), 32 + number % 16);
        }
        assert_eq!(request_frame(1, &bytes, 15)[1], 0x2F);
        assert_eq!(request_frame(1, &bytes, 16)[1], 0x20);
        assert_eq!(request_frame(1, &bytes, 17)[1], 0x21);
    }

    #[test]
    fn a_message_moves_on_completes_or_fails() {
        let sending = |next| Message::Sending {
            nad: 1,
            length: 12,
            next,
        };
        assert_eq!(sending(0).after_transfer(true), sending(1));
        assert_eq!(sending(1).after_transfer(true), sending(2));
        assert_eq!(sending(2).after_transfer(true), Message::Completed);
        assert_eq!(sending(0).after_transfer(false), Message::Failed);
        assert_eq!(sending(2).after_transfer(false), Message::Failed);
    }
}

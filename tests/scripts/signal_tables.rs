//! The signals of right tables, each in one to five frames of one publisher.

use crate::random::Random;

/// The most signals and the most placements of a table.
const SIGNALS_MAX: usize = 256;
const PLACEMENTS_MAX: usize = 512;

/// The most placements of a signal made here.
const PLACES_MAX: usize = 5;

/// Signals and the places of each.
#[derive(Default)]
pub struct Signals {
    /// The kind, the width and the start value of each.
    pub records: Vec<[u16; 3]>,
    /// The frames and offsets of each.
    pub places: Vec<Vec<[u16; 2]>>,
}

impl Signals {
    /// The placement records.
    pub fn placements(&self) -> Vec<[u16; 3]> {
        let numbered = (0..).zip(&self.places);
        let placements = numbered.flat_map(|(signal, places)| {
            let places = places.iter();
            places.map(move |&[frame, offset]| [signal, frame, offset])
        });
        placements.collect()
    }

    /// Adds a signal, if it has a place.
    fn add(&mut self, record: [u16; 3], places: Vec<[u16; 2]>) {
        if !places.is_empty() {
            self.records.push(record);
            self.places.push(places);
        }
    }
}

/// The frames of a table and the bits that are taken in each.
struct Room<'a> {
    frames: &'a [[u16; 3]],
    taken: Vec<u64>,
}

impl Room<'_> {
    /// All frames with no bit taken.
    fn of(frames: &[[u16; 3]]) -> Room<'_> {
        let taken = vec![0; frames.len()];
        Room { frames, taken }
    }

    /// Takes bits for a signal in a frame, mostly the lowest free ones, and gives their offset.
    fn take(&mut self, random: &mut Random, frame: usize, signal: [u16; 3]) -> Option<[u16; 2]> {
        let [kind, width, _] = signal;
        let bits = 8 * self.frames[frame][1];
        let mask = u64::MAX >> (64 - width);
        let step = if kind == 1 { 8 } else { 1 };
        let offsets = (0..(bits + 1).saturating_sub(width)).step_by(step);
        let free: Vec<u16> = offsets
            .filter(|offset| self.taken[frame] & mask << offset == 0)
            .collect();
        let lowest = *free.first()?;
        let any = random.one_of(&free);
        let offset = random.one_of(&[lowest, lowest, any]);
        self.taken[frame] |= mask << offset;
        Some([frame as u16, offset])
    }

    /// Takes bits for a signal in at most so many frames of one publisher, in any order.
    fn take_some(&mut self, random: &mut Random, signal: [u16; 3], count: usize) -> Vec<[u16; 2]> {
        let first = random.below(self.frames.len());
        let mut frames = self.alike(first);
        random.shuffle(&mut frames);
        let mut places = Vec::new();
        for frame in frames {
            if places.len() < count {
                places.extend(self.take(random, frame, signal));
            }
        }
        places
    }

    /// The frames that are published like this one.
    fn alike(&self, first: usize) -> Vec<usize> {
        let published = |frame: usize| self.frames[frame][2] & 1;
        let frames = 0..self.frames.len();
        frames
            .filter(|&frame| published(frame) == published(first))
            .collect()
    }
}

/// About so many signals, fewer where the frames are full, half of them in several frames.
pub fn right_signals(random: &mut Random, frames: &[[u16; 3]], count: usize) -> Signals {
    let scalar_max = if count > 2 * frames.len() {
        random.one_of(&[1, 3, 8])
    } else {
        random.one_of(&[5, 16, 16])
    };
    let mut room = Room::of(frames);
    let mut signals = Signals::default();
    let mut left = PLACEMENTS_MAX;
    for _ in 0..count.min(SIGNALS_MAX) {
        let record = any_signal(random, scalar_max, 8);
        let places = random.one_of(&[1, 1, 1, 1, 2, 2, 3, 4, PLACES_MAX]);
        let places = room.take_some(random, record, places.min(left));
        left -= places.len();
        signals.add(record, places);
    }
    signals
}

/// As many signals and placements as there may be, in 60 frames of eight bytes.
///
/// Where only few frames are published or only few are not, there are fewer placements.
pub fn most_signals(random: &mut Random, frames: &[[u16; 3]]) -> Signals {
    let mut room = Room::of(frames);
    let mut signals = Signals::default();
    let mut left = PLACEMENTS_MAX;
    for others in (0..SIGNALS_MAX).rev() {
        let least = left
            .saturating_sub(PLACES_MAX * others)
            .clamp(1, PLACES_MAX);
        let most = (left - others).min(PLACES_MAX);
        let any = random.between(least, most);
        let count = random.one_of(&[any, any, least, least]);
        let record = any_signal(random, 4, 1);
        let places = room.take_some(random, record, count);
        left -= places.len();
        signals.add(record, places);
    }
    signals
}

/// A signal of four bits in each frame, mostly also in others that are published like it.
pub fn signal_in_each(random: &mut Random, frames: &[[u16; 3]]) -> Signals {
    let mut room = Room::of(frames);
    let mut signals = Signals::default();
    for frame in 0..frames.len() {
        let record = [0, 4, start_value(random, 4)];
        let place = room.take(random, frame, record);
        signals.add(record, Vec::from_iter(place));
    }
    let each = signals.records.iter().zip(&mut signals.places);
    for (&record, places) in each {
        let own = usize::from(places[0][0]);
        let more = random.one_of(&[0, 0, 1, 1, 2, 4]);
        let mut others = room.alike(own);
        others.retain(|&frame| frame != own);
        random.shuffle(&mut others);
        others.truncate(more);
        for frame in others {
            places.extend(room.take(random, frame, record));
        }
        random.shuffle(places);
    }
    signals
}

/// A scalar of at most this width or, once in five times, an array of at most so many bytes.
fn any_signal(random: &mut Random, scalar_max: usize, bytes_max: usize) -> [u16; 3] {
    if random.once_in(5) {
        let any = random.between(1, bytes_max);
        let bytes = random.one_of(&[1, 1, any]);
        return [1, 8 * bytes as u16, start_value(random, 8)];
    }
    let width = random.between(1, scalar_max) as u16;
    [0, width, start_value(random, width)]
}

/// A start value of at most this many bits, often at an end of the range.
fn start_value(random: &mut Random, width: u16) -> u16 {
    let largest = u16::MAX >> (16 - width);
    match random.below(4) {
        0 => largest,
        1 => 0,
        _ => random.word() & largest,
    }
}

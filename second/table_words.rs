//! The words of a table from its records, for tests.

/// A frame, a signal or a placement.
pub type Triple = [u16; 3];

/// The records of a table, in their order.
#[derive(Clone, Default)]
pub struct Records {
    pub frames: Vec<Triple>,
    pub signals: Vec<Triple>,
    pub placements: Vec<Triple>,
    pub members: Vec<[u16; 2]>,
    pub entries: Vec<[u16; 4]>,
}

impl Records {
    /// Gives the words: the five counts, then the records.
    pub fn words(&self) -> Vec<u16> {
        let counts = [
            self.frames.len(),
            self.signals.len(),
            self.members.len(),
            self.entries.len(),
            self.placements.len(),
        ];
        let mut words = counts.map(|count| u16::try_from(count).unwrap()).to_vec();
        words.extend(self.frames.concat());
        words.extend(self.signals.concat());
        words.extend(self.placements.concat());
        words.extend(self.members.concat());
        words.extend(self.entries.concat());
        words
    }
}

/// Gives the words of a table of these frames, signals and placements alone.
pub fn placed(frames: &[Triple], signals: &[Triple], placements: &[Triple]) -> Vec<u16> {
    let records = Records {
        frames: frames.to_vec(),
        signals: signals.to_vec(),
        placements: placements.to_vec(),
        ..Records::default()
    };
    records.words()
}

/// Gives the words of a table of these frames, members and entries, without signals.
pub fn unplaced(frames: &[Triple], members: &[[u16; 2]], entries: &[[u16; 4]]) -> Vec<u16> {
    let records = Records {
        frames: frames.to_vec(),
        members: members.to_vec(),
        entries: entries.to_vec(),
        ..Records::default()
    };
    records.words()
}

/// Gives the worked table of REQUESTS.md: signal 0 in two frames, signal 1 in the second of them.
pub fn worked() -> Records {
    Records {
        frames: vec![[1, 2, 1], [2, 2, 1]],
        signals: vec![[0, 4, 5], [0, 8, 0]],
        placements: vec![[0, 0, 0], [0, 1, 4], [1, 1, 8]],
        members: vec![[0, 0]],
        entries: vec![[0, 1, 0, 10]],
    }
}

/// Gives the line of a table.
pub fn line(words: &[u16]) -> String {
    let words: Vec<String> = words.iter().map(u16::to_string).collect();
    format!("table {}", words.join(" "))
}

#[test]
fn the_worked_table_word_by_word() {
    let text = "table 2 2 1 1 3 1 2 1 2 2 1 0 4 5 0 8 0 0 0 0 0 1 4 1 1 8 0 0 0 1 0 10";
    assert_eq!(line(&worked().words()), text);
}

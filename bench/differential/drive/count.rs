//! What a run counts.

/// Differences and faults are trees that have one.
#[derive(Default)]
pub struct Counts {
    pub trees: u64,
    pub calls: u64,
    pub differences: u64,
    pub faults: u64,
    pub accepted: u64,
    pub refused: [u64; 10],
}

/// The most trees that get a line.
const LINES: u64 = 20;

impl Counts {
    /// What was wrong with the last tree.
    pub fn tell(&mut self, size: usize, wrong: &[Wrong]) {
        if wrong.is_empty() {
            return;
        }
        self.differences += u64::from(wrong.iter().any(|w| !w.buffer));
        self.faults += u64::from(wrong.iter().any(|w| w.buffer));
        if self.differences + self.faults <= LINES {
            let words: Vec<&str> = wrong.iter().map(|w| w.words.as_str()).collect();
            println!("DIFFERENCE tree {} ({size} bytes): {}", self.trees - 1, words.join("; "));
        }
    }
    pub fn answers(&self) -> String {
        let refused: Vec<String> = (1..10).map(|r| format!("{r}: {}", self.refused[r])).collect();
        format!("accepted {}; refused {}", self.accepted, refused.join(", "))
    }
    pub fn closing(&self, faults: u64) -> String {
        format!("{} trees, {} calls: {} differences, {faults} buffer faults", self.trees, self.calls, self.differences)
    }
}

/// One thing wrong in a call.
pub struct Wrong {
    /// Of a buffer, not of the answer.
    pub buffer: bool,
    pub words: String,
}

//! The generator and its values: bits of floats, posts, hashes, names, payloads.
use crate::rng::Rng;
use crate::tree::*;

pub const FLOATS: [u32; 30] = [
    0x0000_0000, 0x8000_0000, 0x3F80_0000, 0xBF80_0000, 0x4000_0000, 0x4040_0000, 0x3F00_0000,
    0x3DCC_CCCD, 0x0000_0001, 0x8000_0001, 0x007F_FFFF, 0x0080_0000, 0x807F_FFFF, 0x7F7F_FFFF,
    0xFF7F_FFFF, 0x7F80_0000, 0xFF80_0000, 0x7FC0_0000, 0xFFC0_0000, 0x7F80_0001, 0xFF80_0001,
    0x7FC1_2345, 0x7FFF_FFFF, 0xFFFF_FFFF, 0x3F80_0001, 0x3F7F_FFFF, 0x4B80_0000, 0x3380_0000,
    0x2000_0000, 0x5F00_0000,
];
pub const HASHES: [u64; 12] = [
    0, 1, u64::MAX, 0x1234_5678_9ABC_DEF0, 0x0000_0000_3F80_0000, 0xFFFF_FFFF_3F80_0000,
    0x0000_0001_0000_0000, 0x8000_0000_0000_0000, 0xCBF2_9CE4_8422_2325, 0x0000_0000_7FC1_2345,
    0x1234_5678_7F80_0001, 2,
];
pub const TEXTS: [&str; 12] = [
    "", "x", "variable.a", "temp.i", "context.other", "é", "日本語", "a.b", ".", "\u{10FFFF}", "\0",
    "variable.a",
];

/// A generator: random numbers, and how its trees are to be.
pub struct G {
    pub r: Rng,
    /// Arrays come from the host, so an Array can be accepted.
    pub arrays: bool,
    /// Texts that are not UTF-8 occur.
    pub raw: bool,
    /// Percent of nodes with a post that is not the plain (1, 0).
    pub posts: usize,
    /// How many different names (and hashes) there are.
    pub names: usize,
    /// Small integer constants rather than the odd floats, in percent.
    pub plain_floats: usize,
    /// Texts of any length, in percent.
    pub long: usize,
    /// Extra (ignored) children, in percent.
    pub extra: usize,
    /// Loops that are open.
    pub loops: usize,
}

impl G {
    pub fn bits(&mut self) -> u32 {
        if self.r.pct(self.plain_floats) {
            ((self.r.below(40) as i32 - 8) as f32 * self.r.pick(&[1.0f32, 0.5, 0.1])).to_bits()
        } else if self.r.pct(80) {
            self.r.pick(&FLOATS)
        } else {
            self.r.next() as u32
        }
    }
    pub fn post(&mut self, mut n: Gn) -> Gn {
        if self.r.pct(self.posts) {
            match self.r.below(10) {
                0 => (n.scale, n.offset) = (ONE, 0x8000_0000),
                1 => (n.scale, n.offset) = (0x7FC1_2345, self.bits()),
                2 => (n.scale, n.offset) = (ONE, self.bits()),
                3 => (n.scale, n.offset) = (self.bits(), 0),
                4 => (n.scale, n.offset) = (0x8000_0001, 0x7F80_0000),
                5 | 6 => (n.scale, n.offset) = (0x4000_0000, self.r.pick(&[0, ONE, 0x8000_0000])),
                _ => (n.scale, n.offset) = (self.bits(), self.bits()),
            }
        }
        n
    }
    pub fn hash(&mut self) -> u64 {
        let i = self.r.below(self.names);
        if i < HASHES.len() { HASHES[i] } else { 0x0101_0101_0101_0101u64.wrapping_mul(i as u64) }
    }
    pub fn name(&mut self, kind: u8) -> (u8, Vec<u8>) {
        let hash = self.hash();
        let mut text: Vec<u8> = if self.r.pct(self.long) {
            let n = self.r.pick(&[254usize, 255, 127, 128, 60, 33]);
            let mut t = "é".repeat(n / 2).into_bytes();
            if n % 2 == 1 {
                t.push(b'z');
            }
            t
        } else if self.r.pct(40) {
            self.r.pick(&TEXTS).as_bytes().to_vec()
        } else {
            format!("n{}", hash % 100).into_bytes()
        };
        if self.raw && self.r.pct(20) {
            text.push(self.r.range(128, 255) as u8);
            text.truncate(255);
        }
        let mut p = hash.to_be_bytes().to_vec();
        p.push(text.len() as u8);
        p.extend(text);
        (kind, p)
    }
    pub fn payload(&mut self, kind: u8) -> (u8, Vec<u8>) {
        match kind {
            0 => (0, Vec::new()),
            1 => (1, self.bits().to_be_bytes().to_vec()),
            2 => (2, self.hash().to_be_bytes().to_vec()),
            3..=10 => self.name(kind),
            11 => {
                let mut p = (self.r.pick(&[0u16, 1, 7, 300, 65535])).to_be_bytes().to_vec();
                p.push(self.r.pick(&[0u8, 1, 2, 255]));
                (11, p)
            }
            _ => (12, self.r.pick(&[0u16, 1, 9, 256, 65535]).to_be_bytes().to_vec()),
        }
    }
    pub fn any_payload(&mut self) -> (u8, Vec<u8>) {
        let kind = self.r.below(13) as u8;
        self.payload(kind)
    }
    /// A payload that the rule ignores: mostly none.
    pub fn idle(&mut self) -> (u8, Vec<u8>) {
        if self.r.pct(92) { self.payload(0) } else { self.any_payload() }
    }
    /// A constant's payload: Float, Hash or another.
    pub fn constant(&mut self) -> (u8, Vec<u8>) {
        let k = self.r.weighted(&[(1, 60), (2, 20), (99, 20)]);
        if k == 99 { self.any_payload() } else { self.payload(k as u8) }
    }
    /// Any operator code, mostly one that has a rule.
    pub fn any_code(&mut self) -> u8 {
        let k = self.r.below(60);
        let k = if k >= 51 { self.r.range(51, 110) } else { k };
        if k < 51 { k as u8 + 1 } else { k as u8 + 13 }
    }
}

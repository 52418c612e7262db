//! Trees that are refused, and images that are damaged.
use crate::tree::*;
use crate::values::G;

impl G {
    /// A node that lowering refuses with 5, 6, 7 or 8.
    pub fn refused(&mut self) -> Gn {
        let l = self.leaf();
        let node = match self.r.below(15) {
            0 => { let p = self.payload(7); Gn::new(ARRAY_VARIABLE).pay(p) }
            1 => { let p = self.payload(7); Gn::with(ARRAY, vec![l]).pay(p) }
            2 => Gn::with(3, vec![l]),
            3 => { let p = self.payload(8); Gn::new(4).pay(p) }
            4 => { let p = self.payload(9); Gn::new(5).pay(p) }
            5 => { let p = self.payload(10); Gn::new(6).pay(p) }
            6 => Gn::with(ASSIGNMENT, vec![Gn::with(POINTER, vec![l.clone(), l])]),
            7 => { let p = self.payload(5); Gn::with(ASSIGNMENT, vec![Gn::new(POINTER).pay(p), l]) }
            8 => { let t = self.wild(1, 1); let t = Gn { op: if t.op == TEMP { POINTER } else { t.op }, ..t }; Gn::with(ASSIGNMENT, vec![t, l]) }
            9 => { let p = self.any_payload(); Gn::new(self.r.pick(&[ENTITY, TEMP, CONTEXT])).pay(p) }
            10 => { let p = self.any_payload(); Gn::with(QUERY, vec![l]).pay(p) }
            11 => { let p = self.any_payload(); Gn::with(self.r.pick(&[HOST, 43]), vec![l]).pay(p) }
            12 => { let p = self.any_payload(); let m = self.payload(6); Gn::with(MEMBER, vec![Gn::with(MEMBER, vec![l]).pay(p)]).pay(m) }
            13 => Gn::new(self.r.range(64, 123) as u8),
            _ => { let p = self.any_payload(); let v = Gn::new(TEMP).pay(p); Gn::with(FOR_EACH, vec![v, l.clone(), l]) }
        };
        self.post(node)
    }
    /// One change to a node, which is often refused then.
    pub fn mutate(&mut self, root: &mut Gn) {
        let count = root.count();
        if self.r.pct(45) {
            let mut at = self.r.below(count);
            let new = self.refused();
            let node = root.nth(&mut at).unwrap();
            *node = new;
            return;
        }
        let mut at = self.r.below(count);
        let code = self.any_code();
        let p = self.any_payload();
        let w = self.wild(4, 3);
        let l = self.leaf();
        let what = self.r.below(8);
        let spot = self.r.next() as usize;
        let (a, b) = (self.bits(), self.bits());
        let node = root.nth(&mut at).unwrap();
        match what {
            0 => node.op = code,
            1 | 2 => *node = std::mem::replace(node, Gn::new(THIS)).pay(p),
            3 if !node.kids.is_empty() => { node.kids.remove(spot % node.kids.len()); }
            4 => { let n = node.kids.len() + 1; node.kids.insert(spot % n, l) }
            5 => *node = w,
            6 if node.kids.len() > 1 => { let n = node.kids.len(); node.kids.swap(spot % n, (spot / 7) % n); }
            7 => (node.scale, node.offset) = (a, b),
            _ => node.op = code,
        }
    }
    /// An image with one thing wrong in it, most times.
    pub fn damage(&mut self, mut b: Vec<u8>, at: Places) -> Vec<u8> {
        let refit = |b: &mut Vec<u8>| {
            let n = (b.len() - 5) as u32;
            b[1..5].copy_from_slice(&n.to_be_bytes());
        };
        match self.r.below(20) {
            0 => { let n = self.r.below(b.len()); b.truncate(n); }
            1 => { let n = self.r.range(5, b.len() - 1); b.truncate(n); refit(&mut b); }
            2 | 3 => { let i = self.r.below(b.len()); b[i] ^= 1 << self.r.below(8); }
            4 => { let i = self.r.pick(&at.lens) + 3; b[i] = b[i].wrapping_add(self.r.pick(&[1u8, 255, 2, 16])); }
            5 => { let i = self.r.pick(&at.lens) + self.r.below(4); b[i] = self.r.next() as u8; }
            6 => { let i = self.r.pick(&at.codes); b[i] = self.r.pick(&[0u8, 52, 63, 124, 255, 60, 200]); }
            7 => { let i = self.r.pick(&at.kinds); b[i] = self.r.pick(&[13u8, 14, 128, 255]); }
            8 => { let i = self.r.pick(&at.kinds); b[i] = self.r.below(13) as u8; }
            9 => { for _ in 0..self.r.range(1, 20) { b.push(self.r.next() as u8); } }
            10 => { for _ in 0..self.r.range(1, 20) { b.push(self.r.next() as u8); } refit(&mut b); }
            11 => { let i = self.r.pick(&at.counts) + 1; b[i] = b[i].wrapping_add(self.r.pick(&[1u8, 255])); }
            12 => b[0] = self.r.pick(&[0u8, 1, 2, 3, 128, 255]),
            13 => { let i = 5 + self.r.below(SETTINGS); b[i] = self.r.pick(&[0u8, 1, 2, 3, 255]); }
            14 => { let n = self.r.below(10); b.truncate(n); if n >= 5 && self.r.pct(70) { refit(&mut b); } }
            15 if !at.texts.is_empty() => { let i = self.r.pick(&at.texts); b[i] = b[i].wrapping_add(self.r.pick(&[1u8, 255])); }
            16 => { let i = self.r.range(1, 4); b[i] = b[i].wrapping_add(self.r.pick(&[1u8, 255])); }
            17 => {
                // The last node grows by bytes that its own length and all above it include.
                let mut extra = self.r.range(1, 5);
                let end = b.len();
                let grown: Vec<usize> = at.lens.iter().copied().filter(|&l| {
                    l + 4 + u32::from_be_bytes(b[l..l + 4].try_into().unwrap()) as usize == end
                }).collect();
                for l in grown {
                    let n = u32::from_be_bytes(b[l..l + 4].try_into().unwrap()) + extra as u32;
                    b[l..l + 4].copy_from_slice(&n.to_be_bytes());
                }
                while extra > 0 { b.push(0); extra -= 1; }
                refit(&mut b);
            }
            18 => { let i = self.r.pick(&at.lens); b[i..i + 4].copy_from_slice(&self.r.pick(&[0u32, 11, 12, u32::MAX, 0x8000_0000, 0xFFFF_FFFC]).to_be_bytes()); }
            _ => { let n = self.r.range(6140, 6200); while b.len() < n { b.push(0); } refit(&mut b); }
        }
        b
    }
}

//! Trees, and their images as 01 lays them out.

#[derive(Clone)]
pub struct Gn {
    pub op: u8,
    pub scale: u32,
    pub offset: u32,
    pub kind: u8,
    pub payload: Vec<u8>,
    pub kids: Vec<Gn>,
}

pub const ARRAY: u8 = 1;
pub const ARRAY_VARIABLE: u8 = 2;
pub const FLOAT: u8 = 7;
pub const STRING: u8 = 8;
pub const THIS: u8 = 12;
pub const ENTITY: u8 = 13;
pub const TEMP: u8 = 14;
pub const CONTEXT: u8 = 15;
pub const MEMBER: u8 = 16;
pub const QUERY: u8 = 17;
pub const COALESCE: u8 = 26;
pub const CONDITIONAL: u8 = 27;
pub const SEMICOLON: u8 = 28;
pub const LOOP: u8 = 29;
pub const FOR_EACH: u8 = 30;
pub const BREAK: u8 = 31;
pub const CONTINUE: u8 = 32;
pub const ASSIGNMENT: u8 = 33;
pub const POINTER: u8 = 34;
pub const ADD: u8 = 39;
pub const MUL: u8 = 40;
pub const DIV: u8 = 41;
pub const HOST: u8 = 42;
pub const RETURN: u8 = 44;
/// The float 1.0.
pub const ONE: u32 = 0x3F80_0000;

/// The levels that an accepted tree may have.
pub const LEVELS: usize = 31;

/// Setting bytes of an image: arrays and divisor.
pub const SETTINGS: usize = 2;

/// Where things stand in an encoded tree, for damaging it.
#[derive(Default)]
pub struct Places {
    pub lens: Vec<usize>,
    pub codes: Vec<usize>,
    pub kinds: Vec<usize>,
    pub counts: Vec<usize>,
    pub texts: Vec<usize>,
}

impl Gn {
    pub fn new(op: u8) -> Self {
        Gn { op, scale: ONE, offset: 0, kind: 0, payload: Vec::new(), kids: Vec::new() }
    }
    pub fn with(op: u8, kids: Vec<Gn>) -> Self {
        Gn { kids, ..Gn::new(op) }
    }
    pub fn pay(mut self, p: (u8, Vec<u8>)) -> Self {
        self.kind = p.0;
        self.payload = p.1;
        self
    }
    pub fn size(&self) -> usize {
        16 + self.payload.len() + self.kids.iter().map(Gn::size).sum::<usize>()
    }
    pub fn count(&self) -> usize {
        1 + self.kids.iter().map(Gn::count).sum::<usize>()
    }
    pub fn write(&self, out: &mut Vec<u8>, at: &mut Places) {
        at.lens.push(out.len());
        out.extend(((self.size() - 4) as u32).to_be_bytes());
        at.codes.push(out.len());
        out.push(self.op);
        out.extend(self.scale.to_be_bytes());
        out.extend(self.offset.to_be_bytes());
        at.kinds.push(out.len());
        out.push(self.kind);
        if (3..=10).contains(&self.kind) {
            at.texts.push(out.len() + 8);
        }
        out.extend(&self.payload);
        at.counts.push(out.len());
        out.extend((self.kids.len() as u16).to_be_bytes());
        for k in &self.kids {
            k.write(out, at);
        }
    }
    /// The node at place `n` in pre-order.
    pub fn nth(&mut self, n: &mut usize) -> Option<&mut Gn> {
        if *n == 0 {
            return Some(self);
        }
        *n -= 1;
        for k in &mut self.kids {
            if let Some(found) = k.nth(n) {
                return Some(found);
            }
        }
        None
    }
}

/// The image of a tree, and where its fields stand.
pub fn image(root: &Gn, settings: &[u8; SETTINGS]) -> (Vec<u8>, Places) {
    let mut out = vec![1];
    out.extend(((settings.len() + root.size()) as u32).to_be_bytes());
    out.extend(settings);
    let mut at = Places::default();
    root.write(&mut out, &mut at);
    (out, at)
}

//! The genuine side of the benchmark, compiled as a module of the genuine crate beside its `build`: a tree image read
//! straight into genuine nodes (questions 2 to 4), `build`, and the program image written into the caller's buffer.
//! Hand-written, and as lean as its author could make it: one pass, no tree in between, names copied once.
use super::ast::{Name, Node, Payload, QueryRef, Span};
use super::{ArrayAccess, Cx, Settings, codegen, encode, parse};
use crate::catalog::{MathRef, QueryCatalog, QueryIndex};
use crate::numeric::{Platform, PostOp};
use crate::ops::ExpressionOp;
use crate::version::MolangVersion;

/// A tree image as genuine nodes and its two settings.
pub struct Parsed {
    root: Node,
    arrays: u8,
    divisor: u8,
}

struct Reader<'a> {
    bytes: &'a [u8],
    at: usize,
    deepest: usize,
}

impl<'a> Reader<'a> {
    fn take<const N: usize>(&mut self, end: usize) -> Option<[u8; N]> {
        if end - self.at < N {
            return None;
        }
        let got = self.bytes[self.at..self.at + N].try_into().ok()?;
        self.at += N;
        Some(got)
    }
    fn u8(&mut self, end: usize) -> Option<u8> {
        Some(self.take::<1>(end)?[0])
    }
    fn u16(&mut self, end: usize) -> Option<u16> {
        Some(u16::from_be_bytes(self.take(end)?))
    }
    fn u32(&mut self, end: usize) -> Option<u32> {
        Some(u32::from_be_bytes(self.take(end)?))
    }
    fn u64(&mut self, end: usize) -> Option<u64> {
        Some(u64::from_be_bytes(self.take(end)?))
    }
    fn float(&mut self, end: usize) -> Option<f32> {
        Some(f32::from_bits(self.u32(end)?))
    }
    fn name(&mut self, end: usize) -> Option<Name> {
        let hash = self.u64(end)?;
        let n = usize::from(self.u8(end)?);
        if end - self.at < n {
            return None;
        }
        let text = std::str::from_utf8(&self.bytes[self.at..self.at + n]).ok()?;
        self.at += n;
        Some(Name::with_hash(text, hash))
    }
    fn payload(&mut self, end: usize) -> Option<Payload> {
        Some(match self.u8(end)? {
            0 => Payload::None,
            1 => Payload::Float(self.float(end)?),
            2 => Payload::Hash(self.u64(end)?),
            3 => Payload::Context(self.name(end)?),
            4 => Payload::Entity(self.name(end)?),
            5 => Payload::Temp(self.name(end)?),
            6 => Payload::Member(self.name(end)?),
            7 => Payload::ArrayVariable(self.name(end)?),
            8 => Payload::Geometry(self.name(end)?),
            9 => Payload::Material(self.name(end)?),
            10 => Payload::Texture(self.name(end)?),
            11 => Payload::Query(QueryRef { index: QueryIndex(self.u16(end)?), impl_idx: self.u8(end)? }),
            12 => Payload::HostMath(MathRef(self.u16(end)?)),
            _ => return None,
        })
    }
    fn node(&mut self, outer: usize, level: usize) -> Option<Node> {
        self.deepest = self.deepest.max(level);
        let len = self.u32(outer)? as usize;
        if len > outer - self.at {
            return None;
        }
        let end = self.at + len;
        let op = ExpressionOp::from_code(self.u8(end)?)?;
        let post = PostOp { scale: self.float(end)?, offset: self.float(end)? };
        let value = self.payload(end)?;
        let count = usize::from(self.u16(end)?);
        let mut children = Vec::with_capacity(count.min((end - self.at) / 16));
        for _ in 0..count {
            children.push(self.node(end, level + 1)?);
        }
        (self.at == end).then_some(())?;
        Some(Node { op, post, value, children, span: Span::new(0, 0), below: parse::TokenClasses::ALL })
    }
    fn root(&mut self) -> Option<Parsed> {
        let end = self.bytes.len();
        let (arrays, divisor) = (self.u8(end)?, self.u8(end)?);
        (arrays <= 1 && divisor <= 1).then_some(())?;
        let root = self.node(end, 1)?;
        (self.at == end).then_some(Parsed { root, arrays, divisor })
    }
}

/// Questions 2 to 4.
pub fn parse(image: &[u8]) -> Result<Parsed, u32> {
    if image.len() < 5 || image.len() > 6144 || image[0] != 1 {
        return Err(2);
    }
    if u32::from_be_bytes(image[1..5].try_into().unwrap()) as usize != image.len() - 5 {
        return Err(2);
    }
    let mut r = Reader { bytes: image, at: 5, deepest: 0 };
    let parsed = r.root().ok_or(3u32)?;
    if r.deepest > tree::LEVELS { Err(4) } else { Ok(parsed) }
}

fn built(tree: &Parsed) -> Result<super::program::Program, u32> {
    let catalog = QueryCatalog;
    let arrays = if tree.arrays == 1 { ArrayAccess::FromHost } else { ArrayAccess::Unresolved };
    let mut cx = Cx {
        opts: Settings { catalog: &catalog, math: None, platform: Platform::default(), arrays },
        version: if tree.divisor == 0 { MolangVersion::SignedDivisor } else { MolangVersion::AbsoluteDivisor },
        write_to_other_mob: false,
    };
    codegen::build(&mut cx, &tree.root).map_err(|e| match e {
        codegen::LinkError::UsesArrays => 5,
        codegen::LinkError::UsesResources => 6,
        codegen::LinkError::Failed => if cx.write_to_other_mob { 8 } else { 7 },
    })
}

/// The genuine `build` and the drop of what it gave.
pub fn build_alone(tree: &Parsed) -> u64 {
    match built(tree) {
        Ok(p) => p.code.len() as u64,
        Err(r) => u64::from(r) << 32,
    }
}

/// The whole job: the refusal's number times 2^32, plus the length.
pub fn whole(image: &[u8], out: &mut Vec<u8>) -> u64 {
    out.clear();
    match parse(image).and_then(|tree| built(&tree)) {
        Ok(p) => {
            encode::write(&p, out);
            out.len() as u64
        }
        Err(r) => u64::from(r) << 32,
    }
}

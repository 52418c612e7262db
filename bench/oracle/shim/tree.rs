//! The tree image of 01, read without recursion, and its questions 2 to 4.
#![allow(warnings)]

#[derive(Clone, Debug, PartialEq)]
pub enum TPayload {
    None,
    Float(u32),
    Hash(u64),
    /// Kind 3 to 10, hash, text.
    Name(u8, u64, Vec<u8>),
    Query(u16, u8),
    HostMath(u16),
}

#[derive(Clone, Debug, PartialEq)]
pub struct TNode {
    pub op: u8,
    pub scale: u32,
    pub offset: u32,
    pub payload: TPayload,
    pub children: Vec<TNode>,
}

#[derive(Clone, Debug)]
pub struct Tree {
    pub arrays: u8,
    pub divisor: u8,
    pub root: TNode,
    pub utf8: bool,
}

pub fn known_code(op: u8) -> bool {
    (1..=51).contains(&op) || (64..=123).contains(&op)
}

struct Reader<'a> {
    b: &'a [u8],
    at: usize,
}

impl<'a> Reader<'a> {
    fn take(&mut self, n: usize, end: usize) -> Option<&'a [u8]> {
        if end - self.at < n {
            return None;
        }
        let s = &self.b[self.at..self.at + n];
        self.at += n;
        Some(s)
    }
    fn num(&mut self, n: usize, end: usize) -> Option<u64> {
        Some(self.take(n, end)?.iter().fold(0, |v, &x| v << 8 | u64::from(x)))
    }
}

struct Open {
    node: TNode,
    /// Children still to come.
    left: u64,
    /// Where the node must end.
    end: usize,
}

/// Reads a node up to its children; `end` is where its parent (or the image) ends.
fn head(r: &mut Reader<'_>, end: usize, utf8: &mut bool) -> Option<Open> {
    let len = r.num(4, end)? as usize;
    if len > end - r.at {
        return None;
    }
    let end = r.at + len;
    let op = r.num(1, end)? as u8;
    if !known_code(op) {
        return None;
    }
    let scale = r.num(4, end)? as u32;
    let offset = r.num(4, end)? as u32;
    let payload = match r.num(1, end)? as u8 {
        0 => TPayload::None,
        1 => TPayload::Float(r.num(4, end)? as u32),
        2 => TPayload::Hash(r.num(8, end)?),
        kind @ 3..=10 => {
            let hash = r.num(8, end)?;
            let n = r.num(1, end)? as usize;
            let text = r.take(n, end)?.to_vec();
            *utf8 &= std::str::from_utf8(&text).is_ok();
            TPayload::Name(kind, hash, text)
        }
        11 => {
            let index = r.num(2, end)? as u16;
            TPayload::Query(index, r.num(1, end)? as u8)
        }
        12 => TPayload::HostMath(r.num(2, end)? as u16),
        _ => return None,
    };
    let left = r.num(2, end)?;
    Some(Open {
        node: TNode { op, scale, offset, payload, children: Vec::new() },
        left,
        end,
    })
}

/// The root and the deepest level; `None` is refusal 3.
fn nodes(r: &mut Reader<'_>, end: usize, utf8: &mut bool) -> Option<(TNode, usize)> {
    let mut stack = vec![head(r, end, utf8)?];
    let mut deepest = 1;
    loop {
        let top = stack.last_mut().unwrap();
        if top.left > 0 {
            top.left -= 1;
            let end = top.end;
            let open = head(r, end, utf8)?;
            stack.push(open);
            deepest = deepest.max(stack.len());
            continue;
        }
        if r.at != top.end {
            return None;
        }
        let done = stack.pop().unwrap().node;
        match stack.last_mut() {
            Some(parent) => parent.node.children.push(done),
            None => return (r.at == end).then_some((done, deepest)),
        }
    }
}

/// The levels that an accepted tree may have.
pub const LEVELS: usize = 31;

/// Questions 2, 3 and 4: a tree, or the number of the first that is answered by no.
pub fn decode(image: &[u8]) -> Result<Tree, u32> {
    if image.len() < 5 || image.len() > 6144 || image[0] != 1 {
        return Err(2);
    }
    let len = u32::from_be_bytes(image[1..5].try_into().unwrap()) as usize;
    if len != image.len() - 5 {
        return Err(2);
    }
    let end = image.len();
    let mut r = Reader { b: image, at: 5 };
    let mut setting = || match r.num(1, end) {
        Some(v @ (0 | 1)) => Ok(v as u8),
        _ => Err(3u32),
    };
    let arrays = setting()?;
    let divisor = setting()?;
    let mut utf8 = true;
    let (root, deepest) = nodes(&mut r, end, &mut utf8).ok_or(3u32)?;
    if deepest > LEVELS {
        return Err(4);
    }
    Ok(Tree { arrays, divisor, root, utf8 })
}

//! The trees of the benchmark, the same in every run: small, typical and large ones at random, and the worst cases.

const FLOAT: u8 = 7;
const STRING: u8 = 8;
const THIS: u8 = 12;
const ENTITY: u8 = 13;
const TEMP: u8 = 14;
const CONTEXT: u8 = 15;
const MEMBER: u8 = 16;
const QUERY: u8 = 17;
const LESS: u8 = 18;
const EQUAL: u8 = 22;
const AND: u8 = 24;
const COALESCE: u8 = 26;
const CONDITIONAL: u8 = 27;
const SEMICOLON: u8 = 28;
const LOOP: u8 = 29;
const BREAK: u8 = 31;
const CONTINUE: u8 = 32;
const ASSIGNMENT: u8 = 33;
const NEGATE: u8 = 37;
const ADD: u8 = 39;
const MUL: u8 = 40;
const DIV: u8 = 41;
const HOST: u8 = 42;
const ONE: u32 = 0x3F80_0000;

/// The most levels and the longest tree image that are let pass.
pub const LEVELS: usize = molang_speed::LEVELS;
pub const LONGEST: usize = 6144;

pub struct Rng(pub u64);
impl Rng {
    fn next(&mut self) -> u64 {
        self.0 = self.0.wrapping_add(0x9E37_79B9_7F4A_7C15);
        let mut z = self.0;
        z = (z ^ (z >> 30)).wrapping_mul(0xBF58_476D_1CE4_E5B9);
        z = (z ^ (z >> 27)).wrapping_mul(0x94D0_49BB_1331_11EB);
        z ^ (z >> 31)
    }
    fn below(&mut self, n: usize) -> usize {
        (self.next() >> 33) as usize % n
    }
}

#[derive(Clone)]
pub struct Node {
    op: u8,
    scale: u32,
    offset: u32,
    payload: Vec<u8>,
    kids: Vec<Node>,
}

impl Node {
    fn new(op: u8, kids: Vec<Node>) -> Node {
        Node { op, scale: ONE, offset: 0, payload: vec![0], kids }
    }
    fn pay(mut self, kind: u8, bytes: &[u8]) -> Node {
        self.payload = [&[kind], bytes].concat();
        self
    }
    fn post(mut self, scale: u32) -> Node {
        self.scale = scale;
        self
    }
    pub fn count(&self) -> usize {
        1 + self.kids.iter().map(Node::count).sum::<usize>()
    }
    fn size(&self) -> usize {
        15 + self.payload.len() + self.kids.iter().map(Node::size).sum::<usize>()
    }
    fn write(&self, out: &mut Vec<u8>) {
        out.extend((self.size() as u32 - 4).to_be_bytes());
        out.push(self.op);
        out.extend(self.scale.to_be_bytes());
        out.extend(self.offset.to_be_bytes());
        out.extend(&self.payload);
        out.extend((self.kids.len() as u16).to_be_bytes());
        self.kids.iter().for_each(|k| k.write(out));
    }
    /// The tree image: arrays Unresolved, divisor Signed.
    pub fn image(&self) -> Vec<u8> {
        let mut out = vec![1];
        out.extend((self.size() as u32 + 2).to_be_bytes());
        out.extend([0, 0]);
        self.write(&mut out);
        out
    }
}

/// The bytes of a name: its FNV-1 hash and its text.
fn name(text: &str) -> Vec<u8> {
    let hash = text.bytes().fold(0xCBF2_9CE4_8422_2325u64, |h, b| h.wrapping_mul(0x100_0000_01B3) ^ u64::from(b));
    [&hash.to_be_bytes()[..], &[text.len() as u8], text.as_bytes()].concat()
}
fn float(v: f32) -> Node {
    Node::new(FLOAT, vec![]).pay(1, &v.to_bits().to_be_bytes())
}
fn this() -> Node {
    Node::new(THIS, vec![])
}
fn variable(i: usize) -> Node {
    Node::new(ENTITY, vec![]).pay(4, &name(&format!("variable.servo_{i}")))
}
fn temp(i: usize) -> Node {
    Node::new(TEMP, vec![]).pay(5, &name(&format!("temp.t{i}")))
}

/// A value without operands; `names` is how many different ones there are of each kind.
fn leaf(r: &mut Rng, names: usize) -> Node {
    let i = r.below(names);
    match r.below(8) {
        0 | 1 => float(r.below(64) as f32 / 4.0),
        2 => this(),
        3 | 4 => variable(i),
        5 => temp(i),
        6 => Node::new(CONTEXT, vec![]).pay(3, &name(&format!("context.c{i}"))),
        _ => Node::new(QUERY, vec![]).pay(11, &[0, i as u8, 1]),
    }
}

/// An expression of just so many nodes.
fn expr(r: &mut Rng, nodes: usize, names: usize) -> Node {
    if nodes <= 1 {
        return leaf(r, names);
    }
    let rest = nodes - 1;
    let one = |r: &mut Rng, op| Node::new(op, vec![expr(r, rest, names)]);
    let node = match r.below(14) {
        0 => one(r, NEGATE),
        1 => { let v = r.below(32) as f32; one(r, LESS).pay(1, &v.to_bits().to_be_bytes()) }
        2 => { let h = r.below(8) as u64; one(r, EQUAL).pay(2, &h.to_be_bytes()) }
        3 => { let i = r.below(names); one(r, MEMBER).pay(6, &name(&format!("m{i}"))) }
        _ if nodes == 2 => one(r, NEGATE),
        4 | 5 => several(r, ADD, rest, names),
        6 | 7 => two(r, MUL, rest, names),
        8 => two(r, DIV, rest, names),
        9 => two(r, COALESCE, rest, names),
        10 => two(r, CONDITIONAL, rest, names),
        11 => several(r, AND, rest, names),
        12 => { let i = r.below(names) as u8; several(r, QUERY, rest, names).pay(11, &[1, i, 0]) }
        _ => several(r, HOST, rest, names).pay(12, &[0, 5]),
    };
    if r.below(4) == 0 { node.post(ONE + (r.below(16) << 19) as u32) } else { node }
}
fn two(r: &mut Rng, op: u8, rest: usize, names: usize) -> Node {
    let a = 1 + r.below(rest - 1);
    Node::new(op, vec![expr(r, a, names), expr(r, rest - a, names)])
}
fn several(r: &mut Rng, op: u8, rest: usize, names: usize) -> Node {
    if rest < 3 {
        return two(r, op, rest, names);
    }
    let a = 1 + r.below(rest - 2);
    let b = 1 + r.below(rest - a - 1);
    Node::new(op, vec![expr(r, a, names), expr(r, b, names), expr(r, rest - a - b, names)])
}

fn assigned(r: &mut Rng, nodes: usize, names: usize) -> Node {
    let target = if r.below(3) == 0 { temp(r.below(names)) } else { variable(r.below(names)) };
    Node::new(ASSIGNMENT, vec![target, expr(r, nodes.max(3) - 2, names)])
}

/// A tree of some `nodes` nodes: one expression, or a list of assignments; in each longer list a loop.
pub fn random(r: &mut Rng, nodes: usize, names: usize) -> Node {
    if nodes < 12 || r.below(3) == 0 && nodes <= 60 {
        return expr(r, nodes, names);
    }
    let mut list = vec![];
    let mut left = nodes - 1;
    while left > 3 {
        let n = (4 + r.below(12)).min(left);
        let statement = assigned(r, n, names);
        left -= statement.count().min(left);
        list.push(statement);
    }
    if list.len() > 3 {
        let body = list.split_off(list.len() - 2);
        list.push(Node::new(LOOP, vec![float(8.0), Node::new(SEMICOLON, body)]));
    }
    Node::new(SEMICOLON, list)
}

/// A list of statements in an image of just 6,144 bytes; the last string fills it.
pub fn large(r: &mut Rng) -> Node {
    let mut list = vec![];
    loop {
        let n = 6 + r.below(20);
        let statement = assigned(r, n, 24);
        let size = 7 + Node::new(SEMICOLON, list.clone()).size() + statement.size();
        if size + 25 > LONGEST {
            break;
        }
        list.push(statement);
    }
    fill(Node::new(SEMICOLON, list))
}

/// Children of one name each that bring the image to 6,144 bytes, of 25 to 280 bytes each.
fn fill(mut root: Node) -> Node {
    loop {
        let left = LONGEST - 7 - root.size();
        if left == 0 {
            return root;
        }
        let own = if left <= 280 { left } else { 140 };
        root.kids.push(variable(0).pay(4, &name(&"x".repeat(own - 25))));
    }
}

/// The shape of a tree that costs one part most, with so many repetitions; the names are those of `WORST`.
pub fn worst(name_of: &str, n: usize) -> Node {
    let number = |i: usize| (i as u64).wrapping_mul(0x9E37_79B9_7F4A_7C15).to_be_bytes();
    let sum = |one: &dyn Fn(usize) -> Node| Node::new(ADD, (0..n).map(one).collect());
    match name_of {
        "names" => sum(&|i| Node::new(ENTITY, vec![]).pay(4, &[&number(i)[..], &[0]].concat())),
        "temps" => sum(&|i| Node::new(TEMP, vec![]).pay(5, &[&number(i)[..], &[0]].concat())),
        "members" => sum(&|i| Node::new(MEMBER, vec![this()]).pay(6, &[&number(i)[..], &[0]].concat())),
        "consts" => sum(&|i| float(i as f32)),
        "hashes" => sum(&|i| Node::new(STRING, vec![]).pay(2, &number(i))),
        "posts" => sum(&|i| this().post(ONE + 1 + i as u32)),
        "strings" => Node::new(SEMICOLON, (0..n).map(|_| Node::new(STRING, vec![]).pay(2, &number(3))).collect()),
        "loops" => (0..n).fold(this(), |body, _| Node::new(LOOP, vec![float(2.0), body])),
        "breaks" => breaks(n),
        "path" => (0..n).fold(this(), |base, i| Node::new(MEMBER, vec![base]).pay(6, &name(&format!("{:0>179}", i)))),
        "handlers" => (0..n).fold(this(), |first, _| Node::new(COALESCE, vec![first, this()])),
        "arguments" => (0..n).fold(this(), |inner, _| Node::new(QUERY, vec![this(), inner]).pay(11, &[0, 1, 0])),
        _ => panic!("no worst case {name_of}"),
    }
}

/// Loops inside one another, in the innermost a list of `n` Breaks and Continues: each loop looks for its own.
fn breaks(n: usize) -> Node {
    let list = (0..n).map(|i| Node::new(if i % 2 == 0 { BREAK } else { CONTINUE }, vec![])).collect();
    (0..LEVELS - 2).fold(Node::new(SEMICOLON, list), |body, _| Node::new(LOOP, vec![this(), body]))
}

/// The worst cases, each as large as an image and its levels allow.
pub const WORST: [(&str, usize); 12] = [
    ("names", 244), ("temps", 244), ("members", 148), ("consts", 306), ("hashes", 254), ("posts", 382), ("strings", 254),
    ("loops", LEVELS - 1), ("breaks", 324), ("path", LEVELS - 1), ("handlers", LEVELS - 1), ("arguments", LEVELS - 1),
];

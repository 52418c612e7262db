//! Special shapes: limits, pools, long images.
use crate::tree::*;
use crate::values::G;

impl G {
    pub fn small_leaf(&mut self) -> Gn {
        match self.r.below(6) {
            0 => Gn::new(FLOAT),
            1 => { let p = self.payload(1); Gn::new(FLOAT).pay(p) }
            2 => { let p = self.payload(5); Gn::new(TEMP).pay(p) }
            3 => Gn::new(BREAK),
            _ => Gn::new(THIS),
        }
    }
    /// A chain to `levels` levels exactly, each link at a child that is lowered.
    pub fn deep(&mut self, levels: usize, all: bool) -> Gn {
        let mut node = self.small_leaf();
        for _ in 1..levels {
            let what = if all { self.r.below(16) } else { self.r.below(3) };
            node = match what {
                0 => { let op = self.r.pick(&[35u8, 36, 37, 38]); Gn::with(op, vec![node]) }
                1 => { let p = self.payload(6); Gn::with(MEMBER, vec![node]).pay(p) }
                2 => { let op = self.r.range(18, 25) as u8; Gn::with(op, vec![node]) }
                3 => { let l = self.small_leaf(); Gn::with(MUL, vec![l, node]) }
                4 => { let l = self.small_leaf(); Gn::with(MUL, vec![node, l]) }
                5 => { let l = self.small_leaf(); Gn::with(DIV, vec![l, node]) }
                6 => { let l = self.small_leaf(); Gn::with(DIV, vec![node, l]) }
                7 => { let l = self.small_leaf(); Gn::with(COALESCE, vec![node, l]) }
                8 => { let l = self.small_leaf(); Gn::with(COALESCE, vec![l, node]) }
                9 => { let l = self.small_leaf(); Gn::with(CONDITIONAL, vec![l, node]) }
                10 => Gn::with(SEMICOLON, vec![node]),
                11 => { let l = self.small_leaf(); Gn::with(LOOP, vec![l, node]) }
                12 => { let l = self.small_leaf(); Gn::with(POINTER, vec![l, node]) }
                13 => { let p = self.payload(11); Gn::with(QUERY, vec![node]).pay(p) }
                14 => { let p = self.payload(12); Gn::with(HOST, vec![node]).pay(p) }
                _ => { let op = self.r.pick(&[24u8, 25, ADD]); let l = self.small_leaf(); Gn::with(op, vec![l, node]) }
            };
            if self.r.pct(25) { node = self.post(node); }
        }
        node
    }
    /// Nesting around the float-loop limits.
    pub fn limits(&mut self) -> Gn {
        let stack = self.r.pick(&[0usize, 3, 14, 15, 16, 17, 18]);
        let loops = self.r.pick(&[0usize, 0, 3, 4, 5, 6]);
        let handlers = self.r.pick(&[0usize, 0, 3, 4, 5, 6]);
        let mut todo: Vec<u8> = Vec::new();
        todo.extend(vec![0; stack]);
        todo.extend(vec![1; loops]);
        todo.extend(vec![2; handlers]);
        if self.r.pct(25) { todo.extend(vec![3; self.r.range(1, 3)]); }
        for i in (1..todo.len()).rev() {
            let j = self.r.below(i + 1);
            todo.swap(i, j);
        }
        todo.truncate(LEVELS - 1);
        let mut node = self.small_leaf();
        for t in todo {
            let l = self.small_leaf();
            node = match t {
                0 => match self.r.below(6) {
                    0 => Gn::with(DIV, vec![node, l]),
                    1 => { let op = self.r.range(18, 23) as u8; Gn::with(op, vec![l, node]) }
                    2 => Gn::with(ADD, vec![l, node]),
                    3 => { let p = self.payload(12); Gn::with(HOST, vec![l, node]).pay(p) }
                    4 => { let m = self.small_leaf(); Gn::with(ADD, vec![l, node, m]) }
                    _ => Gn::with(MUL, vec![l, node]),
                },
                1 if self.r.pct(30) => {
                    let kind = self.r.pick(&[4u8, 5]);
                    let p = self.payload(kind);
                    Gn::with(FOR_EACH, vec![Gn::new(TEMP).pay(p), l, node])
                }
                1 => Gn::with(LOOP, vec![l, node]),
                2 => Gn::with(COALESCE, vec![node, l]),
                _ => { let p = self.payload(11); Gn::with(QUERY, vec![node]).pay(p) }
            };
        }
        node
    }
    /// 7 to 10 different temps.
    pub fn temps(&mut self) -> Gn {
        let many = self.r.range(6, 11);
        let mut kids = Vec::new();
        for i in 0..many {
            let mut p = (1000 + i as u64).to_be_bytes().to_vec();
            p.extend([2, b't', b'0' + i as u8]);
            let t = Gn::new(TEMP).pay((5, p));
            kids.push(if self.r.pct(50) { t } else { let p = self.constant(); Gn::with(ASSIGNMENT, vec![t]).pay(p) });
            if self.r.pct(20) { let again = kids[self.r.below(kids.len())].clone(); kids.push(again); }
        }
        let op = self.r.pick(&[SEMICOLON, ADD, 24]);
        Gn::with(op, kids)
    }
    /// More than 16 entries in a pool, with repeats.
    pub fn pools(&mut self) -> Gn {
        let which = self.r.below(6);
        let distinct = if self.r.pct(70) { self.r.range(15, 40) } else { self.r.range(40, 180) };
        let total = distinct + self.r.below(20);
        let mut kids = Vec::new();
        for i in 0..total {
            let k = if i < distinct { i } else { self.r.below(distinct) } as u64;
            let name = |kind: u8, h: u64, t: usize| {
                let mut p = h.to_be_bytes().to_vec();
                p.extend([1, b'a' + (t % 26) as u8]);
                (kind, p)
            };
            kids.push(match which {
                0 => Gn::new(FLOAT).pay((1, (k as f32).to_bits().to_be_bytes().to_vec())),
                1 => Gn::new(STRING).pay((2, (k * 77).to_be_bytes().to_vec())),
                2 => Gn::new(ENTITY).pay(name(4, k * 3, i)),
                3 => Gn { scale: (k as f32 + 2.0).to_bits(), ..Gn::new(THIS) },
                4 => Gn::with(MEMBER, vec![Gn::with(MEMBER, vec![Gn::new(THIS)]).pay(name(6, k % 7, i))]).pay(name(6, k, i + 1)),
                _ => Gn::new(TEMP).pay(name(5, k, i)),
            });
        }
        let op = self.r.pick(&[SEMICOLON, ADD, 24, 25, QUERY]);
        let mut node = Gn::with(op, kids);
        if op == QUERY { let p = self.payload(11); node = node.pay(p); }
        self.post(node)
    }
    /// One node with very many children.
    pub fn wide(&mut self) -> Gn {
        let op = self.r.pick(&[HOST, HOST, HOST, 43, ADD, 24, 25, SEMICOLON, QUERY, THIS]);
        let k = if op == HOST || op == 43 {
            self.r.pick(&[17usize, 100, 250, 254, 255, 256, 257, 300])
        } else {
            self.r.pick(&[17usize, 64, 200, 256, 300, 350])
        };
        let leaf = self.r.pick(&[THIS, FLOAT, 45, BREAK]);
        let mut kids: Vec<Gn> = (0..k).map(|_| Gn::new(leaf)).collect();
        for _ in 0..self.r.below(12) {
            let i = self.r.below(k);
            let l = self.leaf();
            kids[i] = l;
        }
        let mut node = Gn::with(op, kids);
        if op == HOST || op == 43 { let p = self.payload(12); node = node.pay(p); }
        if op == QUERY { let p = self.payload(11); node = node.pay(p); }
        self.post(node)
    }
    /// Long member chains whose outermost text is repeated in every entry of the chain.
    pub fn reports(&mut self) -> Gn {
        let mut kids = Vec::new();
        let mut left = self.r.pick(&[900usize, 2000, 4000, 6000]);
        let mut h = self.r.below(1000) as u64;
        while left > 400 {
            let links = self.r.range(1, LEVELS - 2).min((left - 300) / 26 + 1);
            let mut node = Gn::new(THIS);
            for i in 1..=links {
                let n = if i == links { self.r.pick(&[255usize, 254, 200, 0]) } else { self.r.below(2) };
                h += self.r.below(3) as u64;
                let mut p = h.to_be_bytes().to_vec();
                p.push(n as u8);
                p.extend(std::iter::repeat(b'm').take(n));
                node = Gn::with(MEMBER, vec![node]).pay((6, p));
            }
            left = left.saturating_sub(node.size());
            kids.push(node);
        }
        Gn::with(self.r.pick(&[SEMICOLON, ADD, 24]), kids)
    }
    /// A tree image of exactly `target` bytes.
    pub fn exact(&mut self, target: usize) -> Gn {
        let mut left = target - 5 - SETTINGS - 16;
        let mut kids = Vec::new();
        while left > 0 {
            let chunk = if left <= 280 { left } else { self.r.range(25, 280).min(left - 25) };
            let n = chunk - 25;
            let mut p = self.hash().to_be_bytes().to_vec();
            p.push(n as u8);
            p.extend(std::iter::repeat(b'a' + (n % 26) as u8).take(n));
            kids.push(Gn::new(ENTITY).pay((4, p)));
            left -= chunk;
        }
        Gn::with(SEMICOLON, kids)
    }
}

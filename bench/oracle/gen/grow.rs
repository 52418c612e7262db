//! Trees by size and depth: any tree at all, and trees that are accepted.
use crate::tree::*;
use crate::values::G;

impl G {
    /// Any node at all.
    pub fn wild(&mut self, n: usize, depth: usize) -> Gn {
        let op = self.any_code();
        let kids = if n <= 1 || depth <= 1 { 0 } else { self.r.below(7).min(n - 1) };
        let kids = (0..kids).map(|_| { let d = depth - 1; self.wild(n / kids, d) }).collect();
        let p = if self.r.pct(50) { self.any_payload() } else { self.usual(op) };
        let node = Gn::with(op, kids).pay(p);
        self.post(node)
    }
    /// The payload that belongs to an operator.
    pub fn usual(&mut self, op: u8) -> (u8, Vec<u8>) {
        let kind = match op {
            ARRAY | ARRAY_VARIABLE => 7,
            4 | 9 => 8,
            5 | 10 => 9,
            6 | 11 => 10,
            FLOAT => 1,
            STRING => 2,
            ENTITY => 4,
            TEMP => 5,
            CONTEXT => 3,
            MEMBER => 6,
            QUERY => 11,
            HOST | 43 => 12,
            _ => return self.idle(),
        };
        self.payload(kind)
    }
    /// Children behind those that a rule reads.
    pub fn more(&mut self, node: &mut Gn) {
        if self.r.pct(self.extra) {
            for _ in 0..self.r.range(1, 3) {
                let w = self.wild(3, 3);
                node.kids.push(w);
            }
        }
    }
    pub fn variable(&mut self) -> Gn {
        let op = self.r.pick(&[ENTITY, ENTITY, TEMP, CONTEXT]);
        let kind = if self.r.pct(80) {
            match op { ENTITY => 4, TEMP => 5, _ => 3 }
        } else {
            self.r.pick(&[3u8, 4, 5])
        };
        let p = self.payload(kind);
        Gn::new(op).pay(p)
    }
    pub fn leaf(&mut self) -> Gn {
        let jumps = if self.loops > 0 { 12 } else { 3 };
        let what = self.r.weighted(&[
            (0, 26), (1, 10), (2, 28), (3, 7), (4, 6), (5, jumps), (6, jumps), (7, 12), (8, 6), (9, 2),
        ]);
        let mut node = match what {
            0 => {
                let p = if self.r.pct(92) { self.payload(1) } else { self.any_payload() };
                Gn::new(FLOAT).pay(p)
            }
            1 => { let p = self.idle(); Gn::new(THIS).pay(p) }
            2 => self.variable(),
            3 => {
                let p = if self.r.pct(85) { self.payload(2) } else { self.any_payload() };
                Gn::new(STRING).pay(p)
            }
            4 => {
                let op = self.r.pick(&[9u8, 10, 11]);
                let kind = self.r.pick(&[8u8, 9, 10]);
                let p = if self.r.pct(85) { self.payload(kind) } else { self.any_payload() };
                Gn::new(op).pay(p)
            }
            5 => { let p = self.idle(); Gn::new(BREAK).pay(p) }
            6 => { let p = self.idle(); Gn::new(CONTINUE).pay(p) }
            7 => {
                let op = self.r.pick(&[44u8, 45, 46, 47, 48, 49, 50, 51]);
                let p = self.constant();
                Gn::new(op).pay(p)
            }
            8 => { let p = self.payload(11); return { let n = Gn::new(QUERY).pay(p); self.post(n) } }
            _ => { let p = self.idle(); return { let n = Gn::new(SEMICOLON).pay(p); self.post(n) } }
        };
        self.more(&mut node);
        self.post(node)
    }
    /// `k` lowered children that share `n` nodes.
    pub fn kids(&mut self, k: usize, n: usize, depth: usize) -> Vec<Gn> {
        let mut shares = vec![1usize; k];
        for _ in k..n.max(k) {
            let i = self.r.below(k);
            shares[i] += 1;
        }
        if self.r.pct(50) && k > 1 {
            // Uneven: one child takes most.
            let i = self.r.below(k);
            let j = self.r.below(k);
            let moved = (shares[j] - 1) * self.r.below(4) / 3;
            shares[j] -= moved;
            shares[i] += moved;
        }
        shares.into_iter().map(|s| self.expr(s, depth)).collect()
    }
    /// A tree whose lowering is accepted, of about `n` nodes and at most `depth` levels.
    pub fn expr(&mut self, n: usize, depth: usize) -> Gn {
        if n <= 1 || depth <= 1 {
            return self.leaf();
        }
        let (m, d) = (n - 1, depth - 1);
        let what = self.r.weighted(&[
            (0, 8), (1, 5), (2, 7), (3, 6), (4, 6), (5, 8), (6, 7), (7, 8), (8, 9), (9, 7), (10, 6),
            (11, 9), (12, 6), (13, 2), (14, 5), (15, 6), (16, 8), (17, 6),
            (18, if self.arrays { 5 } else { 0 }),
        ]);
        let mut node = match what {
            0 => {
                let k = self.r.weighted(&[(1, 10), (2, 40), (3, 25), (4, 10), (5, 8), (6, 7)]);
                let kids = self.kids(k, m, d);
                let p = self.idle();
                return { let n = Gn::with(ADD, kids).pay(p); self.post(n) };
            }
            1 => Gn::with(MUL, self.kids(2, m, d)),
            2 => Gn::with(DIV, self.kids(2, m, d)),
            3 | 4 => {
                let op = if what == 3 { self.r.range(18, 21) } else { self.r.range(22, 23) } as u8;
                if self.r.pct(45) {
                    let kids = self.kids(1, m, d);
                    let p = self.constant();
                    return { let n = Gn::with(op, kids).pay(p); self.post(n) };
                }
                Gn::with(op, self.kids(2, m, d))
            }
            5 => {
                let op = self.r.pick(&[24u8, 25]);
                let k = self.r.range(1, 6);
                let kids = self.kids(k, m, d);
                let p = self.idle();
                return { let n = Gn::with(op, kids).pay(p); self.post(n) };
            }
            6 => Gn::with(COALESCE, self.kids(2, m, d)),
            7 => {
                let k = self.r.range(2, 3);
                let kids = self.kids(k, m, d);
                let mut node = Gn::with(CONDITIONAL, kids);
                if k == 3 { self.more(&mut node); }
                let p = self.idle();
                return { let n = node.pay(p); self.post(n) };
            }
            8 => {
                let k = self.r.below(7);
                let mut kids = if k == 0 { Vec::new() } else { self.kids(k, m, d) };
                if k > 0 && self.r.pct(35) {
                    let i = self.r.below(k);
                    let value = std::mem::replace(&mut kids[i], Gn::new(RETURN));
                    if self.r.pct(80) {
                        kids[i].kids.push(value);
                        if d <= 1 { kids[i].kids.clear(); }
                        let mut r = std::mem::replace(&mut kids[i], Gn::new(RETURN));
                        self.more(&mut r);
                        kids[i] = r;
                    }
                    let p = self.idle();
                    let r = std::mem::replace(&mut kids[i], Gn::new(RETURN)).pay(p);
                    kids[i] = self.post(r);
                }
                let p = self.idle();
                return { let n = Gn::with(SEMICOLON, kids).pay(p); self.post(n) };
            }
            9 => {
                let count = self.expr(1 + m / 8, d);
                self.loops += 1;
                let body = self.expr(m.saturating_sub(count.count()).max(1), d);
                self.loops -= 1;
                Gn::with(LOOP, vec![count, body])
            }
            10 => {
                let op = if self.r.pct(85) { self.r.pick(&[ENTITY, TEMP]) } else { self.any_code() };
                let kind = self.r.pick(&[4u8, 5]);
                let p = self.payload(kind);
                let mut variable = Gn::new(op).pay(p);
                self.more(&mut variable);
                let variable = self.post(variable);
                let array = self.expr(1 + m / 8, d);
                self.loops += 1;
                let body = self.expr(m.saturating_sub(1 + array.count()).max(1), d);
                self.loops -= 1;
                Gn::with(FOR_EACH, vec![variable, array, body])
            }
            11 => {
                let target = self.target(d);
                if self.r.pct(30) {
                    let p = self.constant();
                    return { let n = Gn::with(ASSIGNMENT, vec![target]).pay(p); self.post(n) };
                }
                let value = self.expr(m.saturating_sub(target.count()).max(1), d);
                Gn::with(ASSIGNMENT, vec![target, value])
            }
            12 => Gn::with(POINTER, self.kids(2, m, d)),
            13 => { let op = self.r.pick(&[35u8, 36]); Gn::with(op, self.kids(1, m, d)) }
            14 => { let op = self.r.pick(&[37u8, 38]); Gn::with(op, self.kids(1, m, d)) }
            15 => {
                let op = self.r.pick(&[42u8, 43]);
                let k = self.r.range(1, 6);
                let kids = self.kids(k, m, d);
                let p = self.payload(12);
                return { let n = Gn::with(op, kids).pay(p); self.post(n) };
            }
            16 => {
                let k = self.r.weighted(&[(0, 20), (1, 35), (2, 25), (3, 10), (4, 5), (5, 3), (6, 2)]);
                let loops = std::mem::replace(&mut self.loops, usize::from(self.r.pct(30)));
                let kids = if k == 0 { Vec::new() } else { self.kids(k, m, d) };
                self.loops = loops;
                let p = self.payload(11);
                return { let n = Gn::with(QUERY, kids).pay(p); self.post(n) };
            }
            17 => {
                let links = self.r.range(1, 5).min(d);
                let mut node = self.expr(m.saturating_sub(links).max(1), depth - links);
                for _ in 0..links {
                    let p = self.payload(6);
                    node = Gn::with(MEMBER, vec![node]).pay(p);
                    self.more(&mut node);
                    node = self.post(node);
                }
                return node;
            }
            _ => {
                let kids = self.kids(1, m, d);
                let p = self.payload(7);
                return { let n = Gn::with(ARRAY, kids).pay(p); self.post(n) };
            }
        };
        let p = self.idle();
        node = node.pay(p);
        self.more(&mut node);
        self.post(node)
    }
    /// A target that assignment takes.
    pub fn target(&mut self, depth: usize) -> Gn {
        let mut node = match self.r.weighted(&[(0, 35), (1, 25), (2, 6), (3, 25), (4, 4), (5, 5)]) {
            0 => { let p = self.payload(4); Gn::new(ENTITY).pay(p) }
            1 => { let p = self.payload(5); Gn::new(TEMP).pay(p) }
            2 => { let p = self.payload(5); Gn::new(ENTITY).pay(p) }
            3 if depth >= 2 => {
                let links = self.r.range(1, 5).min(depth - 1);
                let mut node = match self.r.below(6) {
                    0 | 1 => { let p = self.payload(4); Gn::new(ENTITY).pay(p) }
                    2 | 3 => { let p = self.payload(5); Gn::new(TEMP).pay(p) }
                    4 => {
                        // Its operator is not looked at, only its payload.
                        let mut w = self.wild(2, 2);
                        if w.op == MEMBER { w.op = CONTEXT; }
                        if depth - links < 2 { w.kids.clear(); }
                        w
                    }
                    _ => { let p = self.payload(3); Gn::new(CONTEXT).pay(p) }
                };
                for _ in 0..links {
                    let p = self.payload(6);
                    node = Gn::with(MEMBER, vec![node]).pay(p);
                    node = self.post(node);
                }
                return node;
            }
            4 => {
                // Storing under MemberAccessor with an Entity or Temp payload.
                let kind = self.r.pick(&[4u8, 5]);
                let p = self.payload(kind);
                Gn::new(MEMBER).pay(p)
            }
            _ => {
                let op = self.any_code();
                let p = self.payload(5);
                Gn::new(if op == POINTER { TEMP } else { op }).pay(p)
            }
        };
        self.more(&mut node);
        self.post(node)
    }
}

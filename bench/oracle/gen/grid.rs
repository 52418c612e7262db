//! The grid: every operator with every payload kind, in the places where a rule looks at it.
use crate::rng::Rng;
use crate::tree::*;
use crate::values::G;

/// A node of `op` whose children are distinct, so that the order of interning shows.
pub fn grid(out: &mut impl FnMut(Vec<u8>)) {
    let mut g = G {
        r: Rng(1), arrays: true, raw: false, posts: 0, names: 12, plain_floats: 50, long: 0, extra: 0, loops: 0,
    };
    let codes: Vec<u8> = (1..=51).chain(64..=123).collect();
    let post = |n: u32, mut node: Gn| { node.scale = 0x4000_0000 + n; node.offset = 0x4040_0000 + n; node };
    let kid = |i: usize| {
        let mut p = (100 + i as u64).to_be_bytes().to_vec();
        p.extend([1, b'k' + i as u8]);
        post(10 + i as u32, Gn::new(ENTITY).pay((4, p)))
    };
    let mut give = |root: Gn| for s in [[0, 0], [1, 1]] { out(image(&root, &s).0); };
    for &op in &codes {
        for kind in 0..13u8 {
            for k in 0..=4usize {
                let p = g.payload(kind);
                give(post(1, Gn::with(op, (0..k).map(kid).collect()).pay(p)));
            }
            // As an assignment's target, a ForEach variable, a member chain's link and a store's root.
            let p = g.payload(kind);
            let node = post(2, Gn::with(op, vec![kid(0)]).pay(p));
            let bare = Gn { kids: Vec::new(), ..node.clone() };
            // Float children (constants behind pushes).
            let lit = |i: usize| post(20 + i as u32, Gn::new(FLOAT).pay((1, (0x4100_0000 + i as u32 / 2).to_be_bytes().to_vec())));
            for k in 1..=4usize {
                let p = g.payload(kind);
                give(post(1, Gn::with(op, (0..k).map(lit).collect()).pay(p)));
            }
            let odd = Gn::new(FLOAT).pay(g.payload(kind));
            give(Gn::with(SEMICOLON, vec![Gn::with(op, vec![lit(0), odd.clone(), lit(1)]), lit(0), Gn::new(2)]));
            give(Gn::with(SEMICOLON, vec![lit(1), Gn::with(op, vec![odd, lit(0), lit(1)]), lit(0), lit(1)]));
            give(post(3, Gn::with(ASSIGNMENT, vec![node.clone()])));
            give(post(3, Gn::with(ASSIGNMENT, vec![bare.clone(), kid(3)])));
            give(post(3, Gn::with(FOR_EACH, vec![bare.clone(), kid(3), kid(4)])));
            let m = g.payload(6);
            give(post(3, Gn::with(MEMBER, vec![node.clone()]).pay(m.clone())));
            give(post(3, Gn::with(MEMBER, vec![bare.clone()]).pay(m.clone())));
            give(Gn::with(ASSIGNMENT, vec![Gn::with(MEMBER, vec![bare.clone()]).pay(m.clone()), kid(3)]));
            give(Gn::with(ASSIGNMENT, vec![Gn::with(MEMBER, vec![node.clone()]).pay(m), kid(3)]));
            // In a loop, in a statement list, in a query's argument and behind a push.
            give(Gn::with(LOOP, vec![kid(5), node.clone()]));
            give(Gn::with(SEMICOLON, vec![node.clone(), bare.clone()]));
            let q = g.payload(11);
            give(Gn::with(QUERY, vec![node.clone(), bare.clone()]).pay(q));
            give(Gn::with(MUL, vec![bare.clone(), node.clone()]));
            // First met decides: beside an array, a resource and a pointer target.
            give(Gn::with(DIV, vec![node.clone(), Gn::new(2)]));
            give(Gn::with(DIV, vec![Gn::new(4), node.clone()]));
            give(Gn::with(DIV, vec![Gn::with(ASSIGNMENT, vec![Gn::new(POINTER)]), node.clone()]));
            give(Gn::with(SEMICOLON, vec![node, Gn::new(2)]));
        }
    }
}

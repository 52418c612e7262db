//! gen --seed S --count N [--raw-text] [--style 0..12] | gen --grid: tree images on standard output, each behind its length (4 bytes, big-endian).
//! Tree i of a run depends on the seed, i, --raw-text and --style alone.
mod grid;
mod grow;
mod harm;
mod rng;
mod shapes;
mod tree;
mod values;

use rng::Rng;
use std::io::{self, BufWriter, Write};
use std::process::exit;
use tree::*;
use values::G;

/// How often each style occurs where none is asked for.
const STYLES: [(usize, usize); 13] =
    [(0, 22), (1, 20), (2, 14), (3, 5), (4, 6), (5, 5), (6, 2), (7, 3), (8, 15), (9, 5), (10, 8), (11, 1), (12, 1)];

struct Options {
    seed: u64,
    count: usize,
    raw: bool,
    style: Option<usize>,
    grid: bool,
}

fn options() -> Option<Options> {
    let mut o = Options { seed: 1, count: 1000, raw: false, style: None, grid: false };
    let mut args = std::env::args().skip(1);
    while let Some(a) = args.next() {
        match a.as_str() {
            "--seed" => o.seed = args.next()?.parse().ok()?,
            "--count" => o.count = args.next()?.parse().ok()?,
            "--raw-text" => o.raw = true,
            "--style" => o.style = Some(args.next()?.parse().ok().filter(|&s| s < STYLES.len())?),
            "--grid" => o.grid = true,
            _ => return None,
        }
    }
    Some(o)
}

impl G {
    fn new(mut r: Rng, arrays: bool, raw: bool) -> G {
        G {
            arrays,
            raw,
            posts: r.pick(&[0usize, 15, 35, 60, 90]),
            names: r.pick(&[2usize, 5, 12, 40]),
            plain_floats: r.pick(&[95usize, 60, 20, 0]),
            long: r.pick(&[0usize, 0, 0, 4, 20]),
            extra: r.pick(&[0usize, 0, 3, 8]),
            loops: 0,
            r,
        }
    }
    /// Around the most levels.
    fn levels(&mut self) -> Gn {
        let near = [(LEVELS, 40), (LEVELS + 1, 12), (LEVELS - 1, 10), (LEVELS + 2, 5), (LEVELS - 3, 8)];
        let l = self.r.weighted(&[&near[..], &[(24, 10), (15, 5), (16, 5), (64, 3), (300, 2)]].concat());
        self.names = 3;
        self.long = 0;
        let all = self.r.pct(75) && l < 100;
        if !self.r.pct(12) {
            return self.deep(l, all);
        }
        // The chain hangs where nothing is lowered.
        let under = self.deep(l - 1, all);
        Gn::with(self.r.pick(&[THIS, FLOAT, BREAK, 45]), vec![under])
    }
    fn sized(&mut self, nodes: (usize, usize), depth: (usize, usize)) -> Gn {
        let n = self.r.range(nodes.0, nodes.1);
        let d = self.r.range(depth.0, depth.1);
        self.expr(n, d)
    }
    fn styled(&mut self, style: usize) -> Gn {
        match style {
            0 => self.sized((1, 8), (1, 8)),
            1 => self.sized((6, 40), (3, 20)),
            2 => self.sized((40, 220), (4, LEVELS - 4)),
            3 => self.levels(),
            4 => { self.long = 0; self.limits() }
            5 => self.temps(),
            6 => self.wide(),
            7 => self.pools(),
            8 => {
                let mut root = self.sized((1, 60), (2, 20));
                for _ in 0..self.r.range(1, 3) { self.mutate(&mut root); }
                root
            }
            9 => { let n = self.r.range(1, 20); let d = self.r.range(1, 5); self.wild(n, d) }
            10 => self.sized((1, 60), (2, 20)),
            11 => { let t = self.r.pick(&[6144usize, 6144, 6143, 6145, 6120, 6146, 6200]); self.exact(t) }
            _ => self.reports(),
        }
    }
    /// Too long: mostly a smaller one instead.
    fn fitted(&mut self, mut root: Gn) -> Gn {
        let mut n = 150;
        while root.size() + 5 + SETTINGS > 6144 && !self.r.pct(3) {
            self.long = 0;
            let d = self.r.range(4, LEVELS - 4);
            root = self.expr(n, d);
            n = n * 3 / 4 + 1;
        }
        root
    }
}

/// Tree `i` of a run.
fn tree(o: &Options, i: usize) -> Vec<u8> {
    let mut r = Rng(o.seed.wrapping_mul(0xD134_2543_DE82_EF95) ^ (i as u64).wrapping_mul(0x2545_F491_4F6C_DD1D));
    r.next();
    let style = o.style.unwrap_or_else(|| r.weighted(&STYLES));
    r.next();
    let divisor = r.below(2) as u8;
    let arrays = r.pct(65);
    let mut g = G::new(r, arrays, o.raw);
    let root = g.styled(style);
    let root = if style == 11 { root } else { g.fitted(root) };
    let (b, at) = image(&root, &[u8::from(arrays), divisor]);
    if style == 10 { g.damage(b, at) } else { b }
}

fn put(out: &mut impl Write, b: &[u8]) -> io::Result<()> {
    out.write_all(&(b.len() as u32).to_be_bytes())?;
    out.write_all(b)
}

/// Nothing to say where the reader has read enough.
fn ended(e: io::Error) -> ! {
    if e.kind() != io::ErrorKind::BrokenPipe {
        eprintln!("gen: {e}");
    }
    exit(1)
}

fn main() {
    let Some(o) = options() else {
        eprintln!("usage: gen --seed S --count N [--raw-text] [--style 0..12] | gen --grid");
        exit(2);
    };
    let mut out = BufWriter::with_capacity(1 << 20, io::stdout().lock());
    let mut give = |b: Vec<u8>| put(&mut out, &b).unwrap_or_else(|e| ended(e));
    if o.grid {
        grid::grid(&mut give);
    } else {
        (0..o.count).for_each(|i| give(tree(&o, i)));
    }
    out.flush().unwrap_or_else(|e| ended(e));
}

//! speed: the proved `molang_build` of libcodegen.a and the genuine Rust `build`, timed in one process over the same trees.
//!
//!   speed             every class: time per tree of each side, and the ratio ours / Rust over the batches
//!   speed only CLASS  our side of one class for ever so many calls, for a profiler
//!   speed trees CLASS the framed trees of a class, for another driver
//!
//! A batch is one run through all trees of a class, again and again for about a millisecond. The sides take turns batch by batch, in
//! an order that turns round, so a busy machine burdens all alike. Time is processor time of this thread.
mod trees;

use molang_speed::{Parsed, build_alone, parse, whole};
use std::hint::black_box;
use std::io::Write;
use trees::{LONGEST, Rng, WORST};

#[link(name = "codegen", kind = "static")]
unsafe extern "C" {
    fn molang_build(tree: *const u8, tree_len: usize, ws: *mut u32, ws_len: usize, out: *mut u8, out_len: usize) -> u64;
}
unsafe extern "C" {
    fn clock_gettime(clock: i32, t: *mut [i64; 2]) -> i32;
}
const WORDS: usize = 16_384;
const ROOM: usize = 98_304;
/// CLOCK_THREAD_CPUTIME_ID.
const OF_THIS_THREAD: i32 = 3;

/// What a batch takes, in nanoseconds, and how many there are of each side.
const BATCH: f64 = 1_000_000.0;
const BATCHES: usize = 101;

fn spent() -> f64 {
    let mut t = [0i64; 2];
    unsafe { clock_gettime(OF_THIS_THREAD, &mut t) };
    (t[0] * 1_000_000_000 + t[1]) as f64
}

struct Bench {
    words: Vec<u32>,
    out: Vec<u8>,
    card: Vec<u8>,
}

impl Bench {
    fn new() -> Bench {
        Bench { words: vec![0; WORDS], out: vec![0; ROOM], card: Vec::with_capacity(ROOM) }
    }
    fn ours(&mut self, tree: &[u8]) -> u64 {
        let (w, o) = (&mut self.words, &mut self.out);
        unsafe { molang_build(tree.as_ptr(), tree.len(), w.as_mut_ptr(), w.len(), o.as_mut_ptr(), o.len()) }
    }
    fn clear(&mut self) -> u64 {
        black_box(&mut self.words[..]).fill(0);
        u64::from(black_box(&self.words)[5])
    }
}

/// A class of trees: its images, and the same as genuine nodes.
struct Class {
    name: String,
    images: Vec<Vec<u8>>,
    nodes: usize,
    parsed: Vec<Parsed>,
}

impl Class {
    fn new(name: &str, trees: &[trees::Node]) -> Class {
        let images: Vec<Vec<u8>> = trees.iter().map(trees::Node::image).collect();
        let parsed = images.iter().map(|i| parse(i).unwrap_or_else(|r| panic!("a tree of {name} is refused by {r}"))).collect();
        Class { name: name.into(), images, nodes: trees.iter().map(trees::Node::count).sum(), parsed }
    }
    fn mean(&self, total: usize) -> f64 {
        total as f64 / self.images.len() as f64
    }
    /// Both sides give the same bytes for every tree, and accept it.
    fn checked(self, b: &mut Bench) -> Class {
        for (k, tree) in self.images.iter().enumerate() {
            let (r, g) = (b.ours(tree), whole(tree, &mut b.card));
            let n = g as usize;
            if r != g || g >> 32 != 0 || b.out[..n] != b.card[..] {
                println!("DIFFERENCE: tree {k} of {}: ours {}:{}, the genuine {}:{}", self.name, r >> 32, r as u32, g >> 32, g as u32);
                std::process::exit(1);
            }
        }
        self
    }
}

#[derive(Clone, Copy)]
enum Side {
    Ours,
    Whole,
    Alone,
    Clear,
}
const SIDES: [Side; 4] = [Side::Ours, Side::Whole, Side::Alone, Side::Clear];

/// Nanoseconds a tree, over `turns` runs through the class.
fn batch(side: Side, c: &Class, b: &mut Bench, turns: usize) -> f64 {
    let mut sum = 0u64;
    let start = spent();
    for _ in 0..turns {
        for (tree, parsed) in c.images.iter().zip(&c.parsed) {
            sum = sum.wrapping_add(match side {
                Side::Ours => b.ours(black_box(tree)),
                Side::Whole => whole(black_box(tree), &mut b.card),
                Side::Alone => build_alone(black_box(parsed)),
                Side::Clear => b.clear(),
            });
        }
    }
    let took = spent() - start;
    black_box(sum);
    took / (turns * c.images.len()) as f64
}

/// All batches of all sides, in turn; the first of each side warms up and is not kept.
fn timed(c: &Class, b: &mut Bench) -> [Vec<f64>; 4] {
    let turns = SIDES.map(|s| {
        let once = batch(s, c, b, 1).max(batch(s, c, b, 1));
        ((BATCH / (once * c.images.len() as f64)) as usize).max(1)
    });
    let mut all: [Vec<f64>; 4] = Default::default();
    for round in 0..BATCHES {
        for k in 0..4 {
            let s = (round + k) % 4;
            all[s].push(batch(SIDES[s], c, b, turns[s]));
        }
    }
    all
}

/// The lower quartile, the median and the upper quartile.
fn quartiles(v: &[f64]) -> [f64; 3] {
    let mut v = v.to_vec();
    v.sort_by(f64::total_cmp);
    [v[v.len() / 4], v[v.len() / 2], v[3 * v.len() / 4]]
}
fn ratios(a: &[f64], b: &[f64]) -> [f64; 3] {
    quartiles(&a.iter().zip(b).map(|(x, y)| x / y).collect::<Vec<f64>>())
}

/// One line of figures.
fn report(c: &Class, b: &mut Bench) -> f64 {
    let [ours, whole, alone, clear] = timed(c, b);
    let ns = |v: &[f64]| quartiles(v)[1];
    let r = ratios(&ours, &whole);
    let a = ratios(&ours, &alone);
    println!(
        "{:<18} {:>4} {:>6.0} {:>6.0} | {:>8.0} {:>8.0} {:>8.0} | {:>5.2} ({:.2} to {:.2}) | {:>5.2} ({:.2} to {:.2}) | {:>5.1} %",
        c.name, c.images.len(), c.mean(c.nodes), c.mean(c.images.iter().map(Vec::len).sum()), ns(&ours), ns(&whole), ns(&alone),
        r[1], r[0], r[2], a[1], a[0], a[2], 100.0 * ns(&clear) / ns(&ours)
    );
    r[1]
}

fn head(title: &str) {
    println!("\n{title}");
    println!(
        "{:<18} {:>4} {:>6} {:>6} | {:>8} {:>8} {:>8} | {:<20} | {:<20} | {}",
        "class", "trees", "nodes", "bytes", "ours", "whole", "alone", "ours/whole", "ours/alone", "memset"
    );
}

/// The trees of a class by its name.
fn class(name: &str) -> Class {
    let mut r = Rng(20_261_116);
    let of = |r: &mut Rng, count: usize, from: usize, to: usize| -> Vec<trees::Node> {
        (0..count).map(|i| trees::random(r, from + i % (to - from + 1), 6)).collect()
    };
    let list = match name {
        "small" => of(&mut r, 100, 1, 5),
        "typical" => of(&mut r, 123, 20, 60),
        "large" => (0..16).map(|_| trees::large(&mut r)).collect(),
        n if n.starts_with("nodes ") => {
            let k = n[6..].parse().unwrap();
            of(&mut r, 16, k, k)
        }
        n => {
            let (w, k) = WORST.into_iter().find(|w| w.0 == n).unwrap_or_else(|| panic!("no class {n}"));
            vec![trees::worst(w, k)]
        }
    };
    let c = Class::new(name, &list);
    assert!(name != "large" || c.images.iter().all(|i| i.len() == LONGEST));
    c
}

fn all() {
    let mut b = Bench::new();
    println!("nanoseconds of processor time per tree, medians of {BATCHES} batches of about {:.0} ms; ratios: median (quartiles)", BATCH / 1e6);
    println!("ours: molang_build, tree bytes to program bytes. whole: the genuine build with parse and image. alone: its build only.");
    println!("memset: clearing 16,384 words once, as a share of ours.");
    head("classes");
    let mut most = 0f64;
    for n in ["small", "typical", "large"] {
        most = most.max(report(&class(n).checked(&mut b), &mut b));
    }
    head("worst cases");
    for (n, _) in WORST {
        most = most.max(report(&class(n).checked(&mut b), &mut b));
    }
    head("growth");
    for n in [1, 2, 5, 10, 20, 40, 80, 120, 160] {
        report(&class(&format!("nodes {n}")).checked(&mut b), &mut b);
    }
    head("one cost as it grows");
    for (w, steps) in [("names", [61, 122, 244]), ("posts", [95, 191, 382]), ("breaks", [81, 162, 324])] {
        for k in steps {
            report(&Class::new(&format!("{w} {k}"), &[trees::worst(w, k)]).checked(&mut b), &mut b);
        }
    }
    refused(&mut b);
    println!("\nlargest ratio ours/whole of classes and worst cases: {most:.2}");
}

/// An empty tree image is refused by question 2: what is left is the clearing.
fn refused(b: &mut Bench) {
    let c = Class { name: String::new(), images: vec![vec![]; 64], nodes: 0, parsed: (0..64).map(|_| parse(&trees::worst("loops", 1).image()).unwrap()).collect() };
    let [ours, _, _, clear] = timed(&c, b);
    println!("\nan empty image, refused 2 and the words cleared: {:.0} ns; a memset of 16,384 words by itself: {:.0} ns", quartiles(&ours)[1], quartiles(&clear)[1]);
}

fn main() {
    let args: Vec<String> = std::env::args().collect();
    match &args[1..] {
        [] => all(),
        [only, name] if only == "only" => {
            let (c, mut b) = (class(name), Bench::new());
            let turns = (2e9 / (batch(Side::Ours, &c, &mut b, 20) * c.images.len() as f64)) as usize;
            println!("{:.0} ns a tree", batch(Side::Ours, &c, &mut b, turns));
        }
        [trees, name] if trees == "trees" => {
            let mut out = std::io::stdout().lock();
            for i in class(name).images {
                out.write_all(&(i.len() as u32).to_be_bytes()).unwrap();
                out.write_all(&i).unwrap();
            }
        }
        _ => {
            eprintln!("speed | speed only CLASS | speed trees CLASS");
            std::process::exit(2);
        }
    }
}

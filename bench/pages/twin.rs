//! twin: a step of molang_pack of the static library beside a step of the same search written in Rust, in one process, on four kinds of lists.
//!
//!   twin [STEPS]  the budget of each search (5,000,000 if it is not given)
//!
//! The two take turns, and the shortest of seven rounds counts. Time is processor time of this thread. Exit status 1 if the two answer differently.
use std::cmp::Reverse;
use std::process::ExitCode;

const IMAGES: usize = 32;
const PAGE: u16 = 4096;
const ROUNDS: usize = 7;
/// CLOCK_THREAD_CPUTIME_ID.
const OF_THIS_THREAD: i32 = 3;

#[repr(C)]
#[derive(Clone, Copy, PartialEq)]
struct Packing {
    steps: u64,
    pages: [u8; IMAGES],
    refusal: u8,
    opened: u8,
    above: u8,
}

unsafe extern "C" {
    fn molang_pack(sizes: *const u16, count: usize, budget: u64) -> Packing;
    fn clock_gettime(clock: i32, t: *mut [i64; 2]) -> i32;
}

/// The bytes left on each page, the page of each image in list order, and how many pages are open.
#[derive(Clone, Copy)]
struct State {
    free: [u16; IMAGES],
    pages: [u8; IMAGES],
    opened: u8,
}

impl State {
    fn empty() -> State {
        State { free: [PAGE; IMAGES], pages: [0; IMAGES], opened: 0 }
    }
    fn put(&mut self, image: Image, p: usize) {
        self.free[p] -= image.size;
        self.pages[image.index] = p as u8;
        self.opened = self.opened.max(p as u8 + 1);
    }
}

#[derive(Clone, Copy)]
struct Image {
    size: u16,
    index: usize,
}

/// The images in order, those that are placed, and the best packing met.
struct Search {
    images: Vec<Image>,
    placed: State,
    best: State,
}

impl Search {
    /// The largest image first, equals in list order; the best is the start, each image on the first page with room.
    fn new(sizes: &[u16]) -> Search {
        let mut images: Vec<Image> = sizes.iter().zip(0..).map(|(&size, index)| Image { size, index }).collect();
        images.sort_by_key(|image| Reverse(image.size));
        let mut best = State::empty();
        for &image in &images {
            let opened = usize::from(best.opened);
            let p = (0..opened).find(|&p| image.size <= best.free[p]).unwrap_or(opened);
            best.put(image, p);
        }
        Search { images, placed: State::empty(), best }
    }

    /// The image at place `i` on page `p`, and those behind it; all are taken back. The steps taken.
    fn on_page(&mut self, i: usize, p: usize, budget: u64) -> u64 {
        let (room, opened) = (self.placed.free[p], self.placed.opened);
        self.placed.put(self.images[i], p);
        let mut steps = 1;
        if i + 1 < self.images.len() {
            steps += self.search(i + 1, budget - 1);
        } else if self.placed.opened < self.best.opened {
            self.best = self.placed;
        }
        self.placed.free[p] = room;
        self.placed.opened = opened;
        steps
    }

    /// The images from place `i` on, page by page. The steps taken.
    fn search(&mut self, i: usize, budget: u64) -> u64 {
        let size = self.images[i].size;
        let mut steps = 0;
        for p in 0..=usize::from(self.placed.opened) {
            if steps < budget && size <= self.placed.free[p] {
                steps += self.on_page(i, p, budget - steps);
            }
        }
        steps
    }
}

/// Of a list that is not refused.
fn pack(sizes: &[u16], budget: u64) -> Packing {
    let mut search = Search::new(sizes);
    let steps = if sizes.is_empty() { 0 } else { search.search(0, budget) };
    let State { pages, opened, .. } = search.best;
    let total: u32 = sizes.iter().map(|&size| u32::from(size)).sum();
    let bound = total.div_ceil(u32::from(PAGE));
    Packing { steps, pages, refusal: 0, opened, above: opened - bound as u8 }
}

fn proved(sizes: &[u16], budget: u64) -> Packing {
    unsafe { molang_pack(sizes.as_ptr(), sizes.len(), budget) }
}

fn spent() -> i64 {
    let mut t = [0; 2];
    unsafe { clock_gettime(OF_THIS_THREAD, &mut t) };
    t[0] * 1_000_000_000 + t[1]
}

/// The answer, and the nanoseconds that a step took.
fn timed(pack: fn(&[u16], u64) -> Packing, sizes: &[u16], budget: u64) -> (Packing, f64) {
    let start = spent();
    let answer = pack(sizes, budget);
    (answer, (spent() - start) as f64 / answer.steps as f64)
}

fn lists() -> [(&'static str, Vec<u16>); 4] {
    [
        ("thirds of a page", (0..32).map(|i| 1365 - i * 7).collect()),
        ("many sizes", (0..32).map(|i| 200 + i * 37 % 900).collect()),
        ("halves of a page", (0..32).map(|i| 2048 - i % 2 * 9).collect()),
        ("small images", vec![64; 32]),
    ]
}

fn main() -> ExitCode {
    let budget = std::env::args().nth(1).map_or(5_000_000, |n| n.parse().expect("STEPS is a number"));
    let mut same = true;
    for (name, sizes) in lists() {
        let (mut ours, mut rust) = (f64::MAX, f64::MAX);
        for _ in 0..ROUNDS {
            let (a, ns) = timed(proved, &sizes, budget);
            ours = ours.min(ns);
            let (b, ns) = timed(pack, &sizes, budget);
            rust = rust.min(ns);
            same &= a == b && a.steps > 0;
        }
        println!("{name:18} {ours:6.2} ns a step, Rust {rust:6.2}, ratio {:.2}", ours / rust);
    }
    if same {
        println!("the two agree on each list");
        return ExitCode::SUCCESS;
    }
    eprintln!("the two answer differently");
    ExitCode::FAILURE
}

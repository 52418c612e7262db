//! One call of `molang_build` with everything around it checked, and all calls that are made on a tree.
use crate::count::{Counts, Wrong};
use crate::fault::{self, Watched};
use crate::pens::{GUARD, Pen};

#[link(name = "codegen", kind = "static")]
unsafe extern "C" {
    fn molang_build(tree: *const u8, tree_len: usize, ws: *mut u32, words: usize, out: *mut u8, out_len: usize) -> u64;
}

/// The words that a workspace must have.
pub const WORDS: usize = 16_384;
/// Words lent beyond these.
pub const SPARE: usize = 6;
/// More than any program image that was seen (56,827 bytes, of a tree of at most 6,144).
pub const ROOM: usize = 65_536;

pub struct Bench {
    tree: Pen,
    ws: Pen,
    out: Pen,
    /// Bytes to dirty the buffers with, none of them 0; a call takes them from a place of its own.
    dirt: Vec<u8>,
    pub counts: Counts,
}

/// What a call must answer and leave.
pub struct Want<'a> {
    pub answer: u64,
    pub image: &'a [u8],
    /// The workspace is cleared; where it is too short, it is unchanged.
    pub cleared: bool,
}

pub fn refused(number: u64) -> Want<'static> {
    Want { answer: number << 32, image: &[], cleared: number != 1 }
}

pub fn accepted(image: &[u8]) -> Want<'_> {
    Want { answer: image.len() as u64, image, cleared: true }
}

fn shown(answer: u64) -> String {
    format!("{}:{}", answer >> 32, answer as u32)
}

fn dirt(n: usize) -> Vec<u8> {
    let mut x = 20_261_116u32;
    let mut next = || {
        x = x.wrapping_mul(1_664_525).wrapping_add(1_013_904_223);
        (x >> 24) as u8
    };
    (0..n).map(|_| next().max(1)).collect()
}

impl Bench {
    /// Stays where it is: the handler of signals looks at it.
    pub fn new() -> &'static mut Bench {
        let pens = [Pen::new(16 << 20), Pen::new(4 * (WORDS + SPARE)), Pen::new(ROOM)];
        let [tree, ws, out] = pens;
        let b = Box::leak(Box::new(Bench { tree, ws, out, dirt: dirt(4 * (WORDS + SPARE) + ROOM + 8192), counts: Counts::default() }));
        let pens = [("beside the tree", &raw const b.tree), ("beside the workspace", &raw const b.ws), ("beside the output", &raw const b.out)];
        fault::watch(Watched { counts: &raw const b.counts, pens });
        b
    }

    /// One call with checks.
    pub fn call(&mut self, what: &str, tree: &[u8], words: usize, room: usize, want: &Want, wrong: &mut Vec<Wrong>) {
        self.counts.calls += 1;
        let end = self.counts.calls % 2 == 0;
        // Where the dirt starts: a different place in each call (a multiple of 4 that 1,021 calls do not repeat).
        let d = (self.counts.calls as usize % 1021) * 4;
        let (t, w, o) = (self.tree.place(tree.len(), end), self.ws.place(4 * words, end), self.out.place(room, end));
        t.fill(tree, &self.dirt[d..d + GUARD]);
        w.fill(&self.dirt[d..d + 4 * words], &self.dirt[d + 1..d + 1 + GUARD]);
        o.fill(&self.dirt[d + 2..d + 2 + room], &self.dirt[d + 3..d + 3 + GUARD]);
        let got = unsafe { molang_build(t.at, t.n, w.at as *mut u32, words, o.at, room) };
        let n = want.image.len();
        let cleared = if want.cleared { 4 * WORDS } else { 0 };
        let mut see = |right: bool, buffer: bool, words: &str| {
            if !right {
                wrong.push(Wrong { buffer, words: format!("{what}: {words}") });
            }
        };
        see(got == want.answer, false, &format!("answer {}, expected {}", shown(got), shown(want.answer)));
        if let Some(i) = (0..n).find(|&i| o.bytes()[i] != want.image[i]) {
            see(false, false, &format!("byte {i} of {n} is {}, expected {}", o.bytes()[i], want.image[i]));
        }
        see(o.bytes()[n..] == self.dirt[d + 2 + n..d + 2 + room], true, "output beyond the length changed");
        see(o.guards() == &self.dirt[d + 3..d + 3 + GUARD], true, "bytes beside the output changed");
        see(w.bytes()[..cleared].iter().all(|&b| b == 0), true, "a workspace word is not zero");
        see(w.bytes()[cleared..] == self.dirt[d + cleared..d + 4 * words], true, "workspace words changed that must stay");
        see(w.guards() == &self.dirt[d + 1..d + 1 + GUARD], true, "bytes beside the workspace changed");
        see(t.bytes() == tree && t.guards() == &self.dirt[d..d + GUARD], true, "the tree or bytes beside it changed");
    }

    /// All calls on one tree.
    pub fn tree(&mut self, tree: &[u8], refusal: u32, image: &[u8]) {
        self.counts.trees += 1;
        if refusal == 0 { self.counts.accepted += 1 } else { self.counts.refused[refusal as usize] += 1 }
        let mut wrong = Vec::new();
        let n = image.len();
        let own = if refusal == 0 { accepted(image) } else { refused(refusal.into()) };
        let short = refused(if refusal == 0 { 9 } else { refusal.into() });
        self.call("full room", tree, WORDS + SPARE, ROOM, &own, &mut wrong);
        self.call("exact room", tree, WORDS, n, &own, &mut wrong);
        self.call("one byte short", tree, WORDS + SPARE, if n > 0 { n - 1 } else { 1 }, &short, &mut wrong);
        self.call("no room", tree, WORDS + SPARE, 0, &short, &mut wrong);
        self.call("a word short", tree, WORDS - 1, ROOM, &refused(1), &mut wrong);
        let calls = self.counts.calls as usize;
        if calls % 8 < 5 {
            self.call("a short workspace", tree, calls * 7919 % WORDS, n, &refused(1), &mut wrong);
        }
        self.call("some room", tree, WORDS, n + 1 + calls * 31 % 997, &own, &mut wrong);
        self.counts.tell(tree.len(), &wrong);
    }

    /// On one accepted tree: workspaces of 0 to 16,383 words, outputs of each length up to 40 bytes more than the image, and empty slices.
    pub fn boundary(&mut self, tree: &[u8], image: &[u8]) {
        let mut wrong = Vec::new();
        for words in 0..WORDS {
            self.call("workspace of fewer words", tree, words, ROOM, &refused(1), &mut wrong);
        }
        for words in WORDS..=WORDS + SPARE {
            for room in 0..=image.len() + 40 {
                let want = if room < image.len() { refused(9) } else { accepted(image) };
                self.call("output of each length", tree, words, room, &want, &mut wrong);
            }
        }
        self.nothing(tree, &mut wrong);
        wrong.truncate(5);
        self.counts.tell(tree.len(), &wrong);
    }

    /// Empty slices, null and dangling.
    fn nothing(&mut self, tree: &[u8], wrong: &mut Vec<Wrong>) {
        let (t, n) = (tree.as_ptr(), tree.len());
        let (mut ws, mut out) = (vec![7u32; WORDS], vec![0u8; ROOM]);
        let (w, o) = (ws.as_mut_ptr(), out.as_mut_ptr());
        let (null, dangling, null32) = (std::ptr::null_mut::<u8>(), std::ptr::without_provenance_mut::<u8>(1), std::ptr::null_mut::<u32>());
        let mut see = |what: &str, got: u64, number: u64| {
            self.counts.calls += 1;
            if got != number << 32 {
                wrong.push(Wrong { buffer: false, words: format!("{what}: answer {}, expected {number}:0", shown(got)) });
            }
        };
        unsafe {
            see("null tree", molang_build(null, 0, w, WORDS, o, ROOM), 2);
            see("dangling tree", molang_build(dangling, 0, w, WORDS, o, ROOM), 2);
            see("null workspace", molang_build(t, n, null32, 0, o, ROOM), 1);
            see("null output", molang_build(t, n, w, WORDS, null, 0), 9);
            see("dangling output", molang_build(t, n, w, WORDS, dangling, 0), 9);
            see("all null", molang_build(null, 0, null32, 0, null, 0), 1);
        }
    }
}

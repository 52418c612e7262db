//! drive TREES ANSWERS COUNT: the static library's `molang_build` against the genuine build's answers.
//!
//! TREES: length (4 bytes, big-endian) and tree image, COUNT times. ANSWERS: refusal (4), length (4), program image for each.
//! A line for each tree with a difference, then the closing line. Exit status 1 if there is one, or if the files are not whole.
mod calls;
mod count;
mod fault;
mod pens;

use calls::Bench;
use std::fs::File;
use std::io::{self, BufReader, Read};
use std::process::exit;

/// The longest program image with which every length of output is tried.
const SMALL: usize = 300;

fn number(r: &mut impl Read) -> io::Result<u32> {
    let mut b = [0; 4];
    r.read_exact(&mut b)?;
    Ok(u32::from_be_bytes(b))
}

fn part(r: &mut impl Read) -> io::Result<Vec<u8>> {
    let mut b = vec![0; number(r)? as usize];
    r.read_exact(&mut b)?;
    Ok(b)
}

fn open(path: &str) -> io::Result<BufReader<File>> {
    Ok(BufReader::with_capacity(1 << 20, File::open(path)?))
}

fn run(trees: &str, answers: &str, count: u64) -> io::Result<bool> {
    let (mut trees, mut answers) = (open(trees)?, open(answers)?);
    let bench = Bench::new();
    let mut bounds = false;
    for _ in 0..count {
        let tree = part(&mut trees)?;
        let refusal = number(&mut answers)?;
        let image = part(&mut answers)?;
        if refusal > 8 || refusal == 1 || (refusal != 0 && !image.is_empty()) {
            return Err(io::Error::other("an answer that is none"));
        }
        bench.tree(&tree, refusal, &image);
        if !bounds && refusal == 0 && image.len() <= SMALL {
            bench.boundary(&tree, &image);
            bounds = true;
        }
    }
    println!("{}", bench.counts.answers());
    println!("{}", bench.counts.closing(bench.counts.faults));
    Ok(bench.counts.differences + bench.counts.faults == 0)
}

fn main() {
    let args: Vec<String> = std::env::args().skip(1).collect();
    let [trees, answers, count] = &args[..] else {
        eprintln!("usage: drive TREES ANSWERS COUNT");
        exit(2);
    };
    match run(trees, answers, count.parse().expect("COUNT is a number")) {
        Ok(true) => exit(0),
        Ok(false) => exit(1),
        Err(e) => {
            println!("the trees or their answers are not whole: {e}");
            exit(1);
        }
    }
}

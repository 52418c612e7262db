//! oracle [--bytes] < TREES > ANSWERS: the genuine build's answers.
//!
//! TREES: length (4 bytes, big-endian) and tree image, again and again. ANSWERS: refusal (4), length (4), program image for each.
//! A tree with a text that is not UTF-8 is answered 255; with --bytes texts pass as they are.
use std::io::{self, BufReader, BufWriter, Read, Write};
use std::process::exit;

fn answer(image: &[u8], bytes: bool) -> (u32, Vec<u8>) {
    match tree::decode(image) {
        Err(refusal) => (refusal, Vec::new()),
        Ok(tree) if !tree.utf8 && !bytes => (255, Vec::new()),
        Ok(tree) => {
            let l = molang::lower(&tree, bytes);
            (l.refusal, l.image)
        }
    }
}

fn run(bytes: bool) -> io::Result<()> {
    let mut input = BufReader::with_capacity(1 << 20, io::stdin().lock());
    let mut output = BufWriter::with_capacity(1 << 20, io::stdout().lock());
    let mut len = [0u8; 4];
    while input.read(&mut len[..1])? != 0 {
        input.read_exact(&mut len[1..])?;
        let mut image = vec![0u8; u32::from_be_bytes(len) as usize];
        input.read_exact(&mut image)?;
        let (refusal, program) = answer(&image, bytes);
        output.write_all(&refusal.to_be_bytes())?;
        output.write_all(&(program.len() as u32).to_be_bytes())?;
        output.write_all(&program)?;
    }
    output.flush()
}

fn main() {
    let args: Vec<String> = std::env::args().skip(1).collect();
    if args.iter().any(|a| a != "--bytes") {
        eprintln!("usage: oracle [--bytes] < TREES > ANSWERS");
        exit(2);
    }
    if let Err(e) = run(!args.is_empty()) {
        // nothing to say where the reader has read enough
        if e.kind() != io::ErrorKind::BrokenPipe {
            eprintln!("oracle: {e}");
        }
        exit(1);
    }
}

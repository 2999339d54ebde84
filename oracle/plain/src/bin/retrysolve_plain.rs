//! `retrysolve` by the plain reading: "reads file `graph` and up to 4,096
//! little-endian words of 8 bytes from standard input".

use std::fs::File;
use std::io::{stdin, stdout, Read, Write};

fn main() {
    let file = File::open("graph").ok().map(|file| read(file, 65_537));
    let input = read(stdin(), 8 * plain::program::MOST_WORDS as u64);
    let text = plain::program::prints(file.as_deref(), &input);
    let _ = stdout().write_all(text.as_bytes());
}

/// At most so many bytes; what can't be read (a folder) counts as empty.
fn read(from: impl Read, most: u64) -> Vec<u8> {
    let mut bytes = Vec::new();
    let _ = from.take(most).read_to_end(&mut bytes);
    bytes
}

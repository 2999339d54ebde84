//! `retrylist` by the plain reading: prints the listing of file `graph`.

use std::fs::File;
use std::io::{stdout, Read, Write};

fn main() {
    let file = File::open("graph").ok().map(read);
    let text = plain::program::lists(file.as_deref());
    let _ = stdout().write_all(text.as_bytes());
}

/// At most 65,537 bytes; what can't be read (a folder) counts as empty.
fn read(file: File) -> Vec<u8> {
    let mut bytes = Vec::new();
    let _ = file.take(65_537).read_to_end(&mut bytes);
    bytes
}

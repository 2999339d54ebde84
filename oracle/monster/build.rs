//! Writes monster.rs, patched in two ways, and the lines that make modules of it; and
//! the listing, cut out of two other files.

mod cuts;
mod patches;

use cuts::{Piece, ENGINE, LISTING, SOLVER};
use patches::{Patch, TIMED, WATCHED};
use std::{env, fs, path::Path};

const ORIGINAL: &str = "../original/monster.rs";

fn main() {
    for read in [
        ORIGINAL,
        ENGINE,
        SOLVER,
        "build.rs",
        "cuts.rs",
        "patches.rs",
    ] {
        println!("cargo:rerun-if-changed={read}");
    }

    let original = read(ORIGINAL);
    let modules = [
        module("monster", &patch(&original, &WATCHED)),
        module("timed", &patch(&original, &TIMED)),
    ];
    write("modules.rs", &modules.concat());
    write("listing.rs", &LISTING.iter().map(piece).collect::<String>());
}

fn read(original: &str) -> String {
    fs::read_to_string(original).expect("the original is part of the repository")
}

/// Writes a module's text under the original's name, which a panic names, and
/// answers the lines that make a module of it. include! would refuse the attributes
/// at the top of the file, a module takes them.
fn module(name: &str, text: &str) -> String {
    let path = write(&format!("{name}/monster.rs"), text);
    format!("#[path = {path:?}]\nmod {name};\n")
}

fn write(name: &str, text: &str) -> String {
    let out = env::var("OUT_DIR").expect("cargo sets OUT_DIR");
    let path = Path::new(&out).join(name);
    let folder = path.parent().expect("a file is in a folder");
    fs::create_dir_all(folder).expect("OUT_DIR can be written");
    fs::write(&path, text).expect("OUT_DIR can be written");
    path.display().to_string()
}

/// Every patch matches once in the original and keeps the number of lines, so
/// that a panic names the original's line.
fn patch(original: &str, patches: &[Patch]) -> String {
    let mut text = original.to_owned();
    for (old, new) in patches {
        assert_eq!(original.matches(old).count(), 1, "matches once: {old}");
        assert_eq!(
            text.matches(old).count(),
            1,
            "no other patch touches: {old}"
        );
        assert!(
            !old.contains('\n') && !new.contains('\n'),
            "one line: {old}"
        );
        text = text.replacen(old, new, 1);
    }
    text
}

fn piece(piece: &Piece) -> String {
    match piece {
        Piece::Cut(original, from, to) => {
            let text = read(original);
            text[place(&text, from)..place(&text, to)].to_owned()
        }
        Piece::Rest(original, from) => {
            let text = read(original);
            text[place(&text, from)..].to_owned()
        }
        Piece::Written(text) => (*text).to_owned(),
    }
}

/// Where the text stands, which is one place alone.
fn place(original: &str, text: &str) -> usize {
    assert_eq!(original.matches(text).count(), 1, "matches once: {text}");
    original.find(text).expect("it matches")
}

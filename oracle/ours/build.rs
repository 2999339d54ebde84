//! Takes the static library of the proved crates: linked where it is for this
//! processor, else behind the bridge, a program that an emulator runs.

use std::{env, fs, path::Path, process::Command};

fn main() {
    let beside = concat!(env!("CARGO_MANIFEST_DIR"), "/../../target/staticlib");
    let dir = env::var("FFI_LIB_DIR").unwrap_or(beside.to_owned());
    let library = Path::new(&dir).join("libffi.a");
    let library = fs::canonicalize(&library).unwrap_or(library);
    println!("cargo:rerun-if-env-changed=FFI_LIB_DIR");
    println!("cargo:rerun-if-changed={}", library.display());
    println!("cargo:rerun-if-changed=bridge.c");
    println!("cargo:rerun-if-changed=memory.c");
    println!("cargo:rustc-check-cfg=cfg(linked)");

    let bytes = fs::read(&library)
        .unwrap_or_else(|_| panic!("no {library:?}: `tools/static-library` makes it"));
    if machine(&bytes) == target() {
        println!("cargo:rustc-cfg=linked");
        let dir = library.parent().expect("a file is in a folder");
        println!("cargo:rustc-link-search=native={}", dir.display());
        // A static library is looked for in that folder alone: many systems have
        // another one of this name.
        println!("cargo:rustc-link-lib=static=ffi");
    } else {
        println!("cargo:rustc-env=BRIDGE={}", bridge(&library));
    }
}

/// The processor that the first object file of an archive is for.
fn machine(archive: &[u8]) -> Option<u8> {
    let start = archive.windows(4).position(|bytes| bytes == b"\x7fELF")?;
    archive.get(start + 18).copied()
}

/// The number that ELF gives the processor that this build is for.
fn target() -> Option<u8> {
    match env::var("CARGO_CFG_TARGET_ARCH").as_deref() {
        Ok("x86_64") => Some(62),
        Ok("aarch64") => Some(183),
        _ => None,
    }
}

/// Builds the bridge with the library in it, without a C library.
fn bridge(library: &Path) -> String {
    let out = env::var("OUT_DIR").expect("cargo sets OUT_DIR");
    let bridge = format!("{out}/bridge");
    let mut clang = Command::new("clang");
    clang.args(["--target=x86_64-unknown-linux-gnu", "-O2", "-ffreestanding"]);
    clang.args(["-nostdlib", "-static", "-fuse-ld=lld", "-o", &bridge]);
    let built = clang.args(["bridge.c", "memory.c"]).arg(library).status();
    let good = built.is_ok_and(|status| status.success());
    assert!(good, "clang and lld build the bridge");
    bridge
}

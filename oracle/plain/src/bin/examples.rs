//! `write_examples FOLDER` writes every folder of `plain::examples` into FOLDER anew
//! (the project's `examples/`). It leaves README.md and `run` as they are.

use std::path::Path;
use std::{env, fs, io};

fn main() -> io::Result<()> {
    let Some(folder) = env::args_os().nth(1) else {
        eprintln!("usage: write_examples FOLDER");
        std::process::exit(2);
    };
    let folder = Path::new(&folder);
    remove(&folder.join("cases"))?;
    let all = plain::examples::all();
    for example in &all {
        let place = folder.join(&example.name);
        remove(&place)?;
        fs::create_dir_all(&place)?;
        for (name, content) in example.files() {
            fs::write(place.join(name), content)?;
        }
    }
    println!("{} folders written", all.len());
    Ok(())
}

/// Removes a folder written before, if there is one.
fn remove(folder: &Path) -> io::Result<()> {
    match fs::remove_dir_all(folder) {
        Err(error) if error.kind() != io::ErrorKind::NotFound => Err(error),
        _ => Ok(()),
    }
}

//! The static library in a program of its own, which an emulator runs.

use crate::{Queue, Result};
use std::{
    cell::RefCell,
    env,
    io::{self, Read, Write},
    process::{Child, Command, Stdio},
};

thread_local! {
    static BRIDGE: RefCell<Child> = RefCell::new(start());
}

fn start() -> Child {
    let Ok(emulator) = env::var("FFI_EMULATOR") else {
        eprintln!("the static library is for another processor: FFI_EMULATOR names its emulator");
        std::process::exit(2);
    };
    let mut command = Command::new(emulator);
    command.arg(env!("BRIDGE"));
    command.stdin(Stdio::piped()).stdout(Stdio::piped());
    command.spawn().expect("the emulator starts")
}

/// The answers to a block of messages.
pub fn answer(block: &mut [u64]) -> Vec<u64> {
    BRIDGE.with_borrow_mut(|bridge| {
        send(bridge, block).expect("the bridge reads");
        receive(bridge).expect("the bridge answers")
    })
}

/// The bridge reads a whole block before it writes, so neither waits for the other.
fn send(bridge: &mut Child, block: &[u64]) -> io::Result<()> {
    let numbers = std::iter::once(block.len() as u64).chain(block.iter().copied());
    let bytes: Vec<u8> = numbers.flat_map(u64::to_le_bytes).collect();
    let input = bridge.stdin.as_mut().expect("a pipe");
    input.write_all(&bytes)?;
    input.flush()
}

fn receive(bridge: &mut Child) -> io::Result<Vec<u64>> {
    let output = bridge.stdout.as_mut().expect("a pipe");
    let mut count = [0; 8];
    output.read_exact(&mut count)?;
    let mut bytes = vec![0; 8 * u64::from_le_bytes(count) as usize];
    output.read_exact(&mut bytes)?;
    let (eights, _) = bytes.as_chunks();
    Ok(eights
        .iter()
        .map(|eight| u64::from_le_bytes(*eight))
        .collect())
}

pub fn bitvec(op: u64, a: u64, b: u64) -> [u64; 2] {
    let mut queue = Queue::default();
    queue.bitvec((), op, a, b);
    let mut found = [0; 2];
    queue.answer(|(), answer| found.copy_from_slice(answer));
    found
}

pub fn solve(file: &[u8], words: &[u64], budget: u32, values: &mut [u64]) -> Result {
    let mut queue = Queue::default();
    queue.lend_file(file);
    queue.lend_words(words);
    queue.solve((), budget, values);
    let mut result = Result::default();
    queue.answer(|(), answer| {
        let (found, left) = answer.split_at(result.len());
        result.copy_from_slice(found);
        values.copy_from_slice(left);
    });
    result
}

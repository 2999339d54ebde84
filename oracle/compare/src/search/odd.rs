//! What a search refuses: damaged files, value buffers of another length, too few
//! words, and several of these at once.

use super::trace::Case;
use crate::{numbers::Random, report::Asked};
use plain::{
    search::{solve_unlogged, Run},
    Refusal,
};

#[derive(Debug)]
pub struct Odd {
    pub file: Vec<u8>,
    pub words: Vec<u64>,
    pub budget: u32,
    pub room: usize,
}

impl Asked for Odd {
    fn size(&self) -> Vec<u64> {
        vec![
            self.file.len() as u64,
            self.words.len() as u64,
            self.room as u64,
            self.budget.into(),
        ]
    }
}

impl Odd {
    /// The case as it is: its root may be a constant other than 1.
    pub fn new(case: &Case) -> Odd {
        Odd {
            file: case.file(),
            words: case.words.clone(),
            budget: case.budget,
            room: case.plan.nodes.len(),
        }
    }

    /// The case with one thing about it changed, or more.
    pub fn changed(case: &Case, random: &mut Random) -> Odd {
        let mut odd = Odd::new(case);
        let changes = 1 + random.below(7);
        if changes & 1 > 0 {
            odd.room = other_room(odd.room, random);
        }
        if changes & 2 > 0 {
            let least = odd.words.len().min(odd.room) as u64;
            odd.words.truncate(random.below(1 + least) as usize);
        }
        if changes & 4 > 0 {
            damage(&mut odd.file, random);
        }
        odd
    }

    /// Which a later edition may accept.
    pub fn is_version_2(&self) -> bool {
        let [.., a, b, c, d, _, _, _, _] = *self.file else {
            return false;
        };
        u32::from_le_bytes([a, b, c, d]) == 2
    }

    pub fn run(&self) -> Result<Run, Refusal> {
        solve_unlogged(&self.file, &self.words, self.budget, self.room)
    }
}

fn other_room(room: usize, random: &mut Random) -> usize {
    match random.below(3) {
        0 => 0,
        1 => room - 1,
        _ => room + 1 + random.below(3) as usize,
    }
}

fn damage(file: &mut Vec<u8>, random: &mut Random) {
    let length = file.len();
    let place = random.below(length as u64) as usize;
    match random.below(64) {
        0 => drop(file.splice(0..0, vec![0; 65_537 - length])),
        1..8 => file.truncate(place),
        8..24 => damage_trailer(file, random),
        24..32 => file[place] ^= 1 << random.below(8),
        32..44 => damage_operand(file, random),
        _ => file[place] = random.below(12) as u8,
    }
}

/// The place of an operand holds the id of any node, or one that is none.
fn damage_operand(file: &mut [u8], random: &mut Random) {
    let trailer = file.len() - 16;
    let count = trailer as u64 / 16;
    let record = trailer - 16 * (1 + random.below(count) as usize);
    let at = record + 4 + 4 * random.below(2) as usize;
    file[at..at + 4].copy_from_slice(&(random.below(count + 1) as u32).to_le_bytes());
}

/// Any field but the version, or a version that no edition has.
fn damage_trailer(file: &mut [u8], random: &mut Random) {
    let field = random.below(4) as usize;
    let number = match field {
        2 => [0, 3, 4, 257][random.below(4) as usize],
        _ => random.below(file.len() as u64) as u32,
    };
    let at = file.len() - 16 + 4 * field;
    file[at..at + 4].copy_from_slice(&number.to_le_bytes());
}

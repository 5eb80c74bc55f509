//! What differs between two saved chips (02 Difference): numbers of the form side by side, each with
//! the one that the other chip has under the same key at the same place.

use std::collections::HashMap;

use crate::chip::Chip;
use crate::saved;

/// D214. `text` is the one that was refused, 1 or 2, or 0 if both are good. `count` is of all
/// numbers that differ, listed or not.
#[derive(Clone, Debug, PartialEq, Eq)]
pub struct Compared {
    pub number: u64,
    pub text: u64,
    pub line: u64,
    pub count: u64,
    pub listing: Vec<u8>,
}

/// Two texts, and how many bytes there are for the listing. That these are few refuses nothing.
pub fn compare(first: &[u8], second: &[u8], room: usize) -> Compared {
    let refused = |text, line| Compared { number: 8, text, line, count: 0, listing: Vec::new() };
    let first = match saved::read(first) {
        Ok(chip) => chip,
        Err(line) => return refused(1, line),
    };
    let second = match saved::read(second) {
        Ok(chip) => chip,
        Err(line) => return refused(2, line),
    };
    let lines = differences(&first, &second);
    let listing = those_that_fit(&lines, room);
    Compared { number: 0, text: 0, line: 0, count: lines.len() as u64, listing }
}

/// D212, D213: the whole listing, line by line, each with its newline. The lines that only one chip
/// has, of the upper half of an EEPROM, are passed over.
pub fn differences(first: &Chip, second: &Chip) -> Vec<String> {
    let theirs: HashMap<String, Vec<u64>> = form(second).into_iter().collect();
    let mut lines = Vec::new();
    for (key, numbers) in form(first) {
        let others = theirs.get(&key).into_iter().flatten();
        for (place, (one, other)) in numbers.iter().zip(others).enumerate() {
            if one != other {
                lines.push(format!("{key},{place},{one},{other}\n"));
            }
        }
    }
    lines
}

fn form(chip: &Chip) -> Vec<saved::Line> {
    saved::form(chip.part, &chip.device, &chip.eeprom, &chip.id)
}

/// D215: it stops at the first that does not fit, however short the next ones are.
fn those_that_fit(lines: &[String], room: usize) -> Vec<u8> {
    let mut listing = Vec::new();
    for line in lines {
        if listing.len() + line.len() > room {
            break;
        }
        listing.extend(line.bytes());
    }
    listing
}

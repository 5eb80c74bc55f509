//! Pairs of saved texts for a comparison: a chip, and the same, one much like it, the same as another
//! part, or one that has nothing to do with it. Some texts are in the older form, some are spoiled.

use super::spoiled::Line;
use super::{chip, spoil, text_of, Random, Way};
use crate::chip::*;
use crate::saved;

/// The pair with this index of a seed's.
pub fn saved_pair(seed: u64, index: u64) -> [Vec<u8>; 2] {
    let mut random = Random::new(seed ^ index.wrapping_mul(0xA24B_AED4_963E_E407));
    let first = chip(&mut random);
    let text = text_of(&first);
    let second = match random.below(9) {
        0 => text.clone(),
        1..=3 => changed(&mut random, &text, 1),
        4 => {
            let count = 2 + random.below(30);
            changed(&mut random, &text, count)
        }
        5 => other_part(&mut random, &first, 2),
        6 => {
            let steps = random.pick(&[1, 3]);
            other_part(&mut random, &first, steps)
        }
        _ => text_of(&chip(&mut random)),
    };
    let mut pair = [text, second];
    // Which of the two: bit 0 for the first, bit 1 for the second.
    let older = random.pick(&[0, 0, 0, 1, 2, 3]);
    let bad = random.pick(&[0, 0, 0, 0, 0, 0, 0, 0, 0, 1, 2, 3]);
    for (k, text) in pair.iter_mut().enumerate() {
        if older >> k & 1 == 1 {
            *text = spoil(&mut random, text, 0, Way::Older);
        }
        if bad >> k & 1 == 1 {
            let line = random.below(lines_of(text).len() as u64) as usize;
            let way = random.pick(&Way::ALL);
            *text = spoil(&mut random, text, line, way);
        }
    }
    pair
}

fn lines_of(text: &[u8]) -> Vec<&[u8]> {
    text.split_inclusive(|&b| b == b'\n').collect()
}

/// So many numbers, one after the other, become other ones that are good.
fn changed(random: &mut Random, text: &[u8], count: u64) -> Vec<u8> {
    let mut text = text.to_vec();
    for _ in 0..count {
        text = loop {
            if let Some(other) = another_number(random, &text) {
                break other;
            }
        };
    }
    text
}

/// Tries some numbers at one place. There may be none that is good: what a chip holds elsewhere
/// limits it.
fn another_number(random: &mut Random, text: &[u8]) -> Option<Vec<u8>> {
    let lines = lines_of(text);
    let at = random.below(lines.len() as u64) as usize;
    let mut line = Line::of(lines[at]);
    let place = random.below(line.numbers.len() as u64) as usize;
    let old: u64 = String::from_utf8_lossy(&line.numbers[place]).parse().ok()?;
    for _ in 0..20 {
        let limit = 1 << random.below(22);
        let (byte, any) = (u64::from(random.byte()), random.below(limit));
        let new = random.pick(&[0, 1, old + 1, old.saturating_sub(1), byte, any]);
        line.numbers[place] = new.to_string().into_bytes();
        let text = [lines[..at].concat(), line.bytes(), lines[at + 1..].concat()].concat();
        if new != old && saved::read(&text).is_ok() {
            return Some(text);
        }
    }
    None
}

/// The chip as the part so many steps further, and sometimes with a few changes more. Two steps
/// lead to the other part of its size.
fn other_part(random: &mut Random, chip: &Chip, steps: u64) -> Vec<u8> {
    let mut other = chip.clone();
    other.part = (chip.part - 1 + steps) % 4 + 1;
    let length = eeprom_length(other.part);
    other.eeprom.resize_with(length, || random.byte());
    let d = &mut other.device;
    if let Frame::Reading(Place::Eeprom(p)) | Frame::Writing(Place::Eeprom(p)) = &mut d.frame {
        *p %= length as u64;
    }
    if let Target::Eeprom(p) = &mut d.target {
        *p %= length as u64;
    }
    if !is_b_part(other.part) && d.registers[SECONDS] & 0x80 == 0 {
        d.start_up = 0;
    }
    let count = random.pick(&[0, 0, 1, 3]);
    changed(random, &text_of(&other), count)
}

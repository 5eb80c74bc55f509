//! Random chips in range: some that a tape has brought about, most from anywhere in the range, with
//! numbers at their limits.

use super::{bits_tape, events_tape, latch_tape, power_tape, tape, Random};
use crate::chip::*;
use crate::events::{debounce_ticks, number_of_edges, EVEN0, EVEN1, EVENTS, WINDOW};
use crate::saved;
use crate::tape::Tape;

pub fn chip(random: &mut Random) -> Chip {
    match random.below(6) {
        0 => after_a_tape(random).unwrap_or_else(|| any_chip(random)),
        _ => any_chip(random),
    }
}

/// The text of a chip in range.
pub fn text_of(chip: &Chip) -> Vec<u8> {
    saved::save(chip.part, &chip.device, &chip.eeprom, &chip.id, usize::MAX).expect("in range")
}

/// The chip in the middle of a random tape, if its part has come.
fn after_a_tape(random: &mut Random) -> Option<Chip> {
    let made = random.pick(&[tape, power_tape, latch_tape, bits_tape, events_tape]);
    let (seed, lines) = (random.next(), 1 + random.below(150));
    let mut state = Tape::new();
    state.feed(&made(seed, lines), &mut Vec::new());
    state.chip().cloned()
}

/// A number from 0 to `last`, often one at either end.
fn up_to(random: &mut Random, last: u64) -> u64 {
    match random.below(8) {
        0 => 0,
        1 => last.min(1),
        2 => last - last.min(1),
        3 => last,
        _ => random.below(last + 1),
    }
}

fn fill(random: &mut Random, bytes: &mut [u8]) {
    match random.below(6) {
        0 => bytes.fill(0x00),
        1 => bytes.fill(0xFF),
        _ => bytes.fill_with(|| up_to(random, 255) as u8),
    }
}

fn any_chip(random: &mut Random) -> Chip {
    let part = 1 + random.below(4);
    let mut chip = Chip::fresh(part);
    fill(random, &mut chip.eeprom);
    fill(random, &mut chip.id);
    let d = &mut chip.device;
    if !random.once_in(6) {
        fill(random, &mut d.registers);
        fill(random, &mut d.sram);
    }
    for (register, byte) in d.registers.iter_mut().enumerate() {
        *byte &= holds(register);
    }
    d.divider = up_to(random, DIVIDER - 1);
    if is_b_part(part) || d.registers[SECONDS] & 0x80 != 0 {
        d.start_up = up_to(random, START_UP);
    }
    let period = PERIODS[usize::from(d.registers[WATCHDOG] & 7)];
    d.watchdog = up_to(random, period - 1);
    d.delay = up_to(random, DELAY);
    d.pulse = up_to(random, LONG_PULSE);
    d.power = !random.once_in(5);
    d.stamp_due = !d.power && random.once_in(2);
    d.wel = random.once_in(2);
    d.protection = protection(random);
    d.lock = random.pick(&[Lock::Closed, Lock::FirstStep, Lock::Open]);
    if d.power {
        d.frame = frame(random, part);
    }
    d.loaded = up_to(random, 255) as u8;
    fill(random, &mut d.load);
    d.offset = up_to(random, 7);
    d.target = match random.below(3) {
        0 => Target::Eeprom(eeprom_address(random, part)),
        1 => Target::Id(up_to(random, 15)),
        _ => Target::Status(protection(random)),
    };
    let deaf = d.frame.code().is_some_and(|code| !heard_under_wip(code));
    if d.power && !deaf && !random.once_in(3) {
        d.countdown = up_to(random, WRITE_CYCLE);
    }
    inputs(random, d);
    chip
}

/// Levels, and the counts that 0Bh allows beside them. Its flags are often clear, so that the counts
/// can move.
fn inputs(random: &mut Random, d: &mut Device) {
    d.registers[EVENTS] &= random.pick(&[0xFF, 0x7F, 0xBF, 0x3F, 0x37]);
    let byte = d.registers[EVENTS];
    d.evls = random.below(2);
    d.evhs = random.below(2);
    if byte & EVEN1 != 0 {
        d.edges = up_to(random, number_of_edges(byte) - 1);
    }
    if d.edges > 0 {
        d.since = up_to(random, WINDOW);
    }
    if byte & EVEN0 != 0 && d.evls == 1 {
        d.debounce = up_to(random, debounce_ticks(byte));
    }
}

fn protection(random: &mut Random) -> Protection {
    Protection::from_bits(random.below(4) as u8)
}

fn eeprom_address(random: &mut Random, part: u64) -> u64 {
    up_to(random, eeprom_length(part) as u64 - 1)
}

fn frame(random: &mut Random, part: u64) -> Frame {
    let place = match random.below(3) {
        0 => Place::Eeprom(eeprom_address(random, part)),
        1 => Place::Clock(up_to(random, 255) as u8),
        _ => Place::Id(up_to(random, 15)),
    };
    let byte = match random.below(3) {
        0 => 0x55,
        1 => 0xAA,
        _ => random.byte(),
    };
    match random.below(10) {
        0 => Frame::Idle,
        1 => Frame::Empty,
        2 => Frame::Unheard,
        3 | 4 => Frame::Heard(Code::of(random.pick(&[&CODES[..], &[0]].concat()))),
        5 => Frame::Reading(place),
        6 | 7 => Frame::Writing(place),
        8 => Frame::Second(random.pick(&[
            Two::Srwrite(byte),
            Two::Unlock(byte),
            Two::Clrwdt,
            Two::Clrram,
        ])),
        _ => Frame::Over(random.pick(&[
            TooLong::Srwrite,
            TooLong::Unlock,
            TooLong::Clrwdt,
            TooLong::Clrram,
            TooLong::Eewren,
            TooLong::Eewrdi,
        ])),
    }
}

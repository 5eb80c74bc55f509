//! 01 Edges: the twelve marked P, and those that are run.

mod common;
use common::*;
use model::calendar::{next_field, next_hours};
use model::Act;

/// Steps the hundredths once: from 32,767 the divider's next tick advances them.
fn one_hundredth(time: [u8; 8]) -> [u8; 8] {
    let mut rig = Rig::new(W2K);
    rig.start_at(time);
    rig.device.divider = 32_767;
    assert_eq!(rig.wait(1), 1);
    assert_eq!(rig.device.divider, 0);
    rig.time()
}

// Seconds carry ST (bit 7 of 01h), which stays.
#[test]
fn new_year_of_the_century() {
    // From the last hundredth of 31 Dec 99 to 1 Jan 00; the week ends too.
    assert_eq!(
        one_hundredth([0x99, 0xD9, 0x59, 0x23, 0x07, 0x31, 0x12, 0x99]),
        [0x00, 0x80, 0x00, 0x00, 0x01, 0x01, 0x01, 0x00]
    );
}

#[test]
fn february_of_a_leap_year() {
    // 00 has a 29 Feb.
    assert_eq!(
        one_hundredth([0x99, 0xD9, 0x59, 0x23, 0x01, 0x28, 0x02, 0x00]),
        [0x00, 0x80, 0x00, 0x00, 0x02, 0x29, 0x02, 0x00]
    );
}

#[test]
fn february_of_a_common_year() {
    // 01 has none.
    assert_eq!(
        one_hundredth([0x99, 0xD9, 0x59, 0x23, 0x03, 0x28, 0x02, 0x01]),
        [0x00, 0x80, 0x00, 0x00, 0x04, 0x01, 0x03, 0x01]
    );
}

#[test]
fn twelve_hour_forms() {
    // 11 PM to midnight, which carries; 11 AM to noon; noon to 1 PM.
    assert_eq!(next_hours(0x71), (0x52, true));
    assert_eq!(next_hours(0x51), (0x72, false));
    assert_eq!(next_hours(0x72), (0x61, false));
    assert_eq!(
        one_hundredth([0x99, 0xD9, 0x59, 0x71, 0x01, 0x01, 0x01, 0x01]),
        [0x00, 0x80, 0x00, 0x52, 0x02, 0x02, 0x01, 0x01]
    );
    assert_eq!(
        one_hundredth([0x99, 0xD9, 0x59, 0x51, 0x01, 0x01, 0x01, 0x01]),
        [0x00, 0x80, 0x00, 0x72, 0x01, 0x01, 0x01, 0x01]
    );
}

#[test]
fn seconds_that_are_not_valid() {
    // 5Ah are no seconds: back to 00h, and the minutes step.
    assert_eq!(next_field(0x5A, 0, 59), (0x00, true));
    assert_eq!(
        one_hundredth([0x99, 0xDA, 0x08, 0x00, 0x01, 0x01, 0x01, 0x00]),
        [0x00, 0x80, 0x09, 0x00, 0x01, 0x01, 0x01, 0x00]
    );
}

#[test]
fn first_hundredth() {
    // 32,768 / 100 is between 327 and 328.
    let mut rig = Rig::new(W2K);
    rig.start_at([0, 0, 0, 0, 1, 1, 1, 0]);
    assert_eq!(rig.wait(327), 327);
    assert_eq!(rig.read(0x00), 0x00);
    assert_eq!(rig.wait(1), 1);
    assert_eq!(rig.read(0x00), 0x01);
}

#[test]
fn clock_block_rolls() {
    // The byte after 1Fh is the hundredths.
    let mut rig = Rig::new(W2K);
    rig.write(0x1F, &[0xAB, 0x42]);
    assert_eq!(rig.device.registers[0x00], 0x42);
    assert_eq!(rig.frame(&[0x13, 0x1F, 0, 0]), [None, None, Some(0x00), Some(0x42)]);
}

#[test]
fn sram_rolls() {
    // The byte after the last of the SRAM is its first.
    let mut rig = Rig::new(W2K);
    rig.write(0x5F, &[0x11, 0x22]);
    assert_eq!((rig.device.sram[63], rig.device.sram[0]), (0x11, 0x22));
    assert_eq!(rig.frame(&[0x13, 0x5F, 0, 0]), [None, None, Some(0x11), Some(0x22)]);
}

#[test]
fn page_rolls() {
    // The byte after 07h is 00h.
    let mut rig = Rig::new(W2K);
    assert!(rig.eeprom_write(0x07, &[0x12, 0x34]));
    assert_eq!(rig.wait(164), 164);
    assert_eq!((rig.eeprom[0x07], rig.eeprom[0x00], rig.eeprom[0x08]), (0x12, 0x34, 0xFF));
}

#[test]
fn quarter_of_2k() {
    // Three quarters of 256 bytes end with BFh.
    let mut rig = Rig::new(W2K);
    rig.protect(0b01);
    assert!(!rig.eeprom_write(0xC0, &[1]));
    assert!(rig.eeprom_write(0xBF, &[1]));
    assert_eq!(rig.wait(164), 164);
    assert_eq!((rig.eeprom[0xBF], rig.eeprom[0xC0]), (1, 0xFF));
}

#[test]
fn quarter_of_1k() {
    // Three quarters of 128 bytes end with 5Fh.
    let mut rig = Rig::new(B1K);
    rig.protect(0b01);
    assert!(!rig.eeprom_write(0x60, &[1]));
    assert!(rig.eeprom_write(0x5F, &[1]));
    assert_eq!(rig.wait(164), 164);
    assert_eq!((rig.eeprom[0x5F], rig.eeprom[0x60]), (1, 0xFF));
}

#[test]
fn last_tick_of_a_cycle() {
    // After 163 ticks it still runs.
    let mut rig = Rig::new(W1K);
    rig.eeprom_write(0x10, &[0x5A]);
    assert_eq!(rig.wait(163), 163);
    assert_eq!((rig.status(), rig.eeprom[0x10]), (0b0011, 0xFF));
    assert_eq!(rig.wait(100), 1);
    assert_eq!((rig.status(), rig.eeprom[0x10]), (0b0000, 0x5A));
}

#[test]
fn shortest_period() {
    // After 31 ticks it has not timed out.
    let mut rig = Rig::new(B2K);
    assert_eq!(rig.wait(32), 32);
    rig.write(0x0A, &[0x80]);
    assert_eq!(rig.wait(31), 31);
    assert_eq!((rig.read(0x0A), rig.lines()), (0x80, (1, 1)));
    assert_eq!(rig.wait(1), 1);
    assert_eq!((rig.read(0x0A), rig.lines()), (0xC0, (1, 0)));
}

#[test]
fn seven_leftover_bits() {
    // Seven are accepted, nothing is written, and WEL stays; eight are number 3. A frame without
    // a byte answers no bits.
    let mut rig = Rig::new(W2K);
    rig.enable();
    rig.frame_with(&[0x02, 0x00, 0x34], 7);
    assert_eq!((rig.device.countdown, rig.device.wel), (0, true));
    rig.select();
    rig.refused(Act::End, 8, 3);
    assert_eq!(rig.end(7), None);
}

#[test]
fn wait_of_nothing() {
    // No tick, no change, also in a cycle.
    let mut rig = Rig::new(W2K);
    rig.eeprom_write(0x00, &[1]);
    let before = rig.clone();
    assert_eq!(rig.wait(0), 0);
    assert_eq!(rig, before);
}

//! 01 Edges, the five traps.

mod common;
use common::*;
use model::calendar::next_hours;

#[test]
fn enable_works_at_its_end() {
    // 000 3.2: it is CS going high that sets the latch.
    let mut rig = Rig::new(W2K);
    rig.select();
    rig.byte(0x06);
    assert!(!rig.device.wel);
    // 000 3.2: a write in the same frame comes too early.
    for byte in [0x02, 0x00, 0x34] {
        assert_eq!(rig.byte(byte), None);
    }
    rig.end(0);
    assert_eq!((rig.device.wel, rig.device.countdown), (false, 0));
    rig.select();
    rig.byte(0x06);
    rig.end(0);
    assert!(rig.device.wel);
}

#[test]
fn page_write_stays_in_its_page() {
    // The page ends at 0Fh; 10h is the next.
    let mut rig = Rig::new(W2K);
    rig.eeprom_write(0x0E, &[1, 2, 3]);
    rig.wait(164);
    assert_eq!(rig.eeprom[0x08..0x12], [3, 0xFF, 0xFF, 0xFF, 0xFF, 0xFF, 1, 2, 0xFF, 0xFF]);
}

#[test]
fn sram_does_not_reach_60h() {
    // After 5Fh comes 20h.
    let mut rig = Rig::new(W2K);
    rig.write(0x20, &[9]);
    rig.write(0x5E, &[1, 2]);
    assert_eq!(rig.frame(&[0x13, 0x5E, 0, 0, 0])[2..], [Some(1), Some(2), Some(9)]);
}

#[test]
fn calsgn_stays_when_hours_carry() {
    // CALSGN is bit 7 of 03h.
    assert_eq!(next_hours(0xA3), (0x80, true)); // 24-hour 23 to 00
    assert_eq!(next_hours(0xF1), (0xD2, true)); // 11 PM to 12 AM
    let mut rig = Rig::new(W2K);
    rig.start_at([0x99, 0x59, 0x59, 0xA3, 7, 0x31, 0x12, 0x99]);
    rig.device.divider = 32_767;
    rig.wait(1);
    assert_eq!(rig.read(0x03), 0x80);
}

#[test]
fn wait_stops_at_an_alarm() {
    // The longest wait ends at the alarm, three seconds on.
    let mut rig = Rig::new(W2K);
    rig.start_at([0, 0, 0, 0, 1, 1, 1, 0]);
    rig.write(0x08, &[0x10]);
    rig.write(0x0C, &[0x03]);
    assert_eq!(rig.wait(16_777_216), 3 * 32_768);
    assert_eq!((rig.time()[..2].to_vec(), rig.lines()), (vec![0x00, 0x83], (0, 1)));
    assert_eq!(rig.read(0x0F), 0x08); // the flag is bit 3
}

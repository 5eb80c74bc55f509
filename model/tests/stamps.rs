//! 02 Time-stamps, with 000's table 4-1 and registers 8-1 to 8-4. Values are worked out by hand;
//! the last byte of a time-stamp is the day of the week times 20h, plus the month.

mod common;
use common::*;
use model::chip::{Device, Frame, FRESH_REGISTERS};
use model::Act;

const SECOND: u64 = 32_768;

/// 04h bit 4, bit 3.
const VBAT: u8 = 0x10;
const VBATEN: u8 = 0x08;

/// READ (13h) of 18h to 1Fh.
fn stamps(rig: &mut Rig) -> [u8; 8] {
    let replies = rig.frame(&[0x13, 0x18, 0, 0, 0, 0, 0, 0, 0, 0]);
    std::array::from_fn(|i| replies[2 + i].unwrap())
}

/// A running clock with VBATEN set, at these minutes, hours, day, date and month of the year 01.
fn running(part: u64, minutes: u8, hours: u8, day: u8, date: u8, month: u8) -> Rig {
    let mut rig = Rig::new(part);
    rig.start_at([0, 0, minutes, hours, VBATEN | day, date, month, 0x01]);
    rig
}

/// The same with other time-stamps in its record than any time here makes.
fn with_stamps(mut rig: Rig, vbat: u8) -> Rig {
    rig.device.registers[0x04] |= vbat;
    rig.device.registers[0x18..].copy_from_slice(&OTHER);
    rig
}

const OTHER: [u8; 8] = [0xA1, 0xB2, 0xC3, 0xD4, 0xE5, 0xF6, 0x87, 0x98];

#[test]
fn how_long_the_drum_stood_still() {
    for part in [W1K, W2K, B1K, B2K] {
        // 14 May, 23:58, day 3: 60h + 05h. Power is away for three minutes and a half: it comes
        // back on 15 May at 00:01, day 4: 80h + 05h.
        let mut rig = running(part, 0x58, 0x23, 3, 0x14, 0x05);
        assert_eq!(stamps(&mut rig), [0; 8]);
        rig.cut(0);
        assert_eq!(rig.device.registers[0x18..], [0x58, 0x23, 0x14, 0x65, 0, 0, 0, 0]);
        assert_eq!(rig.wait(210 * SECOND), 210 * SECOND);
        assert_eq!(rig.device.registers[0x18..], [0x58, 0x23, 0x14, 0x65, 0, 0, 0, 0]);
        rig.up();
        let both = [0x58, 0x23, 0x14, 0x65, 0x01, 0x00, 0x15, 0x85];
        assert_eq!(stamps(&mut rig), both);
        // OSCON, VBAT, VBATEN, day 4.
        assert_eq!(rig.read(0x04), 0x3C);
        // They are times of two moments: the clock goes on, they do not.
        rig.wait(90 * SECOND);
        assert_eq!((rig.read(0x02), stamps(&mut rig)), (0x03, both));
    }
}

#[test]
fn over_new_year() {
    // 31 Dec, 23:59, day 7: E0h + 12h. A minute later it is 1 Jan, 00:00, day 1: 20h + 01h.
    let mut rig = running(W2K, 0x59, 0x23, 7, 0x31, 0x12);
    rig.cut(0);
    rig.wait(60 * SECOND);
    rig.up();
    assert_eq!(stamps(&mut rig), [0x59, 0x23, 0x31, 0xF2, 0x00, 0x00, 0x01, 0x21]);
    assert_eq!(rig.read(0x07), 0x02);
}

#[test]
fn the_moment_of_the_up() {
    // The tick before midnight, and midnight; from 28 to 29 Feb 00, a leap year; days 6 and 7.
    for (ticks, second) in [(0, [0x59, 0x23, 0x28, 0xC2]), (1, [0x00, 0x00, 0x29, 0xE2])] {
        let mut rig = Rig::new(W2K);
        rig.start_at([0x99, 0x59, 0x59, 0x23, VBATEN | 6, 0x28, 0x02, 0x00]);
        rig.device.divider = 32_767;
        rig.cut(0);
        rig.wait(ticks);
        rig.up();
        assert_eq!(stamps(&mut rig)[..4], [0x59, 0x23, 0x28, 0xC2]);
        assert_eq!(stamps(&mut rig)[4..], second);
    }
}

#[test]
fn the_moment_of_the_cut() {
    // The same midnight, before the cut.
    let mut rig = Rig::new(W2K);
    rig.start_at([0x99, 0x59, 0x59, 0x23, VBATEN | 6, 0x28, 0x02, 0x00]);
    rig.device.divider = 32_767;
    rig.wait(1);
    rig.cut(0);
    rig.up();
    assert_eq!(stamps(&mut rig), [0x00, 0x00, 0x29, 0xE2, 0x00, 0x00, 0x29, 0xE2]);
}

#[test]
fn with_the_oscillator_off() {
    // The sheet's note advises against it; the time stands, so that both are the same.
    let mut rig = Rig::new(W2K);
    rig.write(0x00, &[0x10, 0x20, 0x30, 0x12, VBATEN | 2, 0x24, 0x11, 0x05]);
    rig.cut(0);
    rig.wait(300 * SECOND);
    rig.up();
    assert_eq!(stamps(&mut rig), [0x30, 0x12, 0x24, 0x51, 0x30, 0x12, 0x24, 0x51]);
    assert_eq!(rig.read(0x04), VBAT | VBATEN | 2);
}

#[test]
fn started_on_the_battery() {
    // 32 ticks to start up, then those of a minute less the last one, and the last.
    for part in [W2K, B2K] {
        for (ticks, minutes) in [(31 + 60 * SECOND, 0x44), (32 + 60 * SECOND, 0x45)] {
            let mut rig = Rig::new(part);
            rig.write(0x00, &[0x00, 0x80, 0x44, 0x12, VBATEN | 1, 0x01, 0x01, 0x00]);
            rig.cut(0);
            rig.wait(ticks);
            rig.up();
            assert_eq!(
                stamps(&mut rig),
                [0x44, 0x12, 0x01, 0x21, minutes, 0x12, 0x01, 0x21],
                "part {part}"
            );
        }
    }
}

#[test]
fn every_byte_of_minutes_date_month_and_day() {
    // Raw: all that the masks 7Fh, 3Fh and 1Fh let in, valid or not, and the day's three bits.
    let stamped = |register: usize, byte: u8| {
        let mut rig = Rig::new(W2K);
        rig.device.registers[0x04] = VBATEN;
        rig.device.registers[register] = byte;
        rig.cut(0);
        rig.up();
        stamps(&mut rig)
    };
    for minutes in 0..=0x7F {
        assert_eq!(stamped(0x02, minutes), [minutes, 0, 1, 0x01, minutes, 0, 1, 0x01]);
    }
    for date in 0..=0x3F {
        assert_eq!(stamped(0x05, date), [0, 0, date, 0x01, 0, 0, date, 0x01]);
    }
    for month in 0..=0x1F {
        assert_eq!(stamped(0x06, month), [0, 0, 1, month, 0, 0, 1, month]);
    }
    let days = [0x01, 0x21, 0x41, 0x61, 0x81, 0xA1, 0xC1, 0xE1];
    for (day, month) in (0..).zip(days) {
        assert_eq!(stamped(0x04, VBATEN | day), [0, 0, 1, month, 0, 0, 1, month]);
    }
    // Hundredths, seconds and year are in none of the eight.
    for register in [0x00, 0x01, 0x07] {
        assert_eq!(stamped(register, 0x7F), [0, 0, 1, 0x01, 0, 0, 1, 0x01]);
    }
}

#[test]
fn every_byte_of_the_hours() {
    // Bits 6:0: AM/PM and 12/24 among them, CALSGN (bit 7) not.
    for hours in 0..=0xFF {
        let mut rig = Rig::new(B2K);
        rig.write(0x03, &[hours, VBATEN | 1]);
        rig.cut(0);
        rig.up();
        let copy = hours & 0x7F;
        assert_eq!(stamps(&mut rig), [0, copy, 1, 0x21, 0, copy, 1, 0x21]);
        assert_eq!(rig.read(0x03), hours); // CALSGN itself stays
    }
}

#[test]
fn calsgn_through_a_carry() {
    // A3h is 23 o'clock with CALSGN, F1h 11 PM with it; they go to 80h and D2h.
    for (hours, first, second, last) in [(0xA3, 0x23, 0x00, 0x80), (0xF1, 0x71, 0x52, 0xD2)] {
        let mut rig = running(W2K, 0x59, hours, 1, 0x01, 0x01);
        rig.cut(0);
        rig.wait(60 * SECOND);
        rig.up();
        assert_eq!(stamps(&mut rig), [0x59, first, 0x01, 0x21, 0x00, second, 0x02, 0x41]);
        assert_eq!(rig.read(0x03), last);
    }
}

#[test]
fn twelve_hour_form() {
    // 51h is 11 AM, 72h 12 PM: noon passes, the date stays.
    let mut rig = running(W2K, 0x59, 0x51, 1, 0x01, 0x01);
    rig.cut(0);
    rig.wait(60 * SECOND);
    rig.up();
    let both = [0x59, 0x51, 0x01, 0x21, 0x00, 0x72, 0x01, 0x21];
    assert_eq!(stamps(&mut rig), both);
    // Bit 6 is that of the moment: it does not follow 03h, as 0Eh and 15h do.
    rig.write(0x03, &[0x12]);
    assert_eq!((stamps(&mut rig), rig.read(0x0E), rig.read(0x15)), (both, 0x00, 0x00));
    // Nor the other way round.
    let mut rig = running(W2K, 0x59, 0x11, 1, 0x01, 0x01);
    rig.cut(0);
    rig.up();
    rig.write(0x03, &[0x51]);
    assert_eq!(stamps(&mut rig), [0x59, 0x11, 0x01, 0x21, 0x59, 0x11, 0x01, 0x21]);
    assert_eq!((rig.read(0x0E), rig.read(0x15)), (0x40, 0x40));
}

#[test]
fn fields_that_are_not_valid() {
    // Minutes 7Fh, hours 3Fh, date 00h, month 1Fh, day 0: copied as they are. Each takes its first
    // value when the seconds carry, and carries: 00:00, day 1, 1 Jan.
    let mut rig = running(W2K, 0x7F, 0x3F, 0, 0x00, 0x1F);
    rig.cut(0);
    rig.wait(60 * SECOND);
    rig.up();
    assert_eq!(stamps(&mut rig), [0x7F, 0x3F, 0x00, 0x1F, 0x00, 0x00, 0x01, 0x21]);
}

#[test]
fn made_bits_are_not_copied() {
    // 1 Dec of a leap year: 06h reads 32h. OSCON is set: 04h reads 2Eh. The copy has day 6 and
    // month 12h: C0h + 12h.
    let mut rig = Rig::new(W2K);
    rig.start_at([0, 0, 0, 0, VBATEN | 6, 0x01, 0x12, 0x04]);
    assert_eq!((rig.read(0x04), rig.read(0x06)), (0x2E, 0x32));
    rig.cut(0);
    rig.up();
    assert_eq!(stamps(&mut rig), [0, 0, 0x01, 0xD2, 0, 0, 0x01, 0xD2]);
}

#[test]
fn what_else_a_cut_with_a_stamp_changes() {
    // VBAT, 18h to 1Bh and the mark: all else is as after any cut with a battery.
    let mut rig = with_stamps(running(W2K, 0x12, 0x34, 5, 0x06, 0x07), 0);
    let before = rig.device.clone();
    rig.cut(0xFF);
    let mut registers = before.registers;
    registers[0x04] |= VBAT;
    registers[0x18..0x1C].copy_from_slice(&[0x12, 0x34, 0x06, 0xA7]);
    let off = Device { power: false, registers, stamp_due: true, ..before };
    assert_eq!(rig.device, off);
    // An up changes 1Ch to 1Fh and the mark.
    rig.up();
    let mut registers = off.registers;
    registers[0x1C..].copy_from_slice(&[0x12, 0x34, 0x06, 0xA7]);
    assert_eq!(rig.device, Device { power: true, registers, stamp_due: false, ..off });
}

#[test]
fn a_cut_that_finds_vbat_set() {
    // It copies nothing, and its up copies nothing: only the power changes.
    for part in [W2K, B2K] {
        let mut rig = with_stamps(running(part, 0x12, 0x34, 5, 0x06, 0x07), VBAT);
        let before = rig.device.clone();
        rig.cut(0);
        assert_eq!(rig.device, Device { power: false, ..before.clone() });
        rig.up();
        assert_eq!(rig.device, before);
    }
}

#[test]
fn two_cuts_and_vbat_not_cleared() {
    // The first outage lasts from 10:10 to 10:12, the second from 10:13 to 10:14: the first stays.
    let mut rig = running(W2K, 0x10, 0x10, 2, 0x20, 0x09);
    rig.cut(0);
    rig.wait(120 * SECOND);
    rig.up();
    let both = [0x10, 0x10, 0x20, 0x49, 0x12, 0x10, 0x20, 0x49];
    assert_eq!(stamps(&mut rig), both);
    rig.wait(60 * SECOND);
    rig.cut(0);
    rig.wait(60 * SECOND);
    rig.up();
    assert_eq!((rig.read(0x02), stamps(&mut rig)), (0x14, both));
    assert_eq!(rig.read(0x04), 0x3A);
    // A third too.
    rig.cut(0);
    rig.up();
    assert_eq!(stamps(&mut rig), both);
}

#[test]
fn two_cuts_and_vbat_cleared_between() {
    let mut rig = running(W2K, 0x10, 0x10, 2, 0x20, 0x09);
    rig.cut(0);
    rig.wait(120 * SECOND);
    rig.up();
    rig.write(0x04, &[VBATEN | 2]);
    assert_eq!((stamps(&mut rig), rig.read(0x04)), ([0; 8], 0x2A));
    rig.wait(60 * SECOND);
    // 10:13 to 10:14.
    rig.cut(0);
    rig.wait(60 * SECOND);
    rig.up();
    assert_eq!(stamps(&mut rig), [0x13, 0x10, 0x20, 0x49, 0x14, 0x10, 0x20, 0x49]);
}

#[test]
fn writing_0_to_vbat() {
    // At that byte, in a frame that goes on; whatever VBAT was, and the other bits are stored.
    for was in [0, VBAT] {
        for byte in (0..=0xFF).filter(|byte| byte & VBAT == 0) {
            let mut rig = with_stamps(Rig::new(W2K), was);
            rig.select();
            rig.byte(0x12);
            rig.byte(0x04);
            assert_eq!(rig.device.registers[0x18..], OTHER);
            rig.byte(byte);
            assert_eq!(rig.device.registers[0x18..], [0; 8]);
            assert_eq!(rig.device.registers[0x04], byte & 0x0F);
            // 05h to 08h are next, and nothing comes back.
            for next in [0x11, 0x12, 0x13, 0x14] {
                rig.byte(next);
            }
            rig.end(0);
            assert_eq!(rig.device.registers[0x05..0x09], [0x11, 0x12, 0x13, 0x14]);
            assert_eq!(stamps(&mut rig), [0; 8]);
        }
    }
}

#[test]
fn writing_0_to_vbat_with_bits_left_over() {
    // WRITE stores each byte as it comes, so that no end undoes it.
    for leftover in 0..=7 {
        let mut rig = with_stamps(Rig::new(W2K), VBAT);
        rig.frame_with(&[0x12, 0x04, 0x01], leftover);
        assert_eq!((stamps(&mut rig), rig.read(0x04)), ([0; 8], 0x01));
        // A byte that did not come whole does nothing.
        let mut rig = with_stamps(Rig::new(W2K), VBAT);
        rig.frame_with(&[0x12, 0x04], leftover);
        assert_eq!((stamps(&mut rig), rig.read(0x04)), (OTHER, 0x11));
    }
}

#[test]
fn writing_1_to_vbat() {
    // VBAT stays, 0 too, and so do the time-stamps; the other bits are stored.
    for was in [0, VBAT] {
        for byte in (0..=0xFF).filter(|byte| byte & VBAT != 0) {
            let mut rig = with_stamps(Rig::new(W2K), was);
            rig.write(0x04, &[byte]);
            assert_eq!(rig.device.registers[0x04], was | byte & 0x0F);
            assert_eq!(stamps(&mut rig), OTHER);
        }
    }
}

#[test]
fn a_1_written_to_vbat_does_not_keep_the_next_cut_from_its_stamp() {
    let mut rig = running(W2K, 0x10, 0x10, 2, 0x20, 0x09);
    rig.write(0x04, &[VBAT | VBATEN | 2]);
    assert_eq!(rig.read(0x04), 0x2A);
    rig.cut(0);
    rig.up();
    assert_eq!(stamps(&mut rig), [0x10, 0x10, 0x20, 0x49, 0x10, 0x10, 0x20, 0x49]);
}

#[test]
fn no_other_write_clears_them() {
    // Each register but 04h, and all of the SRAM, with 00h and with FFh.
    for address in (0x00..=0xFF).filter(|&address| address != 0x04) {
        for byte in [0x00, 0xFF] {
            let mut rig = with_stamps(Rig::new(B2K), VBAT);
            rig.write(address, &[byte]);
            assert_eq!((stamps(&mut rig), rig.read(0x04) & VBAT), (OTHER, VBAT));
        }
    }
}

#[test]
fn they_cannot_be_written() {
    // The masks from 18h on are 0, and what is outside a mask keeps its value.
    for byte in [0x00, 0x5A, 0xFF] {
        let mut rig = with_stamps(Rig::new(W2K), VBAT);
        rig.write(0x18, &[byte; 8]);
        assert_eq!(stamps(&mut rig), OTHER);
        for address in 0x18..=0x1F {
            rig.write(address, &[byte]);
            assert_eq!(stamps(&mut rig), OTHER);
        }
        // From 16h over all of them to 01h: the pointer goes on all the same.
        rig.write(0x16, &[0x77, 0x27, byte, byte, byte, byte, byte, byte, byte, byte, 0x31, 0x32]);
        let r = rig.device.registers;
        assert_eq!((r[0x16], r[0x17], r[0x00], r[0x01]), (0x77, 0x27, 0x31, 0x32));
        assert_eq!(stamps(&mut rig), OTHER);
    }
}

#[test]
fn reading_rolls_over() {
    // After 1Fh comes 00h; every bit is shown.
    let mut rig = with_stamps(Rig::new(W2K), VBAT);
    rig.write(0x00, &[0x42]);
    let replies = rig.frame(&[0x13, 0x1E, 0, 0, 0]);
    assert_eq!(replies[2..], [Some(0x87), Some(0x98), Some(0x42)]);
    for byte in 0..=0xFF {
        rig.device.registers[0x18..].fill(byte);
        assert_eq!(stamps(&mut rig), [byte; 8]);
    }
}

#[test]
fn without_vbaten() {
    // Registers as fresh, so 04h and 18h to 1Fh too, and no mark; whatever VBAT was.
    for part in [W2K, B2K] {
        for vbat in [0, VBAT] {
            let mut rig = with_stamps(running(part, 0x12, 0x34, 5, 0x06, 0x07), vbat);
            rig.device.registers[0x04] &= !VBATEN;
            rig.cut(0);
            assert_eq!((rig.device.registers, rig.device.stamp_due), (FRESH_REGISTERS, false));
            rig.wait(100 * SECOND);
            rig.up();
            assert_eq!((stamps(&mut rig), rig.read(0x04)), ([0; 8], 0x01));
        }
    }
}

#[test]
fn vbaten_cleared_after_a_stamp() {
    // Writing 1 to VBAT and 0 to VBATEN keeps the time-stamps, until the cut.
    let mut rig = running(W2K, 0x10, 0x10, 2, 0x20, 0x09);
    rig.cut(0);
    rig.up();
    rig.write(0x04, &[VBAT | 2]);
    let both = [0x10, 0x10, 0x20, 0x49, 0x10, 0x10, 0x20, 0x49];
    assert_eq!((stamps(&mut rig), rig.read(0x04)), (both, 0x32));
    rig.cut(0);
    rig.up();
    assert_eq!((stamps(&mut rig), rig.read(0x04)), ([0; 8], 0x01));
}

#[test]
fn the_mark() {
    // Clear but between a cut that copied and its up.
    let mut rig = running(W2K, 0x10, 0x10, 2, 0x20, 0x09);
    assert!(!rig.device.stamp_due);
    rig.cut(0);
    assert!(rig.device.stamp_due);
    rig.wait(60 * SECOND);
    assert!(rig.device.stamp_due);
    rig.up();
    assert!(!rig.device.stamp_due);
    // A cut that finds VBAT set leaves none.
    rig.cut(0);
    assert!(!rig.device.stamp_due);
    rig.up();
    assert!(!rig.device.stamp_due);
}

#[test]
fn the_mark_alone_decides_at_an_up() {
    // Records that no run makes: the mark is asked, not VBAT or VBATEN.
    for control in [0, VBAT, VBATEN, VBAT | VBATEN] {
        for mark in [false, true] {
            let mut rig = with_stamps(running(W2K, 0x12, 0x34, 5, 0x06, 0x07), 0);
            rig.device.registers[0x04] = control | 5;
            (rig.device.power, rig.device.stamp_due) = (false, mark);
            rig.up();
            assert_eq!(rig.device.registers[0x18..0x1C], OTHER[..4]);
            let second = if mark { [0x12, 0x34, 0x06, 0xA7] } else { [0xE5, 0xF6, 0x87, 0x98] };
            assert_eq!(rig.device.registers[0x1C..], second);
            assert_eq!((rig.device.stamp_due, rig.device.registers[0x04]), (false, control | 5));
        }
    }
}

#[test]
fn refused_cuts_and_ups_copy_nothing() {
    let mut rig = running(W2K, 0x59, 0x10, 2, 0x20, 0x09);
    rig.refused(Act::Up, 0, 5);
    rig.refused(Act::Cut, 256, 3);
    rig.cut(0);
    rig.wait(60 * SECOND);
    rig.refused(Act::Cut, 0, 5);
    rig.refused(Act::Up, 1, 3);
    rig.wait(60 * SECOND);
    rig.up();
    rig.wait(60 * SECOND);
    rig.refused(Act::Up, 0, 5);
    // 10:59 and 11:01, and now it is 11:02.
    assert_eq!(stamps(&mut rig), [0x59, 0x10, 0x20, 0x49, 0x01, 0x11, 0x20, 0x49]);
    assert_eq!(rig.read(0x02), 0x02);
}

#[test]
fn a_cut_in_a_write_cycle() {
    let mut rig = running(W2K, 0x10, 0x10, 2, 0x20, 0x09);
    rig.eeprom_write(0x10, &[1, 2, 3]);
    rig.wait(100);
    assert_eq!(rig.cut(0b101), 2);
    assert_eq!(rig.eeprom[0x10..0x13], [1, 0xFF, 3]);
    rig.up();
    assert_eq!(stamps(&mut rig), [0x10, 0x10, 0x20, 0x49, 0x10, 0x10, 0x20, 0x49]);
}

#[test]
fn a_cut_in_a_frame() {
    // A WRITE has stored minutes and hours when power goes: the copy has them. Its other bytes
    // never come.
    let mut rig = running(W2K, 0x10, 0x10, 2, 0x20, 0x09);
    rig.select();
    for byte in [0x12, 0x02, 0x45, 0x16] {
        rig.byte(byte);
    }
    rig.cut(0);
    assert_eq!(rig.device.frame, Frame::Idle);
    rig.up();
    assert_eq!(stamps(&mut rig), [0x45, 0x16, 0x20, 0x49, 0x45, 0x16, 0x20, 0x49]);
    // A WRITE has cleared VBAT when power goes: there is a new time-stamp.
    rig.select();
    for byte in [0x12, 0x03, 0x17, VBATEN | 3] {
        rig.byte(byte);
    }
    rig.cut(0);
    rig.up();
    assert_eq!(stamps(&mut rig), [0x45, 0x17, 0x20, 0x69, 0x45, 0x17, 0x20, 0x69]);
}

#[test]
fn vbaten_of_the_moment() {
    // Set by a WRITE whose frame is still open: it counts.
    let mut rig = Rig::new(W2K);
    rig.write(0x02, &[0x10, 0x11]);
    rig.select();
    for byte in [0x12, 0x04, VBATEN | 1] {
        rig.byte(byte);
    }
    rig.cut(0);
    rig.up();
    assert_eq!(stamps(&mut rig), [0x10, 0x11, 0x01, 0x21, 0x10, 0x11, 0x01, 0x21]);
}

#[test]
fn what_leaves_them() {
    // Ticks, alarms, the watchdog, write cycles and every other frame.
    let mut rig = running(W2K, 0x10, 0x10, 2, 0x20, 0x09);
    rig.cut(0);
    rig.wait(120 * SECOND);
    rig.up();
    let both = [0x10, 0x10, 0x20, 0x49, 0x12, 0x10, 0x20, 0x49];
    rig.write(0x08, &[0x30]); // both alarms active: seconds and minutes
    rig.write(0x0C, &[0x05]);
    rig.write(0x14, &[0x13, 0x00, 0x10]);
    rig.write(0x0A, &[0x80]);
    for _ in 0..20 {
        rig.wait(10 * SECOND);
    }
    assert_eq!((rig.read(0x0F), rig.read(0x16), rig.read(0x0A)), (0x08, 0x18, 0xC0));
    assert_eq!(stamps(&mut rig), both);
    rig.eeprom_write(0x18, &[0xEE; 8]);
    rig.wait(164);
    rig.unlock();
    rig.enable();
    rig.frame(&[0x32, 0x08, 0xEE, 0xEE]);
    rig.wait(164);
    rig.protect(0b11);
    for code in (0..=0xFF).filter(|&code| code != 0x12) {
        rig.frame(&[code]);
        rig.frame(&[code, 0x18, 0xEE, 0xEE]);
        rig.wait(200);
        assert_eq!(rig.device.registers[0x18..], both, "code {code:02X}h");
        assert_eq!(rig.device.registers[0x04] & VBAT, VBAT, "code {code:02X}h");
    }
}

#[test]
fn clrram_leaves_them() {
    let mut rig = with_stamps(Rig::new(W2K), VBAT);
    rig.write(0x20, &[0x5A; 64]);
    rig.frame(&[0x54]);
    assert_eq!((rig.device.sram, stamps(&mut rig)), ([0; 64], OTHER));
}

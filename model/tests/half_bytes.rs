//! 02 Bits: what an end with bits over answers. They are the first bits of the byte that would
//! have come next, bit 7 first (000 3.0); where no byte would have come there are none.

mod common;
use common::*;
use model::chip::{Answer, Code, Frame, Lock, Place, Protection, Target};
use model::generate;
use model::tape::{answers, parse, Op};
use model::Act;

const PARTS: [u64; 4] = [W1K, W2K, B1K, B2K];

/// What ends with 1 to 7 bits over answer.
type Bits = [Option<u8>; 7];

/// SO is off.
const OFF: Bits = [None; 7];
/// 1011 0100, 0101 1010, 0000 0000 and 1111 1111.
const OF_B4: Bits = [Some(1), Some(2), Some(5), Some(11), Some(22), Some(45), Some(90)];
const OF_5A: Bits = [Some(0), Some(1), Some(2), Some(5), Some(11), Some(22), Some(45)];
const OF_00: Bits = [Some(0), Some(0), Some(0), Some(0), Some(0), Some(0), Some(0)];
const OF_FF: Bits = [Some(1), Some(3), Some(7), Some(15), Some(31), Some(63), Some(127)];

/// The answers to an end of the open frame, each on a chip of its own.
fn bits_now(rig: &Rig) -> Bits {
    [1, 2, 3, 4, 5, 6, 7].map(|leftover| rig.clone().end(leftover))
}

/// The same in a frame that has just these bytes.
fn bits_after(rig: &Rig, bytes: &[u8]) -> Bits {
    bits_now(&opened(rig, bytes))
}

fn opened(rig: &Rig, bytes: &[u8]) -> Rig {
    let mut rig = rig.clone();
    rig.select();
    for &byte in bytes {
        rig.byte(byte);
    }
    rig
}

/// The first characters of the byte's eight, `0` or `1`.
fn first_bits(byte: u8, count: u64) -> String {
    format!("{byte:08b}").chars().take(count as usize).collect()
}

/// The answer of an end in the same form: as many characters as there are bits over.
fn shown_bits(bits: u8, count: u64) -> String {
    format!("{bits:0width$b}", width = count as usize)
}

#[test]
fn of_eeread() {
    for part in PARTS {
        let mut rig = Rig::new(part);
        rig.eeprom[0x10..0x14].copy_from_slice(&[0xB4, 0x5A, 0x00, 0xFF]);
        assert_eq!(bits_after(&rig, &[0x03, 0x10]), OF_B4);
        assert_eq!(bits_after(&rig, &[0x03, 0x10, 0]), OF_5A);
        assert_eq!(bits_after(&rig, &[0x03, 0x10, 0, 0]), OF_00);
        assert_eq!(bits_after(&rig, &[0x03, 0x10, 0, 0, 0]), OF_FF);
        // What goes in does not matter.
        assert_eq!(bits_after(&rig, &[0x03, 0x10, 0xFF]), OF_5A);
    }
    // With 1 Kbit, bit 7 of the address does not count.
    let mut rig = Rig::new(B1K);
    rig.eeprom[0x10] = 0xB4;
    assert_eq!(bits_after(&rig, &[0x03, 0x90]), OF_B4);
}

#[test]
fn of_registers() {
    // 08h and 09h hold every bit.
    let mut rig = Rig::new(W2K);
    rig.write(0x08, &[0xB4, 0x5A]);
    assert_eq!(bits_after(&rig, &[0x13, 0x07]), OF_00);
    assert_eq!(bits_after(&rig, &[0x13, 0x08]), OF_B4);
    assert_eq!(bits_after(&rig, &[0x13, 0x09]), OF_5A);
    assert_eq!(bits_after(&rig, &[0x13, 0x08, 0]), OF_5A);
    assert_eq!(bits_after(&rig, &[0x13, 0x06, 0, 0]), OF_B4);
    // Bits outside a mask are not stored: 05h takes bits 5:0 of FFh, 0011 1111.
    rig.write(0x05, &[0xFF]);
    let date = [Some(0), Some(0), Some(1), Some(3), Some(7), Some(15), Some(31)];
    assert_eq!(bits_after(&rig, &[0x13, 0x05]), date);
}

#[test]
fn of_sram() {
    let mut rig = Rig::new(B2K);
    rig.write(0x20, &[0xB4, 0x5A]);
    rig.write(0x5F, &[0xFF]);
    assert_eq!(bits_after(&rig, &[0x13, 0x20]), OF_B4);
    assert_eq!(bits_after(&rig, &[0x13, 0x20, 0]), OF_5A);
    assert_eq!(bits_after(&rig, &[0x13, 0x22]), OF_00);
    assert_eq!(bits_after(&rig, &[0x13, 0x5E]), OF_00);
    assert_eq!(bits_after(&rig, &[0x13, 0x5F]), OF_FF);
    assert_eq!(bits_after(&rig, &[0x13, 0x5E, 0]), OF_FF);
}

#[test]
fn of_idread() {
    for part in PARTS {
        let mut rig = Rig::new(part);
        rig.id[3..6].copy_from_slice(&[0xB4, 0x5A, 0x00]);
        assert_eq!(bits_after(&rig, &[0x33, 0x03]), OF_B4);
        assert_eq!(bits_after(&rig, &[0x33, 0x03, 0]), OF_5A);
        assert_eq!(bits_after(&rig, &[0x33, 0x05]), OF_00);
        assert_eq!(bits_after(&rig, &[0x33, 0x06]), OF_FF);
        // The low four bits of the address count.
        assert_eq!(bits_after(&rig, &[0x33, 0xF3]), OF_B4);
    }
}

#[test]
fn of_status() {
    // 0000, BP1, BP0, WEL, WIP: seven bits reach WEL and not WIP.
    let status = |bp, wel, wip| {
        let mut rig = Rig::new(W2K);
        rig.device.protection = Protection::from_bits(bp);
        rig.device.wel = wel;
        rig.device.countdown = if wip { 100 } else { 0 };
        let bits = bits_after(&rig, &[0x05]);
        for bytes in [&[0x05, 0][..], &[0x05, 0, 0], &[0x05, 0, 0, 0, 0, 0]] {
            assert_eq!(bits_after(&rig, bytes), bits);
        }
        bits.map(|bits| bits.unwrap())
    };
    for wip in [false, true] {
        assert_eq!(status(0b00, false, wip), [0, 0, 0, 0, 0, 0, 0]);
        assert_eq!(status(0b00, true, wip), [0, 0, 0, 0, 0, 0, 1]);
        assert_eq!(status(0b01, false, wip), [0, 0, 0, 0, 0, 1, 2]);
        assert_eq!(status(0b01, true, wip), [0, 0, 0, 0, 0, 1, 3]);
        assert_eq!(status(0b10, false, wip), [0, 0, 0, 0, 1, 2, 4]);
        assert_eq!(status(0b10, true, wip), [0, 0, 0, 0, 1, 2, 5]);
        assert_eq!(status(0b11, false, wip), [0, 0, 0, 0, 1, 3, 6]);
        assert_eq!(status(0b11, true, wip), [0, 0, 0, 0, 1, 3, 7]);
    }
}

#[test]
fn of_status_by_its_own_frames() {
    // The same with EEWREN, SRWRITE and its cycle, as a driver does it.
    let mut rig = Rig::new(B1K);
    rig.protect(0b10);
    assert_eq!(bits_after(&rig, &[0x05])[4..], [Some(1), Some(2), Some(4)]);
    rig.enable();
    assert_eq!(bits_after(&rig, &[0x05])[4..], [Some(1), Some(2), Some(5)]);
    rig.frame(&[0x02, 0x00, 0x11]);
    assert_eq!(rig.status(), 0b1011);
    assert_eq!(bits_after(&rig, &[0x05])[4..], [Some(1), Some(2), Some(5)]);
    rig.wait(164);
    assert_eq!(bits_after(&rig, &[0x05])[4..], [Some(1), Some(2), Some(4)]);
}

/// Every memory, register and SRAM byte that can be is other than 0.
fn filled(part: u64) -> Rig {
    let mut rig = Rig::new(part);
    rig.eeprom.fill(0xB4);
    rig.id.fill(0xB4);
    rig.write(0x00, &[0xB4; 24]);
    rig.write(0x20, &[0xB4; 64]);
    rig
}

#[test]
fn after_the_instruction_byte() {
    // 01 Frames: an address gets no reply, so only SRREAD has begun to answer.
    let rig = filled(W2K);
    for code in 0..=255 {
        let expected = if code == 0x05 { OF_00 } else { OFF };
        assert_eq!(bits_after(&rig, &[code]), expected, "{code:02X}h");
    }
}

#[test]
fn after_the_address() {
    let rig = filled(W2K);
    for code in 0..=255 {
        let expected = match code {
            0x03 | 0x13 | 0x33 => OF_B4,
            0x05 => OF_00,
            _ => OFF,
        };
        for bytes in [&[code, 0x08][..], &[code, 0x08, 0xB4], &[code, 0x08, 0xB4, 0xB4]] {
            assert_eq!(bits_after(&rig, bytes), expected, "{bytes:02X?}");
        }
    }
}

#[test]
fn without_a_whole_byte() {
    // Not even an instruction came; in a cycle and out of one.
    for countdown in [0, 1, 164] {
        let mut rig = filled(B2K);
        rig.device.countdown = countdown;
        assert_eq!(bits_after(&rig, &[]), OFF);
    }
}

#[test]
fn with_no_bits_over() {
    // None, not the number 0.
    let mut rig = filled(W2K);
    for bytes in [
        &[][..],
        &[0x03],
        &[0x05],
        &[0x05, 0],
        &[0x03, 0],
        &[0x03, 0, 0],
        &[0x13, 0x08],
        &[0x13, 0x08, 0],
        &[0x13, 0x20],
        &[0x13, 0x60],
        &[0x33, 0],
        &[0x33, 0, 0],
    ] {
        rig = opened(&rig, bytes);
        assert_eq!(rig.done(Act::End, 0), Answer { number: 0, reply: None, count: 0 });
    }
}

#[test]
fn of_write_frames() {
    // Bits over after any number of bytes; with WEL and an open lock, and without.
    for wel in [false, true] {
        let mut rig = filled(W1K);
        rig.device.wel = wel;
        rig.device.lock = if wel { Lock::Open } else { Lock::Closed };
        for code in [0x02, 0x01, 0x12, 0x32, 0x14, 0x06, 0x04, 0x44, 0x54] {
            for count in 0..=9 {
                let bytes = [&[code][..], &[0x55; 9][..count]].concat();
                assert_eq!(bits_after(&rig, &bytes), OFF, "{bytes:02X?}");
            }
        }
    }
}

#[test]
fn of_unheard_frames() {
    // Under WIP only SRREAD, READ, WRITE, CLRWDT and CLRRAM are heard; READ and SRREAD answer.
    // WIP and WEL are set: 0000 0011.
    let status = [Some(0), Some(0), Some(0), Some(0), Some(0), Some(0), Some(1)];
    for target in [Target::Eeprom(0), Target::Id(0), Target::Status(Protection::All)] {
        let mut rig = filled(W2K);
        (rig.device.target, rig.device.wel, rig.device.countdown) = (target, true, 100);
        for code in 0..=255 {
            for bytes in [&[code][..], &[code, 0x08], &[code, 0x08, 0], &[code, 0x08, 0, 0]] {
                let expected = match code {
                    0x05 => status,
                    0x13 if bytes.len() > 1 => OF_B4,
                    _ => OFF,
                };
                assert_eq!(bits_after(&rig, bytes), expected, "{bytes:02X?}");
            }
        }
    }
}

#[test]
fn of_a_frame_begun_in_a_cycle() {
    // Hearing is judged at the instruction byte: the end of the cycle does not wake SO.
    for code in [0x03, 0x33, 0x77] {
        let mut rig = filled(W2K);
        rig.eeprom_write(0x00, &[0x11]);
        rig.select();
        rig.byte(code);
        assert_eq!(rig.wait(1_000), 164);
        assert_eq!(bits_now(&rig), OFF);
        rig.byte(0x08);
        assert_eq!(bits_now(&rig), OFF);
        rig.byte(0x00);
        assert_eq!(bits_now(&rig), OFF);
    }
    // CS falls in the cycle, the instruction comes after it.
    let mut rig = filled(W2K);
    rig.eeprom_write(0x00, &[0x11]);
    rig.select();
    rig.wait(1_000);
    rig.byte(0x03);
    rig.byte(0x08);
    assert_eq!(bits_now(&rig), OF_B4);
    // Such a record is in range without a cycle too.
    let mut rig = filled(W2K);
    rig.device.frame = Frame::Unheard;
    assert_eq!(bits_now(&rig), OFF);
}

#[test]
fn from_60h_up() {
    // 01 Frames (bench): READ drives 0 there, which is a number and not none.
    let rig = filled(B1K);
    for address in 0x60..=0xFF {
        assert_eq!(bits_after(&rig, &[0x13, address]), OF_00);
        assert_eq!(bits_after(&rig, &[0x13, address, 0]), OF_00);
        assert_eq!(bits_after(&rig, &[0x13, address, 0, 0, 0]), OF_00);
    }
    assert_eq!(bits_after(&rig, &[0x12, 0x60]), OFF);
}

#[test]
fn of_a_byte_00h() {
    // Driven low for every bit: the number 0.
    let mut rig = Rig::new(W2K);
    rig.eeprom[0x40] = 0x00;
    rig.id[0x04] = 0x00;
    for bytes in [&[0x03, 0x40][..], &[0x33, 0x04], &[0x13, 0x20], &[0x13, 0x18], &[0x05]] {
        assert_eq!(bits_after(&rig, bytes), OF_00, "{bytes:02X?}");
    }
}

#[test]
fn at_the_roll_over() {
    // After the top byte of each memory its first is the next.
    for part in PARTS {
        let mut rig = Rig::new(part);
        let top = if part % 2 == 1 { 0x7F } else { 0xFF };
        (rig.eeprom[top], rig.eeprom[0x00]) = (0x5A, 0xB4);
        assert_eq!(bits_after(&rig, &[0x03, top as u8]), OF_5A);
        assert_eq!(bits_after(&rig, &[0x03, top as u8, 0]), OF_B4);
        assert_eq!(bits_after(&rig, &[0x03, top as u8 - 1, 0, 0]), OF_B4);
        (rig.id[0x0F], rig.id[0x00]) = (0x5A, 0xB4);
        assert_eq!(bits_after(&rig, &[0x33, 0x0F]), OF_5A);
        assert_eq!(bits_after(&rig, &[0x33, 0x0F, 0]), OF_B4);
        assert_eq!(bits_after(&rig, &[0x33, 0x0E, 0, 0]), OF_B4);
        rig.write(0x00, &[0xB4]);
        assert_eq!(bits_after(&rig, &[0x13, 0x1F]), OF_00);
        assert_eq!(bits_after(&rig, &[0x13, 0x1F, 0]), OF_B4);
        assert_eq!(bits_after(&rig, &[0x13, 0x1E, 0, 0]), OF_B4);
        rig.write(0x5F, &[0x5A, 0xB4]);
        assert_eq!(bits_after(&rig, &[0x13, 0x5F]), OF_5A);
        assert_eq!(bits_after(&rig, &[0x13, 0x5F, 0]), OF_B4);
        assert_eq!(bits_after(&rig, &[0x13, 0x5E, 0, 0]), OF_B4);
    }
    // With 2 Kbit 7Fh is a place like others, and with 1 Kbit FFh is 7Fh.
    let mut rig = Rig::new(B2K);
    (rig.eeprom[0x7F], rig.eeprom[0x80], rig.eeprom[0x00]) = (0x00, 0x5A, 0xB4);
    assert_eq!(bits_after(&rig, &[0x03, 0x7F, 0]), OF_5A);
    let mut rig = Rig::new(B1K);
    (rig.eeprom[0x7F], rig.eeprom[0x00]) = (0x5A, 0xB4);
    assert_eq!(bits_after(&rig, &[0x03, 0xFF]), OF_5A);
    assert_eq!(bits_after(&rig, &[0x03, 0xFF, 0]), OF_B4);
}

#[test]
fn a_frame_broken_off_in_its_third_byte() {
    // EEREAD of a byte that was written before; after 5 bits of it CS rises.
    let tape = b"op=part arg=2\nop=select arg=0\nop=byte arg=6\nop=end arg=0\nop=select arg=0\n\
        op=byte arg=2\nop=byte arg=16\nop=byte arg=180\nop=end arg=0\nop=wait arg=200\n\
        op=select arg=0\nop=byte arg=3\nop=byte arg=16\nop=end arg=5\n\
        op=select arg=0\nop=byte arg=3\nop=byte arg=16\nop=byte arg=0\nop=end arg=0\n";
    let answers = String::from_utf8(answers(tape)).unwrap();
    let out: Vec<&str> = answers.lines().map(|line| &line[9..line.len() - 12]).collect();
    let (writing, reading) = out.split_at(10);
    assert_eq!(writing, ["z", "z", "z", "z", "z", "z", "z", "z", "z", "164"]);
    assert_eq!(reading, ["z", "z", "z", "22", "z", "z", "z", "180", "z"]);
}

#[test]
fn on_a_tape() {
    let tape = b"op=part arg=1\nop=end arg=3\nop=select arg=0\nop=end arg=3\n\
        op=select arg=0\nop=byte arg=5\nop=end arg=8\nop=end arg=07\nop=end arg=7\nop=end arg=7\n\
        op=select arg=0\nop=byte arg=51\nop=byte arg=0\nop=end arg=7\n\
        op=select arg=0\nop=byte arg=51\nop=byte arg=0\nop=end arg=0\n\
        op=cut arg=0\nop=end arg=7\n";
    let answers = String::from_utf8(answers(tape)).unwrap();
    let ends: Vec<&str> =
        answers.lines().filter(|line| *line != "no=0 out=z irq=1 wdo=1").collect();
    assert_eq!(
        ends,
        [
            "no=2 out=z irq=1 wdo=1",
            "no=3 out=z irq=1 wdo=1",
            "no=75 out=12 irq=1 wdo=1",
            "no=0 out=0 irq=1 wdo=1",
            "no=2 out=z irq=1 wdo=1",
            "no=0 out=127 irq=1 wdo=1",
            "no=0 out=0 irq=1 wdo=1", // the cut's count
            "no=5 out=z irq=1 wdo=1",
        ]
    );
}

#[test]
fn refused_ends() {
    // `refused` asks for no reply and for nothing changed. The frame would answer bits.
    let rig = opened(&filled(W2K), &[0x03, 0x00]);
    for number in [8, 9, 15, 16, 255, 256, 263, u64::MAX] {
        rig.clone().refused(Act::End, number, 3);
    }
    // After a refused end the frame goes on, and so do its bits.
    let mut going_on = rig.clone();
    going_on.refused(Act::End, 8, 3);
    assert_eq!(bits_now(&going_on), OF_B4);
    assert_eq!(going_on.byte(0), Some(0xB4));
    for leftover in 0..=7 {
        // Not selected: 2. A number that is too large comes first.
        let mut ended = rig.clone();
        ended.end(leftover);
        ended.refused(Act::End, leftover, 2);
        ended.refused(Act::End, 8, 3);
        // No power: 5, after 3 and before 2.
        let mut off = rig.clone();
        off.cut(0);
        off.refused(Act::End, leftover, 5);
        off.refused(Act::End, 8, 3);
        off.up();
        off.refused(Act::End, leftover, 2);
        // 3 for the part, 4, 6, and then the others.
        let mut wrong = rig.clone();
        wrong.device.divider = 32_768;
        wrong.refused(Act::End, leftover, 6);
        wrong.refused(Act::End, 8, 6);
        wrong.id.pop();
        wrong.refused(Act::End, leftover, 4);
        wrong.part = 5;
        wrong.refused(Act::End, leftover, 3);
        wrong.refused(Act::End, 8, 3);
    }
}

#[test]
fn registers_of_the_moment() {
    // 59.99 seconds, shown as D9h with ST; one tick before the seconds carry.
    let mut rig = Rig::new(W2K);
    rig.start_at([0x99, 0x59, 0x00, 0x00, 0x01, 0x01, 0x01, 0x01]);
    rig.device.divider = 32_767;
    rig.select();
    rig.byte(0x13);
    rig.byte(0x01);
    // 1101 1001
    let d9 = [Some(1), Some(3), Some(6), Some(13), Some(27), Some(54), Some(108)];
    assert_eq!(bits_now(&rig), d9);
    rig.wait(1);
    // 1000 0000
    let st = [Some(1), Some(2), Some(4), Some(8), Some(16), Some(32), Some(64)];
    assert_eq!(bits_now(&rig), st);
    // The minutes, 0000 0001, are the next byte: seven bits do not reach the 1.
    rig.byte(0);
    assert_eq!(bits_now(&rig), OF_00);
    // A watchdog that times out in the frame: 1000 0000, then 1100 0000.
    let mut rig = Rig::new(B2K);
    rig.wait(32);
    rig.write(0x0A, &[0x80]);
    rig.select();
    rig.byte(0x13);
    rig.byte(0x0A);
    rig.wait(31);
    assert_eq!(bits_now(&rig), st);
    rig.wait(1);
    let c0 = [Some(1), Some(3), Some(6), Some(12), Some(24), Some(48), Some(96)];
    assert_eq!(bits_now(&rig), c0);
}

#[test]
fn status_of_the_moment() {
    // The cycle's last tick writes BP 11 and clears WEL: 0000 0011, then 0000 1100.
    let mut rig = Rig::new(W2K);
    rig.enable();
    rig.frame(&[0x01, 0x0C]);
    rig.select();
    rig.byte(0x05);
    rig.wait(163);
    let before = [Some(0), Some(0), Some(0), Some(0), Some(0), Some(0), Some(1)];
    assert_eq!(bits_now(&rig), before);
    rig.wait(1);
    let after = [Some(0), Some(0), Some(0), Some(0), Some(1), Some(3), Some(6)];
    assert_eq!(bits_now(&rig), after);
}

#[test]
fn bits_that_are_made_when_read() {
    // OSCON: 04h is 01h before the 32nd tick of the start and 21h, 0010 0001, from then on.
    let mut rig = Rig::new(B2K);
    rig.select();
    rig.byte(0x13);
    rig.byte(0x04);
    rig.wait(31);
    assert_eq!(bits_now(&rig), OF_00);
    rig.wait(1);
    let oscon = [Some(0), Some(0), Some(1), Some(2), Some(4), Some(8), Some(16)];
    assert_eq!(bits_now(&rig), oscon);
    rig.end(3);
    // LP: 06h with December in it is 12h, in a leap year 32h, 0011 0010.
    rig.write(0x06, &[0x12, 0x01]);
    let common_year = [Some(0), Some(0), Some(0), Some(1), Some(2), Some(4), Some(9)];
    assert_eq!(bits_after(&rig, &[0x13, 0x06]), common_year);
    rig.write(0x07, &[0x04]);
    let leap_year = [Some(0), Some(0), Some(1), Some(3), Some(6), Some(12), Some(25)];
    assert_eq!(bits_after(&rig, &[0x13, 0x06]), leap_year);
    // 12/24 in the alarms' hours: 12h, and with bit 6 of 03h set 52h, 0101 0010.
    rig.write(0x0E, &[0x12]);
    rig.write(0x15, &[0x12]);
    assert_eq!(bits_after(&rig, &[0x13, 0x0E]), common_year);
    rig.write(0x03, &[0x52]);
    let twelve = [Some(0), Some(1), Some(2), Some(5), Some(10), Some(20), Some(41)];
    assert_eq!(bits_after(&rig, &[0x13, 0x0E]), twelve);
    assert_eq!(bits_after(&rig, &[0x13, 0x15]), twelve);
}

#[test]
fn of_time_stamps() {
    // 14 May, 23:58, day 3, with VBATEN; a cut and an up: 58h, 23h, 14h, 65h, twice.
    let mut rig = Rig::new(W2K);
    rig.write(0x02, &[0x58, 0x23, 0x0B, 0x14, 0x05]);
    rig.cut(0);
    rig.up();
    for group in [0x18, 0x1C] {
        let bits = [0, 1, 2, 3].map(|place| bits_after(&rig, &[0x13, group + place]));
        // 0101 1000, 0010 0011, 0001 0100, 0110 0101
        assert_eq!(
            bits.map(|bits| bits.map(|bits| bits.unwrap())),
            [
                [0, 1, 2, 5, 11, 22, 44],
                [0, 0, 1, 2, 4, 8, 17],
                [0, 0, 0, 1, 2, 5, 10],
                [0, 1, 3, 6, 12, 25, 50],
            ]
        );
    }
    // Before a cut they are 0.
    assert_eq!(bits_after(&Rig::new(W2K), &[0x13, 0x18]), OF_00);
}

#[test]
fn only_the_frame_and_the_lock_move() {
    // A read closes the lock, SRREAD leaves it; WEL and memories stay.
    let heard = |code| Frame::Heard(Code::of(code));
    for leftover in 1..=7 {
        for (bytes, frame, lock) in [
            (&[0x03, 0x21][..], Frame::Reading(Place::Eeprom(0x21)), Lock::Closed),
            (&[0x03, 0x21, 0, 0], Frame::Reading(Place::Eeprom(0x23)), Lock::Closed),
            (&[0x03, 0xFF, 0], Frame::Reading(Place::Eeprom(0x00)), Lock::Closed),
            (&[0x33, 0x05], Frame::Reading(Place::Id(0x05)), Lock::Closed),
            (&[0x33, 0x0F, 0, 0], Frame::Reading(Place::Id(0x01)), Lock::Closed),
            (&[0x13, 0x1F], Frame::Reading(Place::Clock(0x1F)), Lock::Closed),
            (&[0x13, 0x5F, 0], Frame::Reading(Place::Clock(0x20)), Lock::Closed),
            (&[0x13, 0x77, 0, 0], Frame::Reading(Place::Clock(0x77)), Lock::Closed),
            (&[0x05], heard(0x05), Lock::Open),
            (&[0x05, 0, 0], heard(0x05), Lock::Open),
            (&[0x03], heard(0x03), Lock::Closed),
            (&[], Frame::Empty, Lock::Open),
        ] {
            let mut rig = Rig::new(W2K);
            rig.enable();
            rig.unlock();
            let mut rig = opened(&rig, bytes);
            assert_eq!(rig.device.frame, frame, "{bytes:02X?}");
            let mut expected = rig.clone();
            (expected.device.frame, expected.device.lock) = (Frame::Idle, lock);
            rig.end(leftover);
            assert_eq!(rig, expected, "{bytes:02X?} and {leftover} bits");
            // The next frame begins as after any other.
            assert_eq!(rig.frame(&[0x05, 0]), [None, Some(0b0010)]);
        }
    }
}

#[test]
fn as_after_a_whole_byte() {
    // A read that is broken off and one that ends with a whole byte leave the same. WEL is set
    // and the lock open: WEL stays, and only SRREAD leaves the lock, so that an IDWRITE is carried
    // after it (164 ticks).
    for leftover in 1..=7 {
        for (read, lock, status, ticks) in [
            (&[0x03, 0x10, 0][..], Lock::Closed, 0b0010, 500),
            (&[0x13, 0x08, 0], Lock::Closed, 0b0010, 500),
            (&[0x33, 0x01, 0], Lock::Closed, 0b0010, 500),
            (&[0x05, 0], Lock::Open, 0b0011, 164),
        ] {
            let mut whole = filled(W2K);
            whole.enable();
            whole.unlock();
            assert_eq!((whole.device.wel, whole.device.lock), (true, Lock::Open));
            let mut broken = whole.clone();
            whole.frame(read);
            broken.frame_with(&read[..read.len() - 1], leftover);
            for rig in [&whole, &broken] {
                assert_eq!((rig.device.wel, rig.device.lock), (true, lock), "{read:02X?}");
            }
            assert_eq!(broken, whole, "{read:02X?}");
            let again = |rig: &mut Rig| {
                let replies = rig.frame(read);
                rig.frame(&[0x32, 0x02, 0x11]);
                (replies, rig.status(), rig.wait(500))
            };
            let after = again(&mut whole);
            assert_eq!((after.1, after.2), (status, ticks), "{read:02X?}");
            assert_eq!(again(&mut broken), after, "{read:02X?}");
            assert_eq!(whole, broken, "{read:02X?}");
        }
    }
}

#[test]
fn a_write_with_bits_over_still_comes_to_nothing() {
    // It answers none, starts no cycle and leaves WEL; without the bits it is carried.
    for write in [&[0x02, 0x10, 0x11][..], &[0x32, 0x00, 0x11], &[0x01, 0x0C]] {
        for leftover in 1..=7 {
            let mut rig = Rig::new(W2K);
            rig.unlock();
            rig.enable();
            let mut rig = opened(&rig, write);
            assert_eq!(rig.end(leftover), None);
            assert_eq!((rig.device.countdown, rig.device.wel), (0, true));
            rig.unlock();
            rig.frame(write);
            assert_eq!(rig.device.countdown, 164);
        }
    }
    // EEWREN and EEWRDI of more than eight bits do nothing, and answer none.
    for wel in [false, true] {
        for code in [0x06, 0x04] {
            let mut rig = Rig::new(W2K);
            rig.device.wel = wel;
            assert_eq!(bits_after(&rig, &[code]), OFF);
            rig.frame_with(&[code], 7);
            assert_eq!(rig.device.wel, wel);
        }
    }
}

#[test]
fn every_byte_and_every_number_of_bits() {
    for byte in 0..=255 {
        let mut rig = Rig::new(B1K);
        rig.eeprom[0x2A] = byte;
        rig.id[0x0A] = byte;
        rig.write(0x09, &[byte]);
        rig.write(0x4A, &[byte]);
        for read in [&[0x03, 0x2A][..], &[0x33, 0x0A], &[0x13, 0x09], &[0x13, 0x4A]] {
            for leftover in 1..=7 {
                let bits = opened(&rig, read).end(leftover).unwrap();
                let shown = shown_bits(bits, leftover);
                assert_eq!(shown, first_bits(byte, leftover), "{read:02X?}");
            }
        }
    }
}

#[test]
fn every_clock_address() {
    // All of the block, filled, after none and after one byte of it.
    let mut rig = Rig::new(B2K);
    let sram: Vec<u8> = (0..64).map(|place| 3 * place + 0x41).collect();
    rig.write(0x00, &[0xFF; 24]);
    rig.write(0x20, &sram);
    rig.wait(40);
    rig.cut(0);
    rig.up();
    for address in 0..=255 {
        let replies = rig.frame(&[0x13, address, 0, 0]);
        for leftover in 1..=7 {
            for whole in [0, 1] {
                let bytes = &[0x13, address, 0][..2 + whole];
                let bits = opened(&rig, bytes).end(leftover).unwrap();
                let next = replies[2 + whole].unwrap();
                assert_eq!(shown_bits(bits, leftover), first_bits(next, leftover), "{bytes:02X?}");
            }
        }
    }
}

/// The bits that an end must answer, from what a whole byte is answered in its place.
fn by_the_next_byte(rig: &Rig, leftover: u64) -> Option<String> {
    let reply = rig.clone().act(Act::Byte, 0xA5).reply?;
    (leftover > 0).then(|| first_bits(reply, leftover))
}

#[test]
fn every_frame_by_its_next_byte() {
    // Each code, 0 to 3 bytes after it, in a cycle and out of one.
    for part in [W1K, B2K] {
        let mut rig = filled(part);
        rig.device.wel = true;
        for code in 0..=255 {
            for count in 0..=3 {
                for countdown in [0, 100] {
                    rig.device.countdown = countdown;
                    let bytes = [&[code][..], &[0x1F, 0x00, 0x00][..count]].concat();
                    let open = opened(&rig, &bytes);
                    for leftover in 0..=7 {
                        let bits = open.clone().end(leftover);
                        assert_eq!(
                            bits.map(|bits| shown_bits(bits, leftover)),
                            by_the_next_byte(&open, leftover),
                            "{bytes:02X?} and {leftover} bits, {countdown} ticks left"
                        );
                    }
                }
            }
        }
    }
}

#[test]
fn ends_of_random_tapes() {
    let mut answered = 0;
    for made in [generate::tape, generate::power_tape, generate::latch_tape, generate::bits_tape] {
        for seed in 0..40 {
            let mut rig = Rig::new(1 + seed % 4);
            for line in made(seed, 400).split(|&b| b == b'\n') {
                let Ok((Op::Do(act), number)) = parse(line) else { continue };
                let before = rig.clone();
                let answer = rig.act(act, number);
                if act != Act::End {
                    continue;
                }
                let expected = match answer.number {
                    0 => by_the_next_byte(&before, number),
                    _ => None,
                };
                assert_eq!(answer.reply.map(|bits| shown_bits(bits, number)), expected);
                answered += u64::from(expected.is_some());
            }
        }
    }
    assert!(answered > 1_000, "{answered} ends with bits");
}

#[test]
fn records_from_elsewhere() {
    // A frame that is open in the record answers as one that was opened by acts.
    let mut rig = filled(W2K);
    rig.eeprom[0xFF] = 0x5A;
    rig.device.frame = Frame::Reading(Place::Eeprom(0xFF));
    assert_eq!(bits_now(&rig), OF_5A);
    rig.device.frame = Frame::Reading(Place::Clock(0x09));
    assert_eq!(bits_now(&rig), OF_B4);
    rig.device.countdown = 7;
    assert_eq!(bits_now(&rig), OF_B4);
    // EEREAD cannot be open and heard in a cycle: number 6, and no bits.
    rig.device.frame = Frame::Reading(Place::Eeprom(0xFF));
    rig.refused(Act::End, 5, 6);
}

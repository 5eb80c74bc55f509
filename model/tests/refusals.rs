//! 01 Acts and refusal numbers: each number on both sides of its limit, every row of number 6,
//! and which goes first.

mod common;
use common::*;
use model::chip::{Code, Device, Frame, Lock, Place, Protection, Target, TooLong, Two};
use model::Act;

fn refused_by_all(rig: &mut Rig, number: u64) {
    for act in Act::ALL {
        rig.refused(act, 0, number);
    }
}

fn heard(code: u8) -> Frame {
    Frame::Heard(Code::of(code))
}

#[test]
fn number_1_select_while_selected() {
    let mut rig = Rig::new(W2K);
    rig.done(Act::Select, 0);
    rig.refused(Act::Select, 0, 1);
    rig.byte(0x05);
    rig.refused(Act::Select, 0, 1);
    rig.end(0);
    rig.done(Act::Select, 0);
}

#[test]
fn number_2_byte_or_end_while_not_selected() {
    let mut rig = Rig::new(W2K);
    rig.refused(Act::Byte, 6, 2);
    rig.refused(Act::End, 0, 2);
    rig.select();
    rig.done(Act::Byte, 6);
    rig.done(Act::End, 0);
    rig.refused(Act::End, 0, 2);
    // Waits and cuts need no frame.
    rig.done(Act::Wait, 1);
    rig.done(Act::Cut, 0);
}

#[test]
fn number_3_by_the_argument() {
    let mut rig = Rig::new(W2K);
    rig.refused(Act::Select, 1, 3);
    rig.refused(Act::Select, u64::MAX, 3);
    rig.select();
    rig.done(Act::Byte, 255);
    rig.refused(Act::Byte, 256, 3);
    rig.refused(Act::Byte, 256 + 6, 3);
    rig.refused(Act::End, 8, 3);
    rig.done(Act::End, 7);
    assert_eq!(rig.done(Act::Wait, 16_777_216).count, 16_777_216);
    rig.refused(Act::Wait, 16_777_217, 3);
    rig.refused(Act::Wait, u64::MAX, 3);
    rig.refused(Act::Cut, 256, 3);
    rig.done(Act::Cut, 255);
    rig.refused(Act::Up, 1, 3);
    rig.done(Act::Up, 0);
}

#[test]
fn number_3_by_the_part() {
    for part in [0, 5, 6, 255, 256, u64::MAX] {
        let mut rig = Rig::new(W2K);
        rig.part = part;
        refused_by_all(&mut rig, 3);
    }
    for part in [W1K, W2K, B1K, B2K] {
        Rig::new(part).done(Act::Select, 0);
    }
}

#[test]
fn number_4_by_a_memorys_length() {
    // 01 Chip has the lengths.
    for (part, good, bad) in [
        (W1K, 128, [0, 127, 129, 256]),
        (W2K, 256, [0, 128, 255, 257]),
        (B1K, 128, [0, 127, 129, 256]),
        (B2K, 256, [0, 128, 255, 257]),
    ] {
        for length in bad {
            let mut rig = Rig::new(part);
            rig.eeprom.resize(length, 0xFF);
            refused_by_all(&mut rig, 4);
        }
        for length in [0, 15, 17] {
            let mut rig = Rig::new(part);
            rig.id.resize(length, 0xFF);
            refused_by_all(&mut rig, 4);
        }
        let mut rig = Rig::new(part);
        rig.eeprom.resize(good, 0xFF);
        rig.done(Act::Select, 0);
    }
}

#[test]
fn number_5_by_the_power() {
    let mut rig = Rig::new(W2K);
    rig.refused(Act::Up, 0, 5);
    rig.done(Act::Cut, 0);
    rig.refused(Act::Select, 0, 5);
    rig.refused(Act::Byte, 0, 5);
    rig.refused(Act::End, 0, 5);
    rig.refused(Act::Cut, 0, 5);
    rig.done(Act::Wait, 10);
    rig.done(Act::Up, 0);
    rig.refused(Act::Up, 0, 5);
    rig.done(Act::Select, 0);
}

/// The record is in range: a wait of no tick is done, and stays what it was.
fn in_range(part: u64, change: impl Fn(&mut Device)) {
    let mut rig = Rig::new(part);
    change(&mut rig.device);
    let before = rig.clone();
    rig.done(Act::Wait, 0);
    assert_eq!(rig, before);
}

/// The record is out of range: number 6 for every act.
fn out_of_range(part: u64, change: impl Fn(&mut Device)) {
    let mut rig = Rig::new(part);
    change(&mut rig.device);
    refused_by_all(&mut rig, 6);
}

#[test]
fn number_6_counts() {
    for part in [W1K, W2K, B1K, B2K] {
        in_range(part, |d| d.divider = 32_767);
        out_of_range(part, |d| d.divider = 32_768);
        out_of_range(part, |d| d.divider = u64::MAX);
        in_range(part, |d| (d.start_up, d.registers[1]) = (32, 0x80));
        out_of_range(part, |d| (d.start_up, d.registers[1]) = (33, 0x80));
        in_range(part, |d| d.countdown = 164);
        out_of_range(part, |d| d.countdown = 165);
        in_range(part, |d| d.pulse = 4_096);
        out_of_range(part, |d| d.pulse = 4_097);
        in_range(part, |d| d.delay = 2_097_152);
        out_of_range(part, |d| d.delay = 2_097_153);
        in_range(part, |d| d.offset = 7);
        out_of_range(part, |d| d.offset = 8);
    }
}

#[test]
fn number_6_id_pointer() {
    for part in [W1K, W2K, B1K, B2K] {
        for open in [Frame::Reading, Frame::Writing] {
            in_range(part, |d| d.frame = open(Place::Id(15)));
            out_of_range(part, |d| d.frame = open(Place::Id(16)));
        }
        in_range(part, |d| d.target = Target::Id(15));
        // In use or not.
        for countdown in [0, 1] {
            out_of_range(part, |d| (d.target, d.countdown) = (Target::Id(16), countdown));
        }
    }
}

#[test]
fn number_6_watchdog_count() {
    // 01 Calendar has the periods; only bits 2:0 of 0Ah choose.
    let periods = [32, 512, 2_048, 4_096, 32_768, 524_288, 1_048_576, 2_097_152];
    for (bits, period) in (0..).zip(periods) {
        for others in [0x00, 0x08, 0xF0] {
            in_range(W1K, |d| (d.registers[0x0A], d.watchdog) = (others | bits, period - 1));
            out_of_range(W1K, |d| (d.registers[0x0A], d.watchdog) = (others | bits, period));
        }
    }
}

#[test]
fn number_6_eeprom_pointer() {
    for (part, length) in [(W1K, 128), (B1K, 128), (W2K, 256), (B2K, 256)] {
        for open in [Frame::Reading, Frame::Writing] {
            in_range(part, |d| d.frame = open(Place::Eeprom(length - 1)));
            out_of_range(part, |d| d.frame = open(Place::Eeprom(length)));
        }
        in_range(part, |d| d.target = Target::Eeprom(length - 1));
        // In use or not.
        for countdown in [0, 1] {
            out_of_range(part, |d| (d.target, d.countdown) = (Target::Eeprom(length), countdown));
        }
    }
}

#[test]
fn number_6_register_bits() {
    // The masks are those of 01 Frames; from 18h on 02 Time-stamps allows any byte.
    let masks = [
        0xFF, 0xFF, 0x7F, 0xFF, 0x1F, 0x3F, 0x1F, 0xFF, 0xFF, 0xFF, 0xFF, 0xFF, 0x7F, 0x7F, 0x3F,
        0xFF, 0x3F, 0x1F, 0xFF, 0x7F, 0x7F, 0x3F, 0xFF, 0x3F, 0xFF, 0xFF, 0xFF, 0xFF, 0xFF, 0xFF,
        0xFF, 0xFF,
    ];
    for (register, mask) in masks.into_iter().enumerate() {
        in_range(B2K, |d| d.registers[register] = mask);
        for bit in 0..8 {
            if mask >> bit & 1 == 0 {
                out_of_range(B2K, |d| d.registers[register] |= 1 << bit);
            }
        }
    }
}

#[test]
fn number_6_start_up_with_st_clear() {
    for part in [W1K, W2K] {
        in_range(part, |d| d.start_up = 0);
        out_of_range(part, |d| d.start_up = 1);
        out_of_range(part, |d| d.start_up = 32);
        in_range(part, |d| (d.start_up, d.registers[1]) = (1, 0x80));
    }
    for part in [B1K, B2K] {
        in_range(part, |d| d.start_up = 32);
    }
}

#[test]
fn number_6_power_off() {
    for part in [W1K, B2K] {
        in_range(part, |d| d.power = false);
        for frame in [Frame::Empty, Frame::Unheard, heard(0x05)] {
            in_range(part, |d| d.frame = frame);
            out_of_range(part, |d| (d.power, d.frame) = (false, frame));
        }
        in_range(part, |d| d.countdown = 1);
        out_of_range(part, |d| (d.power, d.countdown) = (false, 1));
    }
}

#[test]
fn number_6_mark() {
    // 02 Time-stamps: the mark with power on is out of range; with power off it is not, whatever
    // VBAT (04h bit 4) and VBATEN (bit 3) say.
    for part in [W1K, W2K, B1K, B2K] {
        for day in [0x01, 0x09, 0x11, 0x19] {
            for power in [true, false] {
                in_range(part, |d| (d.power, d.registers[4]) = (power, day));
            }
            out_of_range(part, |d| (d.stamp_due, d.registers[4]) = (true, day));
            in_range(part, |d| (d.power, d.stamp_due, d.registers[4]) = (false, true, day));
        }
    }
}

#[test]
fn number_6_frame_under_a_cycle() {
    // The five of 01 Frames: SRREAD 05, READ 13, WRITE 12, CLRWDT 44, CLRRAM 54.
    for code in 0..=255 {
        in_range(W2K, |d| d.frame = heard(code));
        match code {
            0x05 | 0x13 | 0x12 | 0x44 | 0x54 => {
                in_range(W2K, |d| (d.frame, d.countdown) = (heard(code), 1));
            }
            _ => out_of_range(W2K, |d| (d.frame, d.countdown) = (heard(code), 1)),
        }
    }
    for frame in [
        Frame::Idle,
        Frame::Empty,
        Frame::Unheard,
        Frame::Reading(Place::Clock(0)),
        Frame::Writing(Place::Clock(0)),
        Frame::Second(Two::Clrwdt),
        Frame::Second(Two::Clrram),
        Frame::Over(TooLong::Clrwdt),
        Frame::Over(TooLong::Clrram),
    ] {
        in_range(W2K, |d| (d.frame, d.countdown) = (frame, 164));
    }
    for frame in [
        Frame::Reading(Place::Eeprom(0)),
        Frame::Reading(Place::Id(0)),
        Frame::Writing(Place::Eeprom(0)),
        Frame::Writing(Place::Id(0)),
        Frame::Second(Two::Srwrite(0)),
        Frame::Second(Two::Unlock(0)),
        Frame::Over(TooLong::Srwrite),
        Frame::Over(TooLong::Unlock),
        Frame::Over(TooLong::Eewren),
        Frame::Over(TooLong::Eewrdi),
    ] {
        in_range(W2K, |d| d.frame = frame);
        out_of_range(W2K, |d| (d.frame, d.countdown) = (frame, 164));
    }
}

#[test]
fn what_the_list_does_not_name_is_in_range() {
    in_range(W2K, |d| (d.power, d.wel) = (false, true));
    in_range(W2K, |d| (d.power, d.lock) = (false, Lock::Open));
    in_range(W2K, |d| (d.power, d.pulse) = (false, 4));
    in_range(W2K, |d| (d.power, d.registers[0x0A]) = (false, 0x80));
    in_range(W2K, |d| (d.countdown, d.wel, d.loaded) = (7, false, 0));
    in_range(W2K, |d| (d.countdown, d.target) = (7, Target::Status(Protection::All)));
    in_range(W2K, |d| d.frame = Frame::Unheard);
    in_range(W2K, |d| d.frame = Frame::Reading(Place::Clock(0xFF)));
    in_range(W2K, |d| d.frame = Frame::Writing(Place::Clock(0xFF)));
}

/// Under the table of 01 Acts: the order of its numbers. (A line's own are the tape's.)
#[test]
fn which_goes_first() {
    // All of them: a bad part, memory, record, number, power, and no frame.
    let mut rig = Rig::new(W2K);
    rig.part = 5;
    rig.id.pop();
    rig.device.power = false;
    rig.device.divider = 32_768;
    rig.refused(Act::Byte, 256, 3);
    rig.part = W2K;
    rig.refused(Act::Byte, 256, 4);
    rig.id.push(0xFF);
    rig.refused(Act::Byte, 256, 6);
    rig.device.divider = 32_767;
    rig.refused(Act::Byte, 256, 3);
    rig.refused(Act::Byte, 255, 5);
    rig.device.power = true;
    rig.refused(Act::Byte, 255, 2);
    rig.device.frame = Frame::Empty;
    rig.done(Act::Byte, 255);
    // Number 3 before 1, and 3 before 5 for up.
    rig.refused(Act::Select, 1, 3);
    rig.refused(Act::Select, 0, 1);
    rig.refused(Act::Up, 1, 3);
    rig.refused(Act::Up, 0, 5);
    // Number 3 for an end before 2.
    rig.end(0);
    rig.refused(Act::End, 8, 3);
    rig.refused(Act::End, 7, 2);
    // The part's length decides number 4, so a wrong part with the right memories is 3.
    rig.part = 0;
    rig.eeprom.pop();
    rig.refused(Act::Wait, 0, 3);
    // A record out of range for its memory, under a memory of another length: 4 before 6.
    let mut rig = Rig::new(W1K);
    rig.device.target = Target::Eeprom(200);
    rig.refused(Act::Wait, 0, 6);
    rig.eeprom.resize(256, 0xFF);
    rig.refused(Act::Wait, 0, 4);
    // The same record is in range on a 2 Kbit part.
    rig.part = W2K;
    rig.done(Act::Wait, 0);
}

#[test]
fn fresh_is_in_range() {
    for part in [W1K, W2K, B1K, B2K] {
        in_range(part, |_| {});
    }
}

#[test]
fn fresh_as_the_paper_has_it() {
    // 01 Acts, the last paragraph, and no mark.
    let mut rig = Rig::new(B2K);
    let d = &rig.device;
    assert!(d.power && d.frame == Frame::Idle && d.lock == Lock::Closed && !d.stamp_due);
    assert_eq!(d.sram, [0; 64]);
    let mut registers = [0; 32];
    (registers[4], registers[5], registers[6]) = (1, 1, 1);
    assert_eq!(d.registers, registers);
    assert_eq!(
        (d.divider, d.start_up, d.countdown, d.watchdog, d.delay, d.pulse),
        (0, 0, 0, 0, 0, 0)
    );
    // 02 Events: both inputs low, and nothing counted.
    assert_eq!((d.evls, d.evhs, d.edges, d.since, d.debounce), (0, 0, 0, 0, 0));
    assert_eq!(rig.status(), 0);
    assert_eq!(rig.frame(&[0x03, 0x00, 0])[2], Some(0xFF));
    assert_eq!(rig.frame(&[0x33, 0x00, 0])[2], Some(0xFF));
}

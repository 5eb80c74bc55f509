//! 01 Power cut.

mod common;
use common::*;
use model::chip::{Device, Frame, Lock, Protection};
use model::Act;

#[test]
fn loaded_offsets_under_the_mask() {
    // 01 Power: what is both loaded and in the mask gets stored, and is counted.
    for mask in 0..=255u8 {
        let mut rig = Rig::new(W2K);
        rig.eeprom_write(0x16, &[1, 2, 3]); // offsets 6, 7, 0 of page 10h
        rig.wait(80);
        let mut expected = vec![0xFF; 256];
        let mut count = 0;
        for (bit, place, byte) in [(6, 0x16, 1), (7, 0x17, 2), (0, 0x10, 3)] {
            if mask >> bit & 1 == 1 {
                expected[place] = byte;
                count += 1;
            }
        }
        assert_eq!(rig.cut(mask), count);
        assert_eq!(rig.eeprom, expected);
        // It does not go on when power is back.
        rig.up();
        assert_eq!(rig.wait(1_000), 1_000);
        assert_eq!(rig.eeprom, expected);
        assert_eq!(rig.status(), 0);
    }
}

#[test]
fn an_id_cycle() {
    let mut rig = Rig::new(W2K);
    rig.unlock();
    rig.enable();
    rig.frame(&[0x32, 0x08, 1, 2, 3, 4]);
    assert_eq!(rig.cut(0b1111_1010), 2);
    assert_eq!(rig.id[8..], [0xFF, 2, 0xFF, 4, 0xFF, 0xFF, 0xFF, 0xFF]);
}

#[test]
fn a_status_cycle() {
    // 01 Power: of the mask only bit 0 counts for SRWRITE, and it is what is answered.
    for (mask, count, protection) in
        [(0x01, 1, Protection::Half), (0xFF, 1, Protection::Half), (0xFE, 0, Protection::Nothing)]
    {
        let mut rig = Rig::new(W2K);
        rig.enable();
        rig.frame(&[0x01, 0b1000]);
        assert_eq!(rig.cut(mask), count);
        assert_eq!(rig.device.protection, protection);
    }
}

#[test]
fn no_cycle() {
    // 01 Power: nothing to store.
    let mut rig = Rig::new(W2K);
    assert_eq!(rig.cut(0xFF), 0);
    // A write that is loaded but not ended is dropped with its frame.
    let mut rig = Rig::new(W2K);
    rig.enable();
    rig.select();
    for byte in [0x02, 0x00, 0x34] {
        assert_eq!(rig.byte(byte), None);
    }
    assert_eq!(rig.cut(0xFF), 0);
    assert_eq!(rig.eeprom[0], 0xFF);
    // After its 164th tick a cycle is over.
    let mut rig = Rig::new(W2K);
    rig.eeprom_write(0, &[1]);
    rig.wait(164);
    assert_eq!(rig.cut(0xFF), 0);
    assert_eq!(rig.eeprom[0], 1);
}

#[test]
fn what_a_cut_drops() {
    // 01 Power: frame and selection, WEL, the lock, and of the watchdog its bit 7 and its counts.
    let mut rig = Rig::new(B2K);
    rig.write(0x04, &[0x09]); // VBATEN
    rig.unlock();
    rig.enable();
    rig.wait(32);
    // Not by WRITE, which would close the lock.
    rig.device.registers[0x0A] = 0xBF;
    (rig.device.watchdog, rig.device.delay, rig.device.pulse) = (5, 6, 7);
    rig.select();
    rig.byte(0x13);
    rig.cut(0);
    let d = &rig.device;
    assert_eq!((d.power, d.frame, d.wel, d.lock), (false, Frame::Idle, false, Lock::Closed));
    assert_eq!((d.registers[0x0A], d.watchdog, d.delay, d.pulse), (0x3F, 0, 0, 0));
    assert_eq!(rig.lines(), (1, 1));
    rig.refused(Act::End, 0, 5);
    rig.up();
    rig.refused(Act::End, 0, 2);
    // 000, register 5-11: power does not bring bit 7 back.
    assert_eq!(rig.read(0x0A), 0x3F);
}

#[test]
fn vbaten_set() {
    // 01 Power: bit 3 of 04h set, so the clock goes on and nothing of it is lost.
    let mut rig = Rig::new(W2K);
    rig.write(0x20, &[0x5A; 64]);
    rig.write(0x00, &[0x00, 0x80, 0x00, 0x00, 0x09]);
    rig.write(0x09, &[0x12]);
    rig.protect(0b10); // 164 ticks: 32 to start up, then 132 that count
    rig.cut(0);
    assert_eq!((rig.device.divider, rig.device.start_up), (132, 32));
    assert_eq!(rig.wait(32_768 - 132), 32_768 - 132);
    rig.up();
    assert_eq!(rig.time()[..2], [0x00, 0x81]);
    // 04h: OSCON (bit 5), VBATEN (bit 3), day 1, and VBAT (bit 4), which the cut has set.
    assert_eq!((rig.read(0x04), rig.read(0x09), rig.read(0x3F)), (0x39, 0x12, 0x5A));
    // BP does not need a battery.
    assert_eq!(rig.status(), 0b1000);
}

#[test]
fn vbaten_clear() {
    // 01 Power: the clock and its SRAM begin anew and stand still until then. BP is kept.
    for part in [W2K, B2K] {
        let mut rig = Rig::new(part);
        rig.write(0x20, &[0x5A; 64]);
        rig.write(0x00, &[0x00, 0x80, 0x00, 0x00, 0x01]);
        rig.write(0x0A, &[0xBF]);
        rig.write(0x09, &[0x12]);
        rig.protect(0b01);
        rig.cut(0xFF);
        let fresh = Device::fresh();
        let off = rig.clone();
        assert_eq!((off.device.registers, off.device.sram), (fresh.registers, fresh.sram));
        assert_eq!((off.device.divider, off.device.start_up), (0, 0));
        // It uses all its ticks and changes nothing, the start-up count of a B part included.
        assert_eq!(rig.wait(100_000), 100_000);
        assert_eq!(rig, off);
        rig.up();
        assert_eq!(rig.status(), 0b0100);
        assert_eq!(rig.read(0x04), 0x01);
    }
}

#[test]
fn a_b_part_starts_up_on_its_battery() {
    let mut rig = Rig::new(B2K);
    rig.write(0x04, &[0x09]);
    rig.cut(0);
    rig.wait(32);
    assert_eq!(rig.device.start_up, 32);
}

#[test]
fn an_alarm_on_the_battery() {
    // The lines follow the same rule with power off, and a wait stops at their change.
    let mut rig = Rig::new(W2K);
    rig.start_at([0x00, 0x00, 0x00, 0x00, 0x09, 0x01, 0x01, 0x00]);
    rig.write(0x08, &[0x10]);
    rig.write(0x0C, &[0x01]);
    rig.cut(0);
    assert_eq!(rig.wait(100_000), 32_768);
    assert_eq!(rig.lines(), (0, 1));
    rig.up();
    assert_eq!(rig.lines(), (0, 1));
}

#[test]
fn a_cut_with_an_alarm_and_vbaten_clear() {
    let mut rig = Rig::new(W2K);
    rig.write(0x0F, &[0x08]);
    rig.write(0x08, &[0x10]);
    assert_eq!(rig.lines(), (0, 1));
    rig.cut(0);
    assert_eq!(rig.lines(), (1, 1)); // the registers are as fresh
}

#[test]
fn up_changes_the_power_alone() {
    // Where the cut took no time-stamp; tests/stamps.rs has the others.
    let mut rig = Rig::new(W2K);
    rig.cut(0);
    let off = rig.device.clone();
    rig.up();
    assert_eq!(rig.device, Device { power: true, ..off });
}

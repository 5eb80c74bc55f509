//! 01 Frames, with 000's section 3 and 002's section 6.1.

mod common;
use common::*;
use model::chip::{Code, Frame, Lock, Place, Protection};

const ALL_CODES: [u8; 13] =
    [0x03, 0x02, 0x04, 0x06, 0x05, 0x01, 0x13, 0x12, 0x14, 0x32, 0x33, 0x44, 0x54];

#[test]
fn which_bytes_get_a_reply() {
    // 01 Frames: SO is off for a code and for an address. After these EEREAD, READ and IDREAD
    // drive a byte for each one that comes, SRREAD right after its code. Other codes never do.
    for code in 0..=255 {
        let mut rig = Rig::new(W2K);
        let driven: Vec<bool> =
            rig.frame(&[code, 0, 0, 0, 0]).iter().map(Option::is_some).collect();
        let expected = match code {
            0x05 => [false, true, true, true, true],
            0x03 | 0x13 | 0x33 => [false, false, true, true, true],
            _ => [false; 5],
        };
        assert_eq!(driven, expected, "code {code:02X}h");
    }
}

#[test]
fn unknown_codes_change_nothing() {
    for code in (0..=255).filter(|code| !ALL_CODES.contains(code)) {
        let mut rig = Rig::new(W2K);
        rig.write(0x20, &[1, 2, 3]);
        rig.enable();
        let before = rig.clone();
        for bytes in 1..=4 {
            rig.frame(&[code, 0x55, 0xAA, 0x34][..bytes]);
        }
        assert_eq!(rig, before, "code {code:02X}h");
    }
}

#[test]
fn status_bits() {
    // 01 Frames: from bit 0 up WIP, WEL, BP0 and BP1, then zeros.
    let mut rig = Rig::new(W2K);
    assert_eq!(rig.status(), 0b0000);
    rig.enable();
    assert_eq!(rig.status(), 0b0010);
    // 01 Frames: SRWRITE looks at bits 3 and 2 of its byte.
    rig.frame(&[0x01, 0b1111_0111]);
    assert_eq!(rig.status(), 0b0011);
    rig.wait(164);
    assert_eq!(rig.status(), 0b0100);
    rig.enable();
    rig.frame(&[0x01, 0b0000_1000]);
    rig.wait(164);
    assert_eq!(rig.status(), 0b1000);
    rig.enable();
    rig.frame(&[0x01, 0b0000_1100]);
    rig.wait(164);
    assert_eq!(rig.status(), 0b1100);
}

#[test]
fn status_of_the_moment() {
    let mut rig = Rig::new(W2K);
    rig.eeprom_write(0, &[0]);
    rig.select();
    rig.byte(0x05);
    assert_eq!(rig.byte(0), Some(0b0011));
    rig.wait(163);
    assert_eq!(rig.byte(0), Some(0b0011));
    rig.wait(1);
    assert_eq!(rig.byte(0), Some(0b0000));
}

#[test]
fn eeprom_pointer_rolls() {
    // 01 Frames: after the highest address, FFh or 7Fh, a read goes on at 00h.
    let mut rig = Rig::new(W2K);
    (rig.eeprom[0xFF], rig.eeprom[0x00], rig.eeprom[0x7F]) = (1, 2, 3);
    assert_eq!(rig.frame(&[0x03, 0xFF, 0, 0])[2..], [Some(1), Some(2)]);
    assert_eq!(rig.frame(&[0x03, 0x7F, 0, 0])[2..], [Some(3), Some(0xFF)]);
    let mut rig = Rig::new(W1K);
    (rig.eeprom[0x7F], rig.eeprom[0x00], rig.eeprom[0x01]) = (1, 2, 3);
    assert_eq!(rig.frame(&[0x03, 0x7F, 0, 0])[2..], [Some(1), Some(2)]);
    // 01 Frames: with 1 Kbit, bit 7 of the address does not count.
    assert_eq!(rig.frame(&[0x03, 0xFF, 0, 0])[2..], [Some(1), Some(2)]);
    assert_eq!(rig.frame(&[0x03, 0x81, 0])[2..], [Some(3)]);
    rig.eeprom_write(0x90, &[7]);
    rig.wait(164);
    assert_eq!(rig.eeprom[0x10], 7);
}

#[test]
fn id_pointer_rolls() {
    // 01 Frames: the low four bits of an ID address count; 00h comes after 0Fh.
    let mut rig = Rig::new(W2K);
    (rig.id[15], rig.id[0], rig.id[3]) = (1, 2, 3);
    assert_eq!(rig.frame(&[0x33, 0x0F, 0, 0])[2..], [Some(1), Some(2)]);
    assert_eq!(rig.frame(&[0x33, 0xF3, 0])[2..], [Some(3)]);
}

#[test]
fn from_60h_up() {
    // 01 Frames (bench): past the SRAM nothing can be written or read, and the pointer is stuck.
    for address in 0x60..=0xFF {
        let mut rig = Rig::new(W2K);
        let before = rig.device.clone();
        rig.select();
        for byte in [&[0x12, address][..], &[0xFF; 200]].concat() {
            rig.byte(byte);
        }
        assert_eq!(rig.device.frame, Frame::Writing(Place::Clock(address)));
        rig.end(0);
        assert_eq!((rig.device.registers, rig.device.sram), (before.registers, before.sram));
        rig.write(0x00, &[0x77]);
        rig.write(0x20, &[0x77]);
        assert_eq!(rig.frame(&[0x13, address, 0, 0, 0])[2..], [Some(0), Some(0), Some(0)]);
        rig.select();
        for byte in [0x13, address, 0, 0, 0] {
            rig.byte(byte);
        }
        assert_eq!(rig.device.frame, Frame::Reading(Place::Clock(address)));
    }
}

#[test]
fn writable_masks() {
    // 01 Frames: the bits that a write can set, register by register. 02 Time-stamps: of 04h's
    // mask 1Fh a write cannot set bit 4, VBAT.
    let masks = [
        0xFF, 0xFF, 0x7F, 0xFF, 0x0F, 0x3F, 0x1F, 0xFF, 0xFF, 0xFF, 0xFF, 0xFF, 0x7F, 0x7F, 0x3F,
        0xFF, 0x3F, 0x1F, 0xFF, 0x7F, 0x7F, 0x3F, 0xFF, 0x3F, 0, 0, 0, 0, 0, 0, 0, 0,
    ];
    let mut rig = Rig::new(W2K);
    rig.write(0x00, &[0xFF; 32]);
    assert_eq!(rig.device.registers, masks);
    // As read: bit 6 of 0Eh and 15h copies bit 6 of 03h, which is now set.
    let read: Vec<u8> = rig.frame(&[&[0x13, 0], &[0; 32][..]].concat())[2..]
        .iter()
        .map(|reply| reply.unwrap())
        .collect();
    let mut shown = masks;
    (shown[0x0E], shown[0x15]) = (0x7F, 0x7F);
    assert_eq!(read, shown);
    rig.write(0x00, &[0x00; 32]);
    assert_eq!(rig.device.registers, [0; 32]);
}

#[test]
fn sram_keeps_every_bit() {
    let mut rig = Rig::new(W2K);
    let data: Vec<u8> = (0..64u8).map(|i| i.wrapping_mul(5) ^ 0xA7).collect();
    rig.write(0x20, &data);
    assert_eq!(rig.device.sram.to_vec(), data);
    for (address, byte) in (0x20..).zip(data) {
        assert_eq!(rig.read(address), byte);
    }
}

#[test]
fn bits_made_when_read() {
    let mut rig = Rig::new(B2K);
    // 01 Frames: the alarms' hours show the clock's 12/24 bit.
    rig.write(0x0E, &[0x7F]);
    rig.write(0x15, &[0x40]);
    assert_eq!((rig.read(0x0E), rig.read(0x15)), (0x3F, 0x00));
    rig.write(0x03, &[0x52]);
    assert_eq!((rig.read(0x0E), rig.read(0x15)), (0x7F, 0x40));
    assert_eq!((rig.device.registers[0x0E], rig.device.registers[0x15]), (0x3F, 0x00));
    // 01 Frames: OSCON shows in bit 5 of 04h, from the 32nd tick of the start on.
    rig.write(0x04, &[0x2A]);
    rig.wait(31);
    assert_eq!(rig.read(0x04), 0x0A);
    rig.wait(1);
    assert_eq!((rig.read(0x04), rig.device.registers[0x04]), (0x2A, 0x0A));
    // 01 Frames, Calendar: bit 5 of 06h tells a leap year, a valid one that 4 divides.
    for (year, leap) in [(0x00, 0x20), (0x01, 0), (0x04, 0x20), (0x96, 0x20), (0x0C, 0), (0xA0, 0)]
    {
        rig.write(0x06, &[0x32, year]);
        assert_eq!((rig.read(0x06), rig.device.registers[0x06]), (0x12 | leap, 0x12));
    }
}

#[test]
fn enable_and_disable_have_eight_bits() {
    // 01 Frames: a frame of eight bits works when it ends; any longer one does nothing.
    for leftover in 1..=7 {
        let mut rig = Rig::new(W2K);
        rig.frame_with(&[0x06], leftover);
        assert!(!rig.device.wel);
        rig.enable();
        rig.frame_with(&[0x04], leftover);
        assert!(rig.device.wel);
    }
    let mut rig = Rig::new(W2K);
    rig.frame(&[0x06, 0x00]);
    assert!(!rig.device.wel);
    rig.frame(&[0x06]);
    assert!(rig.device.wel);
    rig.frame(&[0x04, 0x04]);
    assert!(rig.device.wel);
    rig.frame(&[0x04]);
    assert!(!rig.device.wel);
}

#[test]
fn clears_have_one_byte_or_two() {
    // 01 Frames (bench): a second byte is allowed, a third or a bit of one is not.
    for (bytes, leftover, acts) in
        [(1, 0, true), (2, 0, true), (3, 0, false), (4, 0, false), (1, 1, false), (2, 7, false)]
    {
        let mut rig = Rig::new(B2K);
        rig.write(0x20, &[0x5A; 64]);
        rig.device.start_up = 32;
        rig.write(0x0A, &[0x81]);
        rig.wait(100);
        assert_eq!(rig.device.watchdog, 100);
        rig.frame_with(&[0x44, 1, 2, 3][..bytes], leftover);
        assert_eq!(rig.device.watchdog, if acts { 0 } else { 100 });
        rig.frame_with(&[0x54, 1, 2, 3][..bytes], leftover);
        assert_eq!(rig.device.sram, if acts { [0; 64] } else { [0x5A; 64] });
        assert_eq!(rig.read(0x0A), 0x81);
    }
}

#[test]
fn page_write() {
    // 01 Frames: eight bytes from x000 on; the ninth goes where the first one went.
    let mut rig = Rig::new(W2K);
    rig.eeprom_write(0x2D, &[1, 2, 3, 4, 5, 6, 7, 8, 9, 10]);
    rig.wait(164);
    assert_eq!(rig.eeprom[0x28..0x30], [4, 5, 6, 7, 8, 9, 10, 3]);
    assert!(rig.eeprom[..0x28].iter().chain(&rig.eeprom[0x30..]).all(|&b| b == 0xFF));
    // Only loaded offsets change.
    rig.eeprom_write(0x2A, &[0x77]);
    rig.wait(164);
    assert_eq!(rig.eeprom[0x28..0x30], [4, 5, 0x77, 7, 8, 9, 10, 3]);
}

#[test]
fn a_write_is_carried_when() {
    let base = [0x02, 0x10, 0x01];
    // 01 Frames: not without WEL.
    let mut rig = Rig::new(W2K);
    rig.frame(&base);
    assert_eq!(rig.device.countdown, 0);
    // 01 Frames (bench): a cycle of 164 ticks.
    rig.enable();
    rig.frame(&base);
    assert_eq!((rig.device.countdown, rig.device.wel), (164, true));
    // Its last tick stores, and takes WEL back.
    rig.wait(163);
    assert_eq!((rig.eeprom[0x10], rig.device.wel), (0xFF, true));
    assert_eq!(rig.wait(1), 1);
    assert_eq!((rig.eeprom[0x10], rig.device.wel), (0x01, false));
    // 01 Frames: not with bits over. 02 Latch: WEL stays.
    rig.enable();
    for leftover in 1..=7 {
        rig.frame_with(&base, leftover);
        assert_eq!((rig.device.countdown, rig.device.wel), (0, true));
    }
}

#[test]
fn writes_without_data_keep_wel() {
    // 01 Frames: a write wants data; without any no cycle starts and WEL stays.
    let mut rig = Rig::new(W2K);
    rig.enable();
    for frame in [&[0x02][..], &[0x02, 0x10], &[0x32], &[0x32, 0x01], &[0x01]] {
        rig.unlock();
        rig.frame(frame);
        assert_eq!((rig.device.countdown, rig.device.wel), (0, true), "{frame:02X?}");
        rig.unlock();
        rig.frame_with(frame, 5);
        assert_eq!((rig.device.countdown, rig.device.wel), (0, true), "{frame:02X?}");
    }
}

#[test]
fn status_write_takes_exactly_one_byte() {
    // 01 Frames: SRWRITE wants one data byte, neither none nor two. 02 Latch: WEL stays.
    let mut rig = Rig::new(W2K);
    rig.enable();
    rig.frame(&[0x01, 0x0C, 0x0C]);
    assert_eq!((rig.device.countdown, rig.device.wel), (0, true));
    rig.frame_with(&[0x01, 0x0C], 3);
    assert_eq!((rig.device.countdown, rig.device.wel), (0, true));
    rig.frame(&[0x01, 0x0C]);
    assert_eq!(rig.wait(1_000), 164);
    assert_eq!((rig.device.protection, rig.device.wel), (Protection::All, false));
}

#[test]
fn protection() {
    // 01 Frames: BP 00 nothing, 01 the last quarter, 10 the last half, 11 everything.
    for (part, bp, free, protected) in [
        (W2K, 0b00, vec![0x00, 0x40, 0x80, 0xC0, 0xFF], vec![]),
        (W2K, 0b01, vec![0x00, 0x7F, 0xBF], vec![0xC0, 0xFF]),
        (W2K, 0b10, vec![0x00, 0x7F], vec![0x80, 0xBF, 0xC0, 0xFF]),
        (W2K, 0b11, vec![], vec![0x00, 0x7F, 0x80, 0xFF]),
        (W1K, 0b00, vec![0x00, 0x60, 0x7F, 0xFF], vec![]),
        (W1K, 0b01, vec![0x00, 0x5F, 0xDF], vec![0x60, 0x7F, 0xE0, 0xFF]),
        (W1K, 0b10, vec![0x00, 0x3F, 0xBF], vec![0x40, 0x7F, 0xC0]),
        (W1K, 0b11, vec![], vec![0x00, 0x3F, 0x40, 0x7F]),
    ] {
        let mut rig = Rig::new(part);
        rig.protect(bp);
        for address in free {
            assert!(rig.eeprom_write(address, &[1]), "{bp:02b} {address:02X}h");
            assert_eq!(rig.wait(164), 164);
        }
        for address in protected {
            assert!(!rig.eeprom_write(address, &[1]), "{bp:02b} {address:02X}h");
            // 02 Latch: data, but no cycle: WEL stays.
            assert!(rig.device.wel);
        }
    }
    // Protection does not reach the ID bytes.
    let mut rig = Rig::new(W2K);
    rig.protect(0b11);
    rig.unlock();
    rig.enable();
    rig.frame(&[0x32, 0x00, 0x01]);
    assert_eq!(rig.device.countdown, 164);
}

#[test]
fn wel_is_reset_by() {
    // 000 3.3: by power-up, by EEWRDI, and by SRWRITE, EEWRITE and IDWRITE that succeed.
    let mut rig = Rig::new(W2K);
    rig.enable();
    rig.cut(0);
    rig.up();
    assert_eq!(rig.status(), 0);
    for write in [&[0x01, 0x00][..], &[0x02, 0x00, 0x01], &[0x32, 0x00, 0x01]] {
        rig.unlock();
        rig.enable();
        rig.frame(write);
        assert_eq!(rig.status(), 0b0011);
        rig.wait(164);
        assert_eq!(rig.status(), 0b0000);
    }
    rig.enable();
    rig.frame(&[0x04]);
    assert_eq!(rig.status(), 0);
}

#[test]
fn heard_under_wip() {
    // 01 Frames: of the 256 codes five get through in a cycle; nothing comes of the others.
    for code in 0..=255 {
        let mut rig = Rig::new(W2K);
        rig.eeprom_write(0, &[0]);
        rig.select();
        rig.byte(code);
        let heard = matches!(code, 0x05 | 0x13 | 0x12 | 0x44 | 0x54);
        let expected = if heard { Frame::Heard(Code::of(code)) } else { Frame::Unheard };
        assert_eq!(rig.device.frame, expected);
    }
    let mut rig = Rig::new(W2K);
    rig.eeprom_write(0x10, &[0x34]);
    let running = rig.device.clone();
    assert_eq!(rig.frame(&[0x03, 0x00, 0, 0]), [None; 4]); // EEREAD
    assert_eq!(rig.frame(&[0x33, 0x00, 0, 0]), [None; 4]); // IDREAD
    rig.frame(&[0x04]); // EEWRDI
    rig.frame(&[0x02, 0x20, 0x56]); // EEWRITE
    rig.frame(&[0x01, 0x0C]); // SRWRITE
    rig.frame(&[0x14, 0x55]); // UNLOCK
    rig.frame(&[0x77]); // an unknown code
    assert_eq!(rig.device, running);
    rig.wait(164);
    assert_eq!((rig.eeprom[0x10], rig.eeprom[0x20]), (0x34, 0xFF));
}

#[test]
fn hearing_is_judged_at_the_instruction_byte() {
    // 01 Frames: the WIP of the first byte decides for the whole frame.
    let mut rig = Rig::new(W2K);
    rig.eeprom_write(0, &[0x12]);
    rig.select();
    rig.byte(0x03);
    rig.wait(164);
    assert_eq!((rig.byte(0), rig.byte(0), rig.byte(0)), (None, None, None));
    rig.end(0);
    // Selected under WIP, the instruction byte after it.
    rig.eeprom_write(1, &[0x13]);
    rig.select();
    rig.wait(164);
    assert_eq!((rig.byte(0x03), rig.byte(0), rig.byte(0)), (None, None, Some(0x12)));
}

#[test]
fn clock_and_sram_during_a_cycle() {
    // 002 6.0: the start of an EEPROM write cycle shuts neither registers nor SRAM.
    let mut rig = Rig::new(W2K);
    rig.eeprom_write(0, &[0x12]);
    rig.write(0x20, &[0x99]);
    rig.write(0x02, &[0x45]);
    assert_eq!((rig.read(0x20), rig.read(0x02)), (0x99, 0x45));
    assert_eq!(rig.wait(1_000), 164);
    assert_eq!(rig.eeprom[0], 0x12);
}

fn lock_after(frames: &[(&[u8], u64)]) -> Lock {
    let mut rig = Rig::new(W2K);
    for (bytes, leftover) in frames {
        rig.frame_with(bytes, *leftover);
    }
    rig.device.lock
}

#[test]
fn lock_opens_by_55h_then_aah() {
    const FIRST: (&[u8], u64) = (&[0x14, 0x55], 0);
    const SECOND: (&[u8], u64) = (&[0x14, 0xAA], 0);
    assert_eq!(lock_after(&[]), Lock::Closed);
    assert_eq!(lock_after(&[FIRST]), Lock::FirstStep);
    assert_eq!(lock_after(&[FIRST, SECOND]), Lock::Open);
    // 01 Frames (bench): 55h begins anew, from an open lock too.
    assert_eq!(lock_after(&[FIRST, FIRST]), Lock::FirstStep);
    assert_eq!(lock_after(&[FIRST, FIRST, SECOND]), Lock::Open);
    assert_eq!(lock_after(&[FIRST, SECOND, FIRST]), Lock::FirstStep);
    assert_eq!(lock_after(&[FIRST, SECOND, FIRST, SECOND]), Lock::Open);
    // AAh out of turn closes, and so does every other byte.
    assert_eq!(lock_after(&[SECOND]), Lock::Closed);
    assert_eq!(lock_after(&[FIRST, SECOND, SECOND]), Lock::Closed);
    for other in 0..=255 {
        if other != 0x55 && other != 0xAA {
            assert_eq!(lock_after(&[FIRST, (&[0x14, other], 0)]), Lock::Closed);
            assert_eq!(lock_after(&[FIRST, SECOND, (&[0x14, other], 0)]), Lock::Closed);
        }
    }
    // So does a frame that is not two bytes with nothing over.
    for wrong in [&[0x14][..], &[0x14, 0x55, 0x55], &[0x14, 0xAA, 0xAA], &[0x14, 0x55, 0xAA]] {
        assert_eq!(lock_after(&[FIRST, SECOND, (wrong, 0)]), Lock::Closed);
        assert_eq!(lock_after(&[FIRST, (wrong, 0)]), Lock::Closed);
    }
    assert_eq!(lock_after(&[(&[0x14, 0x55], 1)]), Lock::Closed);
    assert_eq!(lock_after(&[FIRST, (&[0x14, 0xAA], 7)]), Lock::Closed);
    // A lock that was closed between the steps has to begin anew.
    assert_eq!(lock_after(&[FIRST, (&[0x14, 0x00], 0), SECOND]), Lock::Closed);
}

#[test]
fn which_frames_close_the_lock() {
    // 01 Frames (bench): all that are heard, of any code, but EEWREN and SRREAD; UNLOCK has rules
    // of its own.
    for code in 0..=255 {
        let keeps = matches!(code, 0x06 | 0x05);
        for (frame, leftover) in
            [(&[code][..], 0), (&[code], 3), (&[code, 0], 0), (&[code, 0, 0], 0)]
        {
            if code == 0x14 {
                continue;
            }
            let mut rig = Rig::new(W2K);
            rig.frame(&[0x14, 0x55]);
            rig.frame_with(frame, leftover);
            assert_eq!(rig.device.lock, if keeps { Lock::FirstStep } else { Lock::Closed });
            let mut rig = Rig::new(W2K);
            rig.unlock();
            rig.select();
            for &byte in frame {
                rig.byte(byte);
            }
            assert_eq!(rig.device.lock, Lock::Open); // not before its end
            rig.end(leftover);
            assert_eq!(rig.device.lock, if keeps { Lock::Open } else { Lock::Closed });
        }
    }
    // A frame with no whole byte closes nothing.
    for leftover in 0..=7 {
        let mut rig = Rig::new(W2K);
        rig.unlock();
        rig.frame_with(&[], leftover);
        assert_eq!(rig.device.lock, Lock::Open);
    }
    // A frame that is not heard closes nothing; one of the five does.
    let mut rig = Rig::new(W2K);
    rig.eeprom_write(0, &[0]);
    rig.device.lock = Lock::Open;
    rig.frame(&[0x77, 0]);
    rig.frame(&[0x14, 0x00]);
    assert_eq!(rig.device.lock, Lock::Open);
    rig.frame(&[0x13, 0]);
    assert_eq!(rig.device.lock, Lock::Closed);
}

#[test]
fn id_write() {
    let mut rig = Rig::new(W1K);
    // Locked: no cycle, and WEL stays.
    rig.enable();
    rig.frame(&[0x32, 0x00, 0x01]);
    assert_eq!((rig.device.countdown, rig.device.wel), (0, true));
    // Open: the write is judged first, then its frame closes the lock.
    rig.unlock();
    rig.enable();
    rig.frame(&[0x32, 0x1E, 0x01, 0x02, 0x03]);
    assert_eq!((rig.device.countdown, rig.device.lock), (164, Lock::Closed));
    assert_eq!(rig.wait(500), 164);
    // Page 08h to 0Fh, address 1Eh taken modulo 16.
    assert_eq!(rig.id[8..], [3, 0xFF, 0xFF, 0xFF, 0xFF, 0xFF, 1, 2]);
    assert!(rig.id[..8].iter().all(|&b| b == 0xFF));
    assert!(rig.eeprom.iter().all(|&b| b == 0xFF));
    // Closed again.
    rig.enable();
    rig.frame(&[0x32, 0x00, 0x01]);
    assert_eq!(rig.device.countdown, 0);
    // Only the first step: no.
    rig.frame(&[0x14, 0x55]);
    rig.enable();
    rig.frame(&[0x32, 0x00, 0x01]);
    assert_eq!(rig.device.countdown, 0);
    // Without WEL: no, and the lock is used up.
    rig.frame(&[0x04]);
    rig.unlock();
    rig.frame(&[0x32, 0x00, 0x01]);
    assert_eq!((rig.device.countdown, rig.device.lock), (0, Lock::Closed));
}

#[test]
fn register_writes_that_cause_something() {
    // 01 Calendar: on a W part the write that clears ST ends the oscillator's run.
    let mut rig = Rig::new(W2K);
    rig.write(0x01, &[0x80]);
    rig.wait(700);
    assert_eq!((rig.device.start_up, rig.device.divider, rig.read(0x04)), (32, 668, 0x21));
    rig.write(0x01, &[0x80]);
    assert_eq!(rig.device.start_up, 32);
    rig.write(0x01, &[0x00]);
    // The divider stays.
    assert_eq!((rig.device.start_up, rig.device.divider, rig.read(0x04)), (0, 668, 0x01));
    // 01 Calendar: on a B part it stops divider and calendar, not the oscillator.
    let mut rig = Rig::new(B2K);
    rig.write(0x01, &[0x80]);
    rig.wait(700);
    rig.write(0x01, &[0x00]);
    assert_eq!((rig.device.start_up, rig.device.divider), (32, 668));
    rig.wait(500);
    assert_eq!((rig.device.start_up, rig.device.divider), (32, 668));
}

#[test]
fn bits_of_what_is_left_out() {
    // 01 Chip: what is left out has bits that are kept and without effect. So have the settings of
    // the event inputs while no pin moves. From 18h on are time-stamps, of which there are none
    // yet, and which cannot be written.
    let run = |inert: bool| {
        let mut rig = Rig::new(W2K);
        rig.write(0x01, &[0x80]);
        if inert {
            rig.write(0x08, &[0xCF]); // OUT, SQWE, EXTOSC, RS2:RS0
            rig.write(0x09, &[0xFF]); // calibration
            rig.write(0x0B, &[0x3F]); // all but the event flags
            rig.write(0x03, &[0x80]); // CALSGN
            rig.write(0x18, &[0xFF; 8]);
            let read = [0x08, 0x09, 0x0B, 0x03, 0x18, 0x1F].map(|address| rig.read(address));
            assert_eq!(read, [0xCF, 0xFF, 0x3F, 0x80, 0x00, 0x00]);
        }
        assert_eq!(rig.wait(2_200_000), 2_200_000);
        (rig.device.divider, rig.time()[0..3].to_vec(), rig.lines())
    };
    assert_eq!(run(true), run(false));
}

#[test]
fn figures_of_the_sheet() {
    // 000, figures 3-2 and 3-3: byte and page EEWRITE; 3-1: EEREAD; 3-4 and 3-5: EEWREN, EEWRDI.
    let mut rig = Rig::new(W2K);
    assert_eq!(rig.frame(&[0b0000_0110]), [None]);
    assert_eq!(rig.frame(&[0b0000_0010, 0x40, 0x11]), [None; 3]);
    rig.wait(164);
    rig.frame(&[0b0000_0110]);
    rig.frame(&[0b0000_0010, 0x48, 1, 2, 3, 4, 5, 6, 7, 8]);
    rig.wait(164);
    assert_eq!(
        rig.frame(&[0b0000_0011, 0x47, 0, 0, 0]),
        [None, None, Some(0xFF), Some(1), Some(2)]
    );
    assert_eq!(rig.frame(&[0b0000_0011, 0x40, 0])[2], Some(0x11));
    rig.frame(&[0b0000_0110]);
    assert_eq!(rig.status(), 0b10);
    assert_eq!(rig.frame(&[0b0000_0100]), [None]);
    assert_eq!(rig.status(), 0b00);
}

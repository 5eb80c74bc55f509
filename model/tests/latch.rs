//! 02 Latch and 000's 3.3: EEWREN sets WEL; EEWRDI, the end of a cycle, a cut and an up clear it.
//! A write that comes to nothing leaves it, so that the next write needs no new enable.

mod common;
use common::*;
use model::chip::{Device, Frame, Lock, Protection, Target};
use model::Act;

const PARTS: [u64; 4] = [W1K, W2K, B1K, B2K];

/// WIP and WEL, bits 0 and 1 of STATUS.
const RUNNING: u8 = 0b11;
const ENABLED: u8 = 0b10;
const CLEAR: u8 = 0b00;

/// WIP and WEL as SRREAD shows them.
fn latch(rig: &mut Rig) -> u8 {
    rig.status() & 0b11
}

/// The frame starts no cycle; STATUS and both memories are what they were.
fn comes_to_nothing(rig: &mut Rig, bytes: &[u8], leftover: u64) {
    let (status, eeprom, id) = (rig.status(), rig.eeprom.clone(), rig.id.clone());
    rig.frame_with(bytes, leftover);
    assert_eq!(rig.status(), status, "{bytes:02X?} and {leftover} bits");
    assert_eq!(rig.wait(200), 200, "{bytes:02X?} and {leftover} bits");
    assert_eq!(rig.status(), status, "{bytes:02X?} and {leftover} bits");
    assert_eq!((&rig.eeprom, &rig.id), (&eeprom, &id), "{bytes:02X?} and {leftover} bits");
}

/// The frame starts a cycle, and the cycle's end clears WEL.
fn is_carried(rig: &mut Rig, bytes: &[u8]) {
    rig.frame(bytes);
    assert_eq!(latch(rig), RUNNING, "{bytes:02X?}");
    assert_eq!(rig.wait(1_000), 164, "{bytes:02X?}");
    assert_eq!(latch(rig), CLEAR, "{bytes:02X?}");
}

/// BP1:BP0, a place that they protect and one that they leave free, for 2 Kbit and for 1 Kbit;
/// there 5Fh is the last of three quarters, 3Fh of the lower half, and bit 7 does not count.
const BORDERS_2K: [(u8, u8, u8); 4] =
    [(0b01, 0xC0, 0xBF), (0b01, 0xFF, 0x00), (0b10, 0x80, 0x7F), (0b10, 0xFF, 0x00)];
const BORDERS_1K: [(u8, u8, u8); 6] = [
    (0b01, 0x60, 0x5F),
    (0b01, 0x7F, 0x00),
    (0b01, 0xE0, 0xDF),
    (0b10, 0x40, 0x3F),
    (0b10, 0x7F, 0x00),
    (0b10, 0xC0, 0xBF),
];

#[test]
fn after_a_protected_page() {
    for part in PARTS {
        let borders = if part % 2 == 0 { &BORDERS_2K[..] } else { &BORDERS_1K };
        for &(bp, protected, free) in borders {
            let mut rig = Rig::new(part);
            let place = |address: u8| usize::from(address) % rig.eeprom.len();
            let (protected_place, free_place) = (place(protected), place(free));
            rig.protect(bp);
            rig.enable();
            comes_to_nothing(&mut rig, &[0x02, protected, 0x11], 0);
            comes_to_nothing(&mut rig, &[0x02, protected, 1, 2, 3, 4, 5, 6, 7, 8, 9], 0);
            is_carried(&mut rig, &[0x02, free, 0x22]);
            assert_eq!((rig.eeprom[protected_place], rig.eeprom[free_place]), (0xFF, 0x22));
        }
    }
}

#[test]
fn with_everything_protected() {
    // No page is free, but STATUS and ID can still be written, with the first enable.
    for part in PARTS {
        let mut rig = Rig::new(part);
        rig.protect(0b11);
        rig.enable();
        for address in [0x00, 0x3F, 0x40, 0x7F, 0x80, 0xFF] {
            comes_to_nothing(&mut rig, &[0x02, address, 0x11], 0);
        }
        is_carried(&mut rig, &[0x01, 0x00]);
        assert_eq!(rig.status(), 0);
        rig.enable();
        is_carried(&mut rig, &[0x02, 0x00, 0x11]);
        rig.protect(0b11);
        rig.enable();
        comes_to_nothing(&mut rig, &[0x02, 0x00, 0x22], 0);
        rig.unlock();
        is_carried(&mut rig, &[0x32, 0x00, 0x33]);
        assert_eq!((rig.eeprom[0], rig.id[0]), (0x11, 0x33));
    }
}

#[test]
fn after_a_closed_lock() {
    // Never opened; the first step alone; opened and closed again by a read, by UNLOCK itself.
    let keys: [&[&[u8]]; 4] = [
        &[],
        &[&[0x14, 0x55]],
        &[&[0x14, 0x55], &[0x14, 0xAA], &[0x13, 0x00, 0x00]],
        &[&[0x14, 0x55], &[0x14, 0xAA], &[0x14, 0xAA]],
    ];
    for part in PARTS {
        for frames in keys {
            let mut rig = Rig::new(part);
            rig.enable();
            for frame in frames {
                rig.frame(frame);
            }
            comes_to_nothing(&mut rig, &[0x32, 0x05, 0x11], 0);
            let locked = rig.clone();
            is_carried(&mut rig, &[0x02, 0x05, 0x22]);
            assert_eq!((rig.id[5], rig.eeprom[5]), (0xFF, 0x22));
            // UNLOCK leaves WEL too.
            let mut rig = locked;
            rig.unlock();
            is_carried(&mut rig, &[0x32, 0x05, 0x33]);
            assert_eq!((rig.id[5], rig.eeprom[5]), (0x33, 0xFF));
        }
    }
}

#[test]
fn after_leftover_bits() {
    for leftover in 1..=7 {
        let mut rig = Rig::new(W2K);
        rig.enable();
        comes_to_nothing(&mut rig, &[0x02, 0x10, 0x11], leftover);
        comes_to_nothing(&mut rig, &[0x02, 0x10, 1, 2, 3, 4, 5, 6, 7, 8, 9], leftover);
        is_carried(&mut rig, &[0x02, 0x10, 0x22]);
        assert_eq!(rig.eeprom[0x10..0x12], [0x22, 0xFF]);
        // The lock is open, and no reason for it.
        rig.enable();
        rig.unlock();
        assert_eq!(rig.device.lock, Lock::Open);
        comes_to_nothing(&mut rig, &[0x32, 0x01, 0x11], leftover);
        rig.unlock();
        is_carried(&mut rig, &[0x32, 0x01, 0x22]);
        assert_eq!(rig.id[1], 0x22);
        rig.enable();
        comes_to_nothing(&mut rig, &[0x01, 0x0C], leftover);
        is_carried(&mut rig, &[0x01, 0x08]);
        assert_eq!(rig.status(), 0b1000);
    }
}

#[test]
fn after_a_status_of_two_bytes() {
    for count in 2..=9 {
        for leftover in [0, 1, 7] {
            let long = [&[0x01][..], &[0x0C; 9][..count]].concat();
            let mut rig = Rig::new(B1K);
            rig.enable();
            comes_to_nothing(&mut rig, &long, leftover);
            is_carried(&mut rig, &[0x02, 0x7F, 0x22]);
            assert_eq!((rig.status(), rig.eeprom[0x7F]), (0, 0x22));
            rig.enable();
            comes_to_nothing(&mut rig, &long, leftover);
            is_carried(&mut rig, &[0x01, 0x04]);
            assert_eq!(rig.status(), 0b0100);
        }
    }
}

#[test]
fn one_enable_for_many_failed_writes() {
    // All four, several times over; the enable lasts until a write is carried, and no longer.
    let mut rig = Rig::new(W2K);
    rig.protect(0b10);
    rig.enable();
    for _ in 0..5 {
        comes_to_nothing(&mut rig, &[0x02, 0x80, 0x11], 0);
        comes_to_nothing(&mut rig, &[0x32, 0x00, 0x11], 0);
        comes_to_nothing(&mut rig, &[0x02, 0x00, 0x11], 3);
        comes_to_nothing(&mut rig, &[0x01, 0x00, 0x00], 0);
    }
    is_carried(&mut rig, &[0x02, 0x00, 0x22]);
    comes_to_nothing(&mut rig, &[0x02, 0x00, 0x33], 0);
    assert_eq!((rig.eeprom[0x00], rig.eeprom[0x80], rig.status()), (0x22, 0xFF, 0b1000));
}

#[test]
fn without_an_enable() {
    // None of these sets what was clear: a good write after them has no cycle.
    let nothing: [(&[u8], u64); 5] = [
        (&[0x02, 0xE0, 0x11], 0),
        (&[0x32, 0x00, 0x11], 0),
        (&[0x02, 0x00, 0x11], 1),
        (&[0x01, 0x00, 0x00], 0),
        (&[0x02, 0x00, 0x11], 0),
    ];
    for part in PARTS {
        for (bytes, leftover) in nothing {
            let mut rig = Rig::new(part);
            rig.protect(0b01);
            comes_to_nothing(&mut rig, bytes, leftover);
            assert_eq!(rig.status(), 0b0100);
            comes_to_nothing(&mut rig, &[0x01, 0x00], 0);
            rig.unlock();
            comes_to_nothing(&mut rig, &[0x32, 0x00, 0x22], 0);
        }
    }
}

#[test]
fn writes_without_data() {
    // With leftover bits too: seven of them are no byte.
    for bytes in [&[0x01][..], &[0x02], &[0x02, 0x10], &[0x32], &[0x32, 0x10]] {
        for leftover in 0..=7 {
            let mut rig = Rig::new(W1K);
            rig.unlock();
            comes_to_nothing(&mut rig, bytes, leftover);
            assert_eq!(latch(&mut rig), CLEAR);
            rig.enable();
            rig.unlock();
            comes_to_nothing(&mut rig, bytes, leftover);
            assert_eq!(latch(&mut rig), ENABLED);
            is_carried(&mut rig, &[0x02, 0x10, 0x22]);
        }
    }
}

/// WEL after this frame, from WEL clear and from WEL set, with no cycle.
fn after_frame(bytes: &[u8], leftover: u64) -> (bool, bool) {
    let after = |wel| {
        let mut rig = Rig::new(W2K);
        rig.device.wel = wel;
        rig.frame_with(bytes, leftover);
        rig.device.wel
    };
    (after(false), after(true))
}

#[test]
fn enable_and_disable_by_eight_bits() {
    assert_eq!(after_frame(&[0x06], 0), (true, true));
    assert_eq!(after_frame(&[0x04], 0), (false, false));
    for code in [0x06, 0x04] {
        for leftover in 0..=7 {
            if leftover > 0 {
                assert_eq!(after_frame(&[code], leftover), (false, true));
            }
            for second in 0..=255 {
                assert_eq!(after_frame(&[code, second], leftover), (false, true));
                assert_eq!(after_frame(&[code, second, code], leftover), (false, true));
            }
        }
    }
}

#[test]
fn enable_and_disable_at_their_end() {
    let mut rig = Rig::new(W2K);
    rig.select();
    rig.byte(0x06);
    assert!(!rig.device.wel);
    rig.wait(500);
    assert!(!rig.device.wel);
    rig.end(0);
    assert!(rig.device.wel);
    rig.select();
    rig.byte(0x04);
    rig.wait(500);
    assert!(rig.device.wel);
    rig.end(0);
    assert!(!rig.device.wel);
}

/// Each kind of cycle, just begun.
fn cycles() -> [Rig; 3] {
    [&[0x01, 0x0C][..], &[0x02, 0x00, 0x11], &[0x32, 0x00, 0x11]].map(|write| {
        let mut rig = Rig::new(B2K);
        rig.unlock();
        rig.enable();
        rig.frame(write);
        assert_eq!(latch(&mut rig), RUNNING);
        rig
    })
}

#[test]
fn not_heard_in_a_cycle() {
    // EEWRDI and the writes do not clear WEL, nor does EEWREN save it over the end.
    for begun in cycles() {
        for frame in [&[0x04][..], &[0x06], &[0x02, 0x20, 0x22], &[0x32, 0x08, 0x22], &[0x01, 0x00]]
        {
            let mut rig = begun.clone();
            rig.wait(80);
            rig.frame(frame);
            assert_eq!(latch(&mut rig), RUNNING, "{frame:02X?}");
            assert_eq!(rig.wait(200), 84, "{frame:02X?}");
            assert_eq!(latch(&mut rig), CLEAR, "{frame:02X?}");
            // A frame that begins in the cycle and ends after it.
            let mut rig = begun.clone();
            rig.select();
            rig.byte(frame[0]);
            assert_eq!(rig.wait(200), 164);
            for &byte in &frame[1..] {
                rig.byte(byte);
            }
            rig.end(0);
            assert_eq!(latch(&mut rig), CLEAR, "{frame:02X?}");
        }
        // CS falls in the cycle, the code comes after it.
        let mut rig = begun;
        rig.select();
        assert_eq!(rig.wait(200), 164);
        rig.byte(0x06);
        rig.end(0);
        assert_eq!(latch(&mut rig), ENABLED);
    }
}

#[test]
fn at_the_last_tick_of_a_cycle() {
    for mut rig in cycles() {
        assert_eq!(rig.wait(163), 163);
        assert_eq!(latch(&mut rig), RUNNING);
        assert_eq!(rig.wait(1), 1);
        assert_eq!(latch(&mut rig), CLEAR);
    }
    // A record may have a cycle of any kind with WEL set or clear, and one tick of it left.
    for target in [Target::Eeprom(0), Target::Id(0), Target::Status(Protection::Half)] {
        for wel in [false, true] {
            let mut rig = Rig::new(W2K);
            (rig.device.target, rig.device.wel, rig.device.countdown) = (target, wel, 2);
            rig.wait(1);
            assert_eq!((rig.device.wel, rig.device.countdown), (wel, 1));
            rig.wait(1);
            assert_eq!((rig.device.wel, rig.device.countdown), (false, 0));
        }
    }
}

#[test]
fn time_alone_leaves_it() {
    for wel in [false, true] {
        let mut rig = Rig::new(B2K);
        rig.write(0x01, &[0x80]);
        rig.write(0x0A, &[0x80]); // a watchdog of 32 ticks: WDO goes low and high again
        rig.device.wel = wel;
        assert_eq!(rig.wait(100_000), 64);
        assert_eq!(rig.wait(100_000), 4);
        assert_eq!(rig.wait(100_000), 100_000);
        assert_eq!(rig.device.wel, wel);
    }
}

#[test]
fn at_a_cut() {
    // With VBATEN (04h bit 3) set and clear; idle, in a frame, in a cycle of each kind.
    for day in [0x01, 0x09] {
        for mask in [0x00, 0x01, 0xFF] {
            let mut rig = Rig::new(W2K);
            rig.write(0x04, &[day]);
            rig.enable();
            rig.cut(mask);
            assert!(!rig.device.wel);
            rig.wait(1_000);
            rig.up();
            assert_eq!(latch(&mut rig), CLEAR);
            // An enable that does not come to its end.
            rig.select();
            rig.byte(0x06);
            rig.cut(mask);
            rig.up();
            assert_eq!(latch(&mut rig), CLEAR);
            // A write that has not ended, and one that came to nothing.
            rig.enable();
            rig.frame(&[0x32, 0x00, 0x11]);
            rig.select();
            rig.byte(0x02);
            rig.cut(mask);
            assert!(!rig.device.wel);
            rig.up();
            comes_to_nothing(&mut rig, &[0x02, 0x00, 0x22], 0);
            for mut rig in cycles() {
                rig.write(0x04, &[day]);
                rig.wait(163);
                rig.cut(mask);
                assert!(!rig.device.wel);
                rig.up();
                assert_eq!(latch(&mut rig), CLEAR);
            }
        }
    }
}

#[test]
fn at_an_up() {
    // Only a record from elsewhere has WEL set with power off.
    for part in PARTS {
        for (day, stamp_due) in [(0x01, false), (0x09, false), (0x19, false), (0x19, true)] {
            let mut rig = Rig::new(part);
            rig.device.power = false;
            rig.device.registers[0x04] = day;
            rig.device.stamp_due = stamp_due;
            let mut other = rig.clone();
            rig.device.wel = true;
            rig.wait(500);
            other.wait(500);
            assert!(rig.device.wel);
            rig.refused(Act::Up, 1, 3);
            rig.refused(Act::Cut, 0, 5);
            rig.up();
            assert_eq!(latch(&mut rig), CLEAR);
            // Nothing else is other than after the up of a record with WEL clear.
            other.up();
            other.status();
            assert_eq!(rig, other);
            comes_to_nothing(&mut rig, &[0x02, 0x00, 0x22], 0);
        }
    }
}

#[test]
fn refused_acts_leave_it() {
    // `refused` looks at the whole record; each number once with WEL clear and once with it set.
    for wel in [false, true] {
        let mut rig = Rig::new(W2K);
        rig.device.wel = wel;
        rig.refused(Act::Byte, 0x04, 2);
        rig.refused(Act::Byte, 0x06, 2);
        rig.refused(Act::End, 0, 2);
        rig.refused(Act::Wait, 16_777_217, 3);
        rig.refused(Act::Cut, 256, 3);
        rig.refused(Act::Up, 0, 5);
        // A refused end is not the end of EEWRDI or EEWREN; one more byte, and they are too long.
        for code in [0x04, 0x06] {
            rig.select();
            rig.refused(Act::Select, 0, 1);
            rig.byte(code);
            rig.refused(Act::End, 8, 3);
            rig.byte(code);
            rig.end(0);
            assert_eq!(rig.device.wel, wel);
        }
        let mut small = rig.clone();
        small.eeprom.pop();
        small.refused(Act::Cut, 0, 4);
        let mut wide = rig.clone();
        wide.device.divider = 32_768;
        wide.refused(Act::Cut, 0, 6);
        rig.device.power = false;
        for act in [Act::Select, Act::Byte, Act::End, Act::Cut] {
            rig.refused(act, 0, 5);
        }
    }
}

/// Where a frame meets the chip.
struct Met {
    wel: bool,
    protection: Protection,
    lock: Lock,
    cycle: bool,
}

/// Each mixture of WEL, protection of nothing or all, the lock, and a cycle or none.
fn mixtures() -> Vec<Met> {
    let mut mixtures = Vec::new();
    for wel in [false, true] {
        for protection in [Protection::Nothing, Protection::All] {
            for lock in [Lock::Closed, Lock::FirstStep, Lock::Open] {
                for cycle in [false, true] {
                    mixtures.push(Met { wel, protection, lock, cycle });
                }
            }
        }
    }
    mixtures
}

#[test]
fn every_code() {
    // Each code, 0 to 3 bytes after it, 0 to 7 leftover bits. 02 Latch: EEWREN and EEWRDI of eight
    // bits move WEL where no cycle runs; no other frame does, whether or not it starts a cycle.
    for code in 0..=255 {
        for (bytes, leftover) in (1..=4).flat_map(|n| (0..=7).map(move |k| (n, k))) {
            for met in mixtures() {
                let mut rig = Rig::new(W2K);
                rig.device.wel = met.wel;
                rig.device.protection = met.protection;
                rig.device.lock = met.lock;
                rig.device.countdown = if met.cycle { 100 } else { 0 };
                rig.frame_with(&[code, 0x10, 0x0C, 0x0C][..bytes], leftover);
                let eight_bits = bytes == 1 && leftover == 0;
                let wel = match code {
                    0x06 if eight_bits && !met.cycle => true,
                    0x04 if eight_bits && !met.cycle => false,
                    _ => met.wel,
                };
                // 01 Frames: which of these writes are carried.
                let carried = met.wel
                    && leftover == 0
                    && match code {
                        0x01 => bytes == 2,
                        0x02 => bytes > 2 && met.protection == Protection::Nothing,
                        0x32 => bytes > 2 && met.lock == Lock::Open,
                        _ => false,
                    };
                let countdown = match (met.cycle, carried) {
                    (true, _) => 100,
                    (false, true) => 164,
                    (false, false) => 0,
                };
                assert_eq!(
                    (rig.device.wel, rig.device.countdown),
                    (wel, countdown),
                    "{code:02X}h, {bytes} bytes, {leftover} bits over, WEL {}, {:?}, lock {:?}",
                    met.wel,
                    met.protection,
                    met.lock
                );
            }
        }
    }
}

#[test]
fn frames_without_a_byte() {
    for leftover in 0..=7 {
        for met in mixtures() {
            let mut rig = Rig::new(W2K);
            rig.device.wel = met.wel;
            rig.device.lock = met.lock;
            rig.device.countdown = if met.cycle { 100 } else { 0 };
            let before = rig.clone();
            rig.frame_with(&[], leftover);
            assert_eq!(rig, before);
        }
    }
}

#[test]
fn an_unheard_frame_with_no_cycle() {
    // Such a record is in range; its frame is not heard, whatever comes.
    for wel in [false, true] {
        let mut rig = Rig::new(W2K);
        rig.device = Device { frame: Frame::Unheard, wel, ..rig.device };
        rig.byte(0x04);
        rig.byte(0x06);
        rig.end(0);
        assert_eq!(rig.device.wel, wel);
    }
}

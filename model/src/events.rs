//! The event inputs (02 Events; 000, register 5-12): EVHS counts rises, EVLS waits for a level that
//! stays. Here is what an edge, a tick, a write of 0Bh and a loss of the registers do to their
//! counts. An edge is a change of level.

use crate::chip::Device;

pub const EVENTS: usize = 0x0B;

// The bits of 0Bh; the two lowest pick from `NUMBERS`.
pub const EVHIF: u8 = 0x80;
pub const EVLIF: u8 = 0x40;
pub const EVEN1: u8 = 0x20; // EVHS
pub const EVEN0: u8 = 0x10; // EVLS
pub const EVWDT: u8 = 0x08;
pub const EVLDB: u8 = 0x04;

/// How many rises of EVHS make an event.
pub const NUMBERS: [u64; 4] = [1, 4, 16, 32];

/// The last tick, from the first rise on, that may pass before the last rise: 250 ms.
pub const WINDOW: u64 = 8_192;

/// 31.25 ms, and with EVLDB 500 ms.
pub const SHORT_DEBOUNCE: u64 = 1_024;
pub const LONG_DEBOUNCE: u64 = 16_384;

pub fn number_of_edges(byte: u8) -> u64 {
    NUMBERS[usize::from(byte & 3)]
}

pub fn debounce_ticks(byte: u8) -> u64 {
    if byte & EVLDB == 0 {
        SHORT_DEBOUNCE
    } else {
        LONG_DEBOUNCE
    }
}

/// The bits of `set` are set in 0Bh, those of `clear` are not.
fn is(device: &Device, set: u8, clear: u8) -> bool {
    device.registers[EVENTS] & (set | clear) == set
}

/// EVHIF and EVLIF.
pub fn flags(device: &Device) -> u8 {
    device.registers[EVENTS] & (EVHIF | EVLIF)
}

pub fn set_evhs(device: &mut Device, level: u64) {
    let (rises, edge) = (level > device.evhs, level != device.evhs);
    device.evhs = level;
    if edge && is(device, EVWDT, 0) {
        // In place of an event: the count, not the delay, not the pulse.
        device.watchdog = 0;
    }
    if rises && device.oscon() && is(device, EVEN1, EVHIF | EVWDT) {
        device.edges += 1;
        if device.edges == number_of_edges(device.registers[EVENTS]) {
            forget_edges(device);
            device.registers[EVENTS] |= EVHIF;
        }
    }
}

pub fn set_evls(device: &mut Device, level: u64) {
    let (rises, falls) = (level > device.evls, level < device.evls);
    device.evls = level;
    if falls {
        device.debounce = 0;
    }
    if rises && device.oscon() && is(device, EVEN0, EVLIF) {
        device.debounce = debounce_ticks(device.registers[EVENTS]);
    }
}

/// The part of a tick that comes after the watchdog's.
pub fn tick(device: &mut Device, counted: bool) {
    if !counted {
        return;
    }
    if device.edges > 0 && is(device, EVEN1, EVHIF) {
        if device.since == WINDOW {
            forget_edges(device);
        } else {
            device.since += 1;
        }
    }
    if device.debounce > 0 && is(device, EVEN0, EVLIF) {
        device.debounce -= 1;
        if device.debounce == 0 {
            device.registers[EVENTS] |= EVLIF;
        }
    }
}

fn forget_edges(device: &mut Device) {
    device.edges = 0;
    device.since = 0;
}

/// After a write of 0Bh, whatever the byte, and where a cut takes the registers. The levels are the
/// world's, and stay.
pub fn forget(device: &mut Device) {
    forget_edges(device);
    device.debounce = 0;
}

/// The rows of number 6 that 02 Events adds.
pub fn out_of_range(device: &Device) -> bool {
    let byte = device.registers[EVENTS];
    let (high_speed, low_speed) = (is(device, EVEN1, 0), is(device, EVEN0, 0));
    device.evls > 1
        || device.evhs > 1
        || device.edges >= number_of_edges(byte)
        || device.since > WINDOW
        || device.since > 0 && device.edges == 0
        || device.debounce > debounce_ticks(byte)
        || device.debounce > 0 && device.evls == 0
        || !high_speed && (device.edges > 0 || device.since > 0)
        || !low_speed && device.debounce > 0
}

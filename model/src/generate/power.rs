//! The scenes of a power tape. Most are an outage that begins shortly before a carry; VBAT is
//! written before it or not, and the time-stamps are looked at after it.

use super::Writer;
use crate::chip::*;

/// The ticks of a second.
const SECOND: u64 = DIVIDER;

/// VBATEN's place in 04h.
const VBATEN: u8 = 0x08;

impl Writer {
    pub(super) fn power_scene(&mut self) {
        match self.random.below(16) {
            0..=8 => self.outage(),
            9 | 10 => self.write_day(),
            11 => self.write_stamps(),
            12 => self.set_time(),
            13 => self.short_wait(),
            14 => self.clear(),
            _ => self.scene(),
        }
        if self.random.once_in(4) {
            self.look_at_stamps();
        }
    }

    /// Often the time is set before it; where it is not, VBAT may still be set.
    fn outage(&mut self) {
        match self.random.below(8) {
            0..=4 => self.set_time(),
            5 => self.write_day(),
            _ => {}
        }
        if !self.random.once_in(4) {
            self.wait(33); // the oscillator has started
        }
        self.before_the_cut();
        self.cut();
        self.on_the_battery();
        self.raw(b"op=up arg=0");
        self.look_at_stamps();
    }

    /// What the cut meets: a frame that writes the time or VBAT, a write cycle, or nothing.
    fn before_the_cut(&mut self) {
        match self.random.below(6) {
            0 => {
                let address = self.random.pick(&[0x02, 0x03, 0x04, 0x04]);
                self.act("select", 0);
                self.act("byte", u64::from(WRITE));
                self.act("byte", address);
                for _ in 0..self.random.below(4) {
                    let byte = self.random.byte();
                    self.act("byte", u64::from(byte));
                }
            }
            1 => {
                let (address, ticks) = (self.random.byte(), self.random.below(170));
                self.enable();
                self.frame_with(&[EEWRITE, address], 3);
                self.wait(ticks);
            }
            _ => {}
        }
    }

    /// Time until the up: none, some ticks, enough for a carry, or minutes.
    fn on_the_battery(&mut self) {
        let ticks = match self.random.below(16) {
            0 | 1 => 0,
            2 | 3 => self.random.below(400),
            4 | 5 => SECOND * self.random.below(4),
            6 => {
                let ticks = SECOND * self.random.pick(&[60, 61, 90, 120, 200, 512]);
                self.budget += ticks;
                ticks
            }
            _ => 400 * self.random.below(7),
        };
        self.wait(ticks);
    }

    /// Bits 4:3 of 04h: VBAT is often written 0, VBATEN mostly 1.
    fn battery_bits(&mut self) -> u8 {
        let vbat = if self.random.once_in(3) { VBAT } else { 0 };
        let vbaten = if self.random.once_in(5) { 0 } else { VBATEN };
        vbat | vbaten
    }

    /// WRITE of the time, a few hundredths before a carry.
    fn set_time(&mut self) {
        let mut time = self.late_time();
        time[4] = time[4] & 0x07 | self.battery_bits();
        self.frame(&[&[WRITE, 0x00], &time[..]].concat());
    }

    /// WRITE of 04h, by itself or with its neighbours. Bits 7:5 are written too, and not stored.
    fn write_day(&mut self) {
        let byte = self.random.byte() & 0xE7 | self.battery_bits();
        match self.random.below(4) {
            0 => {
                let hours = self.random.pick(&[0x23, 0xA3, 0x71, 0xF1, 0x12]);
                self.frame(&[WRITE, 0x03, hours, byte]);
            }
            1 => {
                let count = self.random.below(4);
                self.frame_with(&[WRITE, 0x04, byte], count);
            }
            _ => self.frame(&[WRITE, 0x04, byte]),
        }
        self.look_at_stamps();
    }

    /// WRITE that reaches 18h to 1Fh, at times beyond.
    fn write_stamps(&mut self) {
        let address = 0x16 + self.random.below(10) as u8;
        let count = 1 + self.random.below(9);
        self.frame_with(&[WRITE, address], count);
        self.look_at_stamps();
    }

    /// READ of the time-stamps and of 04h, by two frames or by one that rolls over.
    fn look_at_stamps(&mut self) {
        if self.random.once_in(2) {
            self.frame(&[READ, 0x04, 0]);
            self.frame(&[READ, 0x18, 0, 0, 0, 0, 0, 0, 0, 0]);
        } else {
            self.frame(&[READ, 0x18, 0, 0, 0, 0, 0, 0, 0, 0, 0, 0, 0, 0, 0]);
        }
    }
}

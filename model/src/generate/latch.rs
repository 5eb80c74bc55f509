//! The scenes of a latch tape. Most are an enable, writes that come to nothing, and a write that
//! is carried with no new enable; STATUS is looked at between them.

use super::Writer;
use crate::chip::*;

impl Writer {
    pub(super) fn latch_scene(&mut self) {
        match self.random.below(16) {
            0..=10 => self.one_enable(),
            11 | 12 => self.protect(),
            13 => self.short_wait(),
            _ => self.scene(),
        }
        if self.random.once_in(4) {
            self.look_at_status();
        }
    }

    fn look_at_status(&mut self) {
        self.frame(&[SRREAD, 0]);
    }

    /// Mostly an enable; where there is none, WEL may still be set.
    fn one_enable(&mut self) {
        let (low, high) = (self.low_place(), self.high_place());
        if self.random.once_in(2) {
            self.protect();
        }
        if !self.random.once_in(6) {
            self.frame(&[EEWREN]);
        }
        for _ in 0..1 + self.random.below(3) {
            self.failed_write(low, high);
            self.between_writes();
        }
        self.good_write(low);
        self.look_at_status();
        self.cycle();
        self.look_at_status();
        self.frame_with(&[EEREAD, low & 0xF8], 8);
        if self.random.once_in(3) {
            self.frame_with(&[EEREAD, high & 0xF8], 8);
            self.frame_with(&[IDREAD, 0], 16);
        }
    }

    /// An EEPROM place that is free unless BP is 11, or one beside a border of the protection.
    fn low_place(&mut self) -> u8 {
        match self.random.below(4) {
            0 => self.random.pick(&[0x3F, 0x5F, 0x7F, 0xBF, 0xDF]),
            _ => self.random.below(0x40) as u8,
        }
    }

    /// One that is protected unless BP is 00, or one beside a border.
    fn high_place(&mut self) -> u8 {
        match self.random.below(4) {
            0 => self.random.pick(&[0x40, 0x60, 0x80, 0xC0, 0xE0]),
            _ => 0xE0 | self.random.byte(),
        }
    }

    /// SRWRITE, mostly with the whole of its cycle. Bits that it does not look at are any.
    pub(super) fn protect(&mut self) {
        let bp = self.random.pick(&[0, 1, 1, 1, 2, 2, 2, 3]);
        let others = self.random.byte() & 0xF3;
        self.frame(&[EEWREN]);
        self.frame(&[SRWRITE, others | bp << 2]);
        if !self.random.once_in(8) {
            self.wait(164);
        }
    }

    /// A write that comes to nothing if the lock is closed and the high place protected.
    fn failed_write(&mut self, low: u8, high: u8) {
        let count = 1 + self.random.below(9);
        match self.random.below(6) {
            0 | 1 => self.frame_with(&[EEWRITE, high], count),
            2 => {
                if self.random.once_in(3) {
                    self.frame(&[UNLOCK, 0x55]);
                }
                let address = self.random.byte();
                self.frame_with(&[IDWRITE, address], count);
            }
            3 => {
                let count = 2 + self.random.below(3);
                self.frame_with(&[SRWRITE], count);
            }
            _ => self.write_with_bits_over(low),
        }
    }

    /// Without these bits it would be carried.
    pub(super) fn write_with_bits_over(&mut self, low: u8) {
        let leftover = 1 + self.random.below(7);
        let data = self.random.byte();
        match self.random.below(3) {
            0 => self.open(&[EEWRITE, low, data]),
            1 => {
                self.unlock();
                self.open(&[IDWRITE, low, data]);
            }
            _ => self.open(&[SRWRITE, data]),
        }
        self.act("end", leftover);
    }

    pub(super) fn unlock(&mut self) {
        self.frame(&[UNLOCK, 0x55]);
        self.frame(&[UNLOCK, 0xAA]);
    }

    /// Mostly a look at STATUS; now and then something that clears WEL, or only looks like it.
    fn between_writes(&mut self) {
        match self.random.below(24) {
            0 => self.frame(&[EEWRDI]),
            1 => self.frame(&[EEWRDI, 0]),
            2 => self.frame(&[EEWREN, 0]),
            3 => {
                let (code, leftover) = (self.random.pick(&[EEWRDI, EEWREN]), self.random.below(8));
                self.open(&[code]);
                self.act("end", leftover);
            }
            4 => {
                let bytes =
                    self.random.pick(&[&[EEWRITE][..], &[EEWRITE, 0], &[IDWRITE, 0], &[SRWRITE]]);
                self.frame(bytes);
            }
            5 => self.refused(),
            6 => self.any_frame(),
            7 => self.power_cut(),
            8..=10 => self.short_wait(),
            11 | 12 => {}
            _ => self.look_at_status(),
        }
    }

    fn good_write(&mut self, low: u8) {
        let count = 1 + self.random.below(9);
        match self.random.below(8) {
            0 => {
                let status = self.random.byte();
                self.frame(&[SRWRITE, status]);
            }
            1 | 2 => {
                self.unlock();
                let address = self.random.byte();
                self.frame_with(&[IDWRITE, address], count);
            }
            _ => self.frame_with(&[EEWRITE, low], count),
        }
    }
}

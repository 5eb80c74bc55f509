//! The scenes of a bits tape. Most are reads in which CS rises in the middle of a byte, at every
//! stage of a frame; what they read is filled before, so that the bits differ.

use super::Writer;
use crate::chip::*;

impl Writer {
    pub(super) fn bits_scene(&mut self) {
        match self.random.below(30) {
            0..=7 => self.filled_read(),
            8..=12 => self.broken_reads(),
            13 | 14 => self.rolled_over(),
            15..=17 => self.changing_byte(),
            18..=20 => self.broken_in_a_cycle(),
            21..=24 => self.silent_frame(),
            25 => self.broken_by_a_cut(),
            26 => self.broken_with_the_lock_open(),
            27 => self.stamped(),
            28 => self.made_when_read(),
            _ => self.scene(),
        }
    }

    /// Writes somewhere, mostly with success, and reads there more than once.
    fn filled_read(&mut self) {
        let head = self.fill();
        for _ in 0..3 + self.random.below(4) {
            self.broken_read(&head);
        }
    }

    fn broken_reads(&mut self) {
        for _ in 0..1 + self.random.below(4) {
            let head = self.read_head();
            self.broken_read(&head);
        }
    }

    /// Gives the code and the address that read what was written.
    fn fill(&mut self) -> Vec<u8> {
        let count = self.random.pick(&[2, 5, 8, 8, 8, 8, 8, 9]);
        match self.random.below(8) {
            0 | 1 => {
                let place = self.eeprom_place();
                if self.random.once_in(2) {
                    self.enabled(&[SRWRITE, 0x00], 0);
                }
                self.enabled(&[EEWRITE, place], count);
                vec![EEREAD, place]
            }
            2 | 3 => {
                let place = self.random.byte();
                self.unlock();
                self.enabled(&[IDWRITE, place], count);
                vec![IDREAD, place]
            }
            4 => {
                let place = self.random.below(0x18) as u8;
                self.frame_with(&[WRITE, place], count);
                vec![READ, place]
            }
            5 | 6 => {
                let place = self.sram_place();
                self.frame_with(&[WRITE, place], count);
                vec![READ, place]
            }
            _ => {
                self.protect();
                if self.random.once_in(2) {
                    self.frame(&[EEWREN]);
                }
                vec![SRREAD]
            }
        }
    }

    /// A write with its enable and its cycle.
    fn enabled(&mut self, head: &[u8], count: u64) {
        self.frame(&[EEWREN]);
        self.frame_with(head, count);
        self.wait(164);
    }

    /// In the first or the last page of either size.
    fn eeprom_place(&mut self) -> u8 {
        self.random.pick(&[0x00, 0x78, 0xF8]) + self.random.below(8) as u8
    }

    /// Mostly beside the roll-over.
    fn sram_place(&mut self) -> u8 {
        match self.random.below(3) {
            0 => 0x20 + self.random.below(0x40) as u8,
            1 => 0x20 + self.random.below(4) as u8,
            _ => 0x5C + self.random.below(4) as u8,
        }
    }

    /// Code and address of a read.
    fn read_head(&mut self) -> Vec<u8> {
        match self.random.below(18) {
            0..=3 => vec![EEREAD, self.eeprom_place()],
            4..=6 => vec![IDREAD, self.random.byte()],
            7..=9 => vec![READ, self.random.below(0x20) as u8],
            10..=12 => vec![READ, self.sram_place()],
            13..=15 => vec![READ, self.random.pick(&[0x60, 0x61, 0x7F, 0x80, 0xFE, 0xFF])],
            _ => vec![SRREAD],
        }
    }

    /// CS rises in the middle of a byte. Now and then an end that is refused comes before it or
    /// after it.
    fn break_off(&mut self) {
        if self.random.once_in(12) {
            let past = self.random.pick(&[0, 1, 7, 8, 247, 248]);
            self.act("end", 8 + past);
        }
        let leftover = if self.random.once_in(12) { 0 } else { 1 + self.random.below(7) };
        self.act("end", leftover);
        if self.random.once_in(12) {
            let leftover = self.random.below(8);
            self.act("end", leftover);
        }
    }

    /// Some have not got their address. The same frame with one more byte, a whole one, sometimes
    /// follows.
    fn broken_read(&mut self, head: &[u8]) {
        if self.random.once_in(16) {
            self.open(&head[..1]);
            return self.break_off();
        }
        let whole = self.random.pick(&[0, 0, 0, 0, 1, 1, 2, 8]);
        let bytes = [head, &self.bytes(whole)].concat();
        self.open(&bytes);
        if self.random.once_in(8) {
            self.short_wait();
        }
        self.break_off();
        if self.random.once_in(8) {
            self.frame_with(&bytes, 1);
        }
    }

    /// The byte that is broken off is the first of its memory, or the one after it.
    fn rolled_over(&mut self) {
        const TOPS: [(u8, u8); 5] =
            [(EEREAD, 0x7F), (EEREAD, 0xFF), (IDREAD, 0x0F), (READ, 0x1F), (READ, 0x5F)];
        for _ in 0..2 + self.random.below(3) {
            let ((code, top), before) = (self.random.pick(&TOPS), self.random.below(2));
            let whole = 1 + before + u64::from(self.random.once_in(4));
            let bytes = [&[code, top - before as u8][..], &self.bytes(whole)].concat();
            self.open(&bytes);
            self.break_off();
        }
    }

    /// A byte that may change while its frame is open: the time, STATUS at the end of a cycle, the
    /// watchdog's flag.
    fn changing_byte(&mut self) {
        match self.random.below(3) {
            0 => {
                let (time, address) = (self.late_time(), self.random.below(8) as u8);
                self.frame(&[&[WRITE, 0x00], &time[..]].concat());
                self.wait(33);
                self.open(&[READ, address]);
                self.wait(400);
            }
            1 => {
                let (status, ticks) = (self.random.byte(), self.random.pick(&[163, 164, 200]));
                self.frame(&[EEWREN]);
                self.frame(&[SRWRITE, status]);
                self.open(&[SRREAD]);
                self.wait(ticks);
            }
            _ => {
                let ticks = self.random.pick(&[31, 32, 33]);
                self.frame(&[WRITE, 0x01, 0x80]);
                self.wait(32);
                self.frame(&[WRITE, 0x0A, 0x80]);
                self.open(&[READ, 0x0A]);
                self.wait(ticks);
            }
        }
        self.break_off();
    }

    /// Reads that begin while WIP is set; the cycle of some ends before they do.
    fn broken_in_a_cycle(&mut self) {
        let (place, count) = (self.eeprom_place(), 1 + self.random.below(8));
        self.frame(&[EEWREN]);
        self.frame_with(&[EEWRITE, place], count);
        self.broken_reads();
        if self.random.once_in(2) {
            let head = self.read_head();
            self.open(&head);
            self.wait(164);
            if self.random.once_in(2) {
                self.act("byte", 0);
            }
            self.break_off();
        }
        self.wait(164);
    }

    /// A frame that never answers, or one that has not come to it.
    fn silent_frame(&mut self) {
        let count = self.random.below(4);
        match self.random.below(6) {
            0 => self.open(&[]),
            1 => {
                let code = self.random.pick(&[EEREAD, READ, IDREAD, SRREAD]);
                self.open(&[code]);
            }
            2 => {
                let code = self.random.pick(&[EEWRITE, WRITE, IDWRITE, SRWRITE, UNLOCK]);
                let bytes = [&[code][..], &self.bytes(count)].concat();
                self.open(&bytes);
            }
            3 => {
                let bytes = self.bytes(1 + count);
                self.open(&bytes);
            }
            4 => {
                self.frame(&[EEWREN]);
                return self.write_with_bits_over(0x00);
            }
            _ => {
                let code = self.random.pick(&[EEWREN, EEWRDI, CLRWDT, CLRRAM]);
                self.open(&[code]);
            }
        }
        self.break_off();
    }

    /// The bits of a frame that a cut has dropped are asked for without power and after the up.
    fn broken_by_a_cut(&mut self) {
        let (head, leftover) = (self.read_head(), self.random.below(8));
        self.open(&head);
        self.cut();
        self.raw(format!("op=end arg={leftover}").as_bytes());
        self.short_wait();
        self.raw(b"op=up arg=0");
        if self.random.once_in(2) {
            self.raw(format!("op=end arg={leftover}").as_bytes());
        }
    }

    /// Only SRREAD leaves it open.
    fn broken_with_the_lock_open(&mut self) {
        let address = self.random.byte();
        self.frame(&[EEWREN]);
        self.unlock();
        let head = if self.random.once_in(2) { vec![SRREAD] } else { self.read_head() };
        self.open(&head);
        self.break_off();
        self.frame_with(&[IDWRITE, address], 2);
        self.wait(164);
        self.frame_with(&[IDREAD, address], 2);
    }

    /// A cut and an up with VBATEN, and reads of their time-stamps.
    fn stamped(&mut self) {
        let mut time = self.late_time();
        time[4] = time[4] & 0x07 | 0x08;
        self.frame(&[&[WRITE, 0x00], &time[..]].concat());
        self.wait(33);
        self.cut();
        self.wait(400);
        self.raw(b"op=up arg=0");
        for _ in 0..2 + self.random.below(3) {
            let address = 0x18 + self.random.below(8) as u8;
            self.open(&[READ, address]);
            self.break_off();
        }
    }

    /// OSCON, LP and the 12/24 bit that alarms show.
    fn made_when_read(&mut self) {
        let hours = self.random.pick(&[0x12, 0x52, 0x71, 0xF2]);
        let year = self.random.pick(&[0x00, 0x01, 0x04, 0x96, 0x99]);
        self.frame(&[WRITE, 0x01, 0x80, 0x00, hours, 0x01, 0x01, 0x01, year]);
        self.wait(33);
        for _ in 0..2 + self.random.below(3) {
            let address = self.random.pick(&[0x04, 0x06, 0x0E, 0x15]);
            self.open(&[READ, address]);
            self.break_off();
        }
    }
}

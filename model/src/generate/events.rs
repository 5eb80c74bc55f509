//! The scenes of an events tape: rises of EVHS that fill their number or come too late, a door that
//! bounces or stays, EVHS in the watchdog's place, and power or oscillator lost in between. Levels
//! are set more often than they change.

use super::Writer;
use crate::chip::*;
use crate::events::*;

impl Writer {
    pub(super) fn event_scene(&mut self) {
        match self.random.below(26) {
            0..=5 => self.drum(),
            6..=10 => self.door(),
            11 | 12 => self.one_after_the_other(),
            13..=15 => self.drum_for_watchdog(),
            16 => self.without_oscillator(),
            17 | 18 => self.without_power(),
            19 => self.write_events(),
            20 => self.pins_in_a_cycle(),
            21 => self.bad_pin(),
            22 | 23 => self.with_an_alarm(),
            24 => self.alarm(),
            _ => self.scene(),
        }
        if self.random.once_in(4) {
            self.look_at_events();
        }
    }

    fn look_at_events(&mut self) {
        self.frame(&[READ, 0x0B, 0]);
    }

    /// A wait that is not held back by the other ones.
    fn pass(&mut self, ticks: u64) {
        self.budget += ticks;
        self.wait(ticks);
    }

    /// Most scenes want OSCON; a W part may have lost it. A scene with many edges asks for sure.
    fn start(&mut self, many: bool) {
        if many || self.random.once_in(2) {
            let seconds = self.random.pick(&[0x80, 0x80, 0x80, 0x80, 0x80, 0x00]);
            self.frame(&[WRITE, 0x01, seconds]);
            let ticks = self.random.pick(&[33, 33, 33, 33, 32, 31]);
            self.wait(ticks);
        }
    }

    /// 0Bh: what is wanted, often more, seldom less.
    fn events_byte(&mut self, wanted: u8) -> u8 {
        let more = match self.random.below(8) {
            0 => EVWDT,
            1 => EVHIF,
            2 => EVLIF,
            3 => EVLDB,
            4 => EVEN0 | EVEN1,
            _ => 0,
        };
        match self.random.below(16) {
            0 => wanted & !(EVEN0 | EVEN1),
            1 => self.random.byte(),
            2..=6 => wanted | more,
            _ => wanted,
        }
    }

    /// Writes 0Bh, by itself or with its neighbours.
    fn write_byte(&mut self, byte: u8) {
        match self.random.below(10) {
            0 => {
                let watchdog = self.watchdog_byte();
                self.frame(&[WRITE, 0x0A, watchdog, byte]);
            }
            1 => {
                let count = self.random.below(3);
                self.frame_with(&[WRITE, 0x0B, byte], count);
            }
            _ => self.frame(&[WRITE, 0x0B, byte]),
        }
    }

    /// A level of EVHS or EVLS, at times twice.
    fn pin(&mut self, name: &str, level: u64) {
        self.act(name, level);
        if self.random.once_in(12) {
            self.act(name, level);
        }
    }

    /// EVHS rises if it was low, and goes back there.
    fn rise(&mut self) {
        self.pin("evhs", 1);
        self.pin("evhs", 0);
    }

    /// About as many rises as the number set; between the first and the last about a window.
    fn drum(&mut self) {
        let setting = self.random.pick(&[0, 1, 1, 1, 1, 2, 2, 3]);
        self.start(setting > 1);
        let low_speed = if self.random.once_in(3) { EVEN0 } else { 0 };
        let byte = self.events_byte(EVEN1 | low_speed | setting);
        self.write_byte(byte);
        self.act("evhs", 0);
        let number = NUMBERS[usize::from(setting)];
        let rises = match self.random.below(8) {
            0 => number - 1,
            1 => number + 1,
            2 => number + 3,
            _ => number,
        };
        let ticks = match self.random.below(8) {
            0 | 1 => self.random.below(40),
            2 => WINDOW - 1,
            3 | 4 => WINDOW,
            5 => WINDOW + 1,
            6 => self.random.below(WINDOW),
            _ => WINDOW + self.random.below(WINDOW),
        };
        let early = self.random.below(ticks + 1);
        // Both pauses stand between the first rise and the last, the later one often before the last.
        let between = (number - 1).max(1);
        let first = 1 + self.random.below(between);
        let second = if self.random.once_in(2) { between } else { 1 + self.random.below(between) };
        for k in 0..rises {
            if k == first {
                self.pass(early);
            }
            if k == second {
                self.pass(ticks - early);
            }
            self.rise();
        }
        self.look_at_events();
    }

    /// EVLS rises, may bounce, and stays for about the debounce's ticks.
    fn door(&mut self) {
        self.start(false);
        let long = if self.random.once_in(4) { EVLDB } else { 0 };
        let high_speed = if self.random.once_in(3) { EVEN1 } else { 0 };
        let byte = self.events_byte(EVEN0 | high_speed | long);
        self.write_byte(byte);
        self.pin("evls", 0);
        let ticks = debounce_ticks(byte);
        for _ in 0..self.random.pick(&[0, 0, 1, 2, 5]) {
            self.pin("evls", 1);
            let held = self.random.pick(&[0, 1, 300, ticks - 1]);
            self.pass(held);
            self.pin("evls", 0);
        }
        self.pin("evls", 1);
        match self.random.below(6) {
            0 | 1 => self.pass(ticks),
            2 | 3 => {
                self.pass(ticks - 1);
                self.look_at_events();
                match self.random.below(4) {
                    0 => self.act("evls", 0),
                    1 => self.write_byte(byte),
                    _ => {}
                }
                self.pass(1);
            }
            4 => {
                let held = self.random.below(ticks);
                self.pass(held);
                self.rise();
                self.pass(ticks);
            }
            _ => self.pass(ticks + 100),
        }
        self.look_at_events();
    }

    /// Both inputs at work: a flag comes where IRQ is low already.
    fn one_after_the_other(&mut self) {
        self.start(false);
        let setting = self.random.pick(&[0, 0, 1]);
        let byte = self.events_byte(EVEN1 | EVEN0 | setting);
        self.write_byte(byte);
        self.act("evls", 0);
        self.pin("evls", 1);
        for _ in 0..number_of_edges(byte).min(4) {
            self.act("evhs", 0);
            self.act("evhs", 1);
        }
        let ticks = self.random.pick(&[1_023, 1_024, 1_025, 16_384, 20_000]);
        self.pass(ticks);
        self.look_at_events();
        if self.random.once_in(2) {
            // One flag is cleared; the other holds IRQ.
            let kept = self.random.pick(&[EVHIF, EVLIF]);
            self.write_byte(byte & 0x3F | kept);
            self.rise();
        }
    }

    /// EVWDT: edges of EVHS in the watchdog's last ticks, or none.
    fn drum_for_watchdog(&mut self) {
        self.start(false);
        let (code, period) = self.random.pick(&[(0x80, 32), (0x80, 32), (0x81, 512), (0x90, 32)]);
        let enabled = self.random.pick(&[0, EVEN1, EVEN1 | EVEN0]);
        let byte = self.events_byte(EVWDT | enabled);
        self.write_byte(byte);
        self.frame(&[WRITE, 0x0A, code]);
        for _ in 0..1 + self.random.below(5) {
            let ticks = self.random.pick(&[period - 1, period - 1, period / 2, period]);
            self.pass(ticks);
            let level = self.random.below(2);
            self.act("evhs", level);
        }
        match self.random.below(4) {
            0 => self.pass(period - 1),
            1 => self.pass(period),
            2 => self.frame(&[CLRWDT]),
            _ => self.pass(5_000),
        }
        self.frame(&[READ, 0x0A, 0, 0]);
    }

    /// ST is cleared and set between edges and ticks.
    fn without_oscillator(&mut self) {
        self.frame(&[WRITE, 0x01, 0x80]);
        self.wait(33);
        let byte = self.events_byte(EVEN1 | EVEN0 | 1);
        self.write_byte(byte);
        self.act("evls", 0);
        self.act("evls", 1);
        for _ in 0..3 {
            self.rise();
        }
        let before = self.random.pick(&[0, 100, 1_023]);
        self.pass(before);
        self.frame(&[WRITE, 0x01, 0x00]);
        if self.random.once_in(2) {
            self.rise();
        }
        let still = self.random.pick(&[1, 50, 9_000]);
        self.pass(still);
        self.frame(&[WRITE, 0x01, 0x80]);
        let after = self.random.pick(&[32, 33, 32 + 1_024, 32 + 8_192, 32 + 8_193]);
        self.pass(after);
        self.rise();
        self.look_at_events();
    }

    /// Pins before a cut, while power is off, and after the up.
    fn without_power(&mut self) {
        self.start(false);
        let day = self.random.pick(&[0x09, 0x09, 0x09, 0x19, 0x01]);
        self.frame(&[WRITE, 0x04, day]);
        let setting = self.random.pick(&[0, 1, 1]);
        let byte = self.events_byte(EVEN1 | EVEN0 | setting);
        self.write_byte(byte);
        self.pins();
        self.act("evls", 0);
        self.act("evls", 1);
        self.cut();
        for _ in 0..self.random.below(5) {
            self.one_pin();
            let ticks = self.random.pick(&[0, 1, 200, 1_024, 8_192]);
            self.pass(ticks);
        }
        self.raw(b"op=up arg=0");
        self.pins();
        self.pass(1_024);
        self.look_at_events();
    }

    /// Any byte, flags too, and what becomes of it.
    fn write_events(&mut self) {
        for _ in 0..1 + self.random.below(3) {
            let byte = self.random.byte();
            self.write_byte(byte);
            self.look_at_events();
            self.one_pin();
        }
    }

    fn one_pin(&mut self) {
        let name = self.random.pick(&["evls", "evhs", "evhs"]);
        let level = self.random.below(2);
        self.act(name, level);
    }

    /// Levels one after another, with few ticks between.
    fn pins(&mut self) {
        for _ in 0..1 + self.random.below(9) {
            self.one_pin();
            if self.random.once_in(4) {
                self.short_wait();
            }
        }
    }

    fn pins_in_a_cycle(&mut self) {
        let address = self.random.byte();
        self.enable();
        self.frame_with(&[EEWRITE, address], 2);
        self.pins();
        self.wait(200);
        self.frame_with(&[EEREAD, address], 2);
    }

    /// Refused by 3, or no line of a pin at all.
    fn bad_pin(&mut self) {
        let lines: [&[u8]; 14] = [
            b"op=evls arg=2",
            b"op=evhs arg=2",
            b"op=evls arg=255",
            b"op=evhs arg=256",
            b"op=evls arg=257",
            b"op=evhs arg=65537",
            b"op=evhs arg=99999999",
            b"op=evls arg=01",
            b"op=evhs arg=",
            b"op=evl arg=1",
            b"op=evhss arg=1",
            b"op=EVHS arg=1",
            b"op=ev arg=1",
            b"op=evls  arg=1",
        ];
        let line = self.random.pick(&lines);
        self.raw(line);
    }

    /// An alarm that comes soon: IRQ may be low when an event comes, or be held by a flag.
    fn with_an_alarm(&mut self) {
        let mut time = self.late_time();
        time[0] = 0x97;
        self.frame(&[&[WRITE, 0x00], &time[..]].concat());
        let code = self.random.pick(&[0x00, 0x50, 0x80, 0xD0]);
        self.frame(&[WRITE, 0x16, code]);
        self.frame(&[WRITE, 0x12, 0x00, 0x00]);
        self.frame(&[WRITE, 0x08, 0x20]);
        let byte = self.events_byte(EVEN1 | EVEN0);
        self.write_byte(byte);
        self.act("evls", 0);
        self.act("evls", 1);
        if self.random.once_in(2) {
            self.rise();
        }
        self.pass(2_000);
        self.pass(2_000);
        self.rise();
        self.frame(&[WRITE, 0x08, 0x00]);
        self.look_at_events();
    }
}

//! Random tapes that reach deep states: whole scenes (an unlock and an ID write, a time about to
//! carry into an alarm, a cut in the middle of a cycle), disturbed now and then by a wait, a bad
//! line, a refused act, a missing line or a cut. There are six kinds, with scenes of their own.
//! And random chips, as saved texts, whole and spoiled, and as pairs of texts.

mod bits;
mod chips;
mod events;
mod latch;
mod lines;
mod pairs;
mod power;
mod spoiled;

use crate::calendar;
use crate::chip::*;

pub use chips::{chip, text_of};
pub use pairs::saved_pair;
pub use spoiled::{saved_text, spoil, Way};

/// A small generator of numbers (splitmix64), the same for a seed on every machine.
pub struct Random(u64);

impl Random {
    pub fn new(seed: u64) -> Random {
        Random(seed)
    }

    pub fn next(&mut self) -> u64 {
        self.0 = self.0.wrapping_add(0x9E37_79B9_7F4A_7C15);
        let mut z = self.0;
        z = (z ^ z >> 30).wrapping_mul(0xBF58_476D_1CE4_E5B9);
        z = (z ^ z >> 27).wrapping_mul(0x94D0_49BB_1331_11EB);
        z ^ z >> 31
    }

    pub fn below(&mut self, n: u64) -> u64 {
        self.next() % n
    }

    /// True once in `n`.
    pub fn once_in(&mut self, n: u64) -> bool {
        self.below(n) == 0
    }

    pub fn byte(&mut self) -> u8 {
        self.next() as u8
    }

    pub fn pick<T: Copy>(&mut self, from: &[T]) -> T {
        from[self.below(from.len() as u64) as usize]
    }
}

/// Ticks that a tape may ask for, on average, for each of its lines.
const TICKS_PER_LINE: u64 = 800;

struct Writer {
    random: Random,
    tape: Vec<u8>,
    lines: u64,
    /// Ticks that waits may still ask for.
    budget: u64,
    /// The lines of a scene are left as they are.
    calm: bool,
    /// An alarm's scene may set event flags: they hold IRQ low.
    free_flags: bool,
}

/// A mixed tape of `lines` lines. `seed % 4` chooses the part.
pub fn tape(seed: u64, lines: u64) -> Vec<u8> {
    of_scenes(seed, lines, Writer::scene)
}

/// A tape for the time-stamps: power fails and comes back often. `seed % 4` chooses the part.
pub fn power_tape(seed: u64, lines: u64) -> Vec<u8> {
    of_scenes(seed, lines, Writer::power_scene)
}

/// A tape for WEL: writes that come to nothing, then one that is carried, under one enable.
/// `seed % 4` chooses the part.
pub fn latch_tape(seed: u64, lines: u64) -> Vec<u8> {
    of_scenes(seed, lines, Writer::latch_scene)
}

/// A tape for the bits of an end: reads in which CS rises in the middle of a byte. `seed % 4`
/// chooses the part.
pub fn bits_tape(seed: u64, lines: u64) -> Vec<u8> {
    of_scenes(seed, lines, Writer::bits_scene)
}

/// A tape for the event inputs. `seed % 4` chooses the part.
pub fn events_tape(seed: u64, lines: u64) -> Vec<u8> {
    let mut writer = Writer { free_flags: false, ..Writer::new(seed) };
    writer.scenes(seed, lines, Writer::event_scene)
}

/// A tape of bad lines, before the part and after it. `seed % 4` chooses the part.
pub fn lines_tape(seed: u64, lines: u64) -> Vec<u8> {
    let mut writer = Writer::new(seed);
    writer.lines_before_the_part();
    writer.scenes(seed, lines, Writer::lines_scene)
}

fn of_scenes(seed: u64, lines: u64, scene: fn(&mut Writer)) -> Vec<u8> {
    Writer::new(seed).scenes(seed, lines, scene)
}

/// The first `lines` lines.
fn cut_to(mut tape: Vec<u8>, lines: u64, no_last_newline: bool) -> Vec<u8> {
    let ends: Vec<usize> = (0..tape.len()).filter(|&i| tape[i] == b'\n').collect();
    let kept = match lines {
        0 => 0,
        n => ends[n as usize - 1] + 1,
    };
    tape.truncate(kept);
    if no_last_newline && tape.ends_with(b"\n") && !tape.ends_with(b"\n\n") && tape.len() > 1 {
        tape.pop();
    }
    tape
}

impl Writer {
    fn new(seed: u64) -> Writer {
        let random = Random::new(seed);
        Writer { random, tape: Vec::new(), lines: 0, budget: 0, calm: false, free_flags: true }
    }

    fn scenes(&mut self, seed: u64, lines: u64, scene: fn(&mut Writer)) -> Vec<u8> {
        if self.random.once_in(8) {
            self.budget = 4 * DELAY; // some tapes see the watchdog's delay run out
        }
        while self.random.once_in(3) {
            self.before_the_part();
        }
        self.raw(format!("op=part arg={}", 1 + seed % 4).as_bytes());
        while self.lines < lines {
            self.calm = !self.random.once_in(3);
            scene(self);
        }
        let no_last_newline = self.random.once_in(4);
        cut_to(std::mem::take(&mut self.tape), lines, no_last_newline)
    }

    fn raw(&mut self, line: &[u8]) {
        self.tape.extend(line);
        self.tape.push(b'\n');
        self.lines += 1;
        self.budget += TICKS_PER_LINE;
    }

    fn before_the_part(&mut self) {
        match self.random.below(4) {
            0 => self.raw(b"op=part arg=0"),
            1 => self.raw(b"op=part arg=5"),
            2 => self.raw(b"op=select arg=0"),
            _ => self.bad_line(),
        }
    }

    /// An act, now and then disturbed.
    fn act(&mut self, name: &str, number: u64) {
        if !self.calm {
            match self.random.below(240) {
                0..=7 => self.short_wait(),
                8..=10 => self.bad_line(),
                11..=13 => self.refused(),
                14 => self.power_cut(),
                15 => return, // left out
                16 => self.raw(b"op=select arg=0"),
                17 => self.raw(b"op=end arg=0"),
                _ => {}
            }
        }
        self.raw(format!("op={name} arg={number}").as_bytes());
    }

    fn wait(&mut self, ticks: u64) {
        if ticks <= self.budget {
            self.budget -= ticks;
            self.raw(format!("op=wait arg={ticks}").as_bytes());
        }
    }

    fn short_wait(&mut self) {
        let ticks = match self.random.below(8) {
            0 => 0,
            1 => self.random.pick(&[1, 4, 31, 32, 33, 163, 164, 165, 327, 328]),
            2..=4 => self.random.below(40),
            5 | 6 => self.random.below(400),
            _ => self.random.below(4_000),
        };
        self.wait(ticks);
    }

    fn long_wait(&mut self) {
        let ticks = match self.random.below(6) {
            0 => self.random.pick(&PERIODS),
            1 => DELAY + self.random.below(100),
            2 => self.random.below(DELAY),
            3 => LONGEST_WAIT,
            _ => self.random.below(200_000),
        };
        self.wait(ticks);
    }

    /// A frame without its end.
    fn open(&mut self, bytes: &[u8]) {
        self.act("select", 0);
        for &byte in bytes {
            self.act("byte", u64::from(byte));
        }
    }

    fn frame(&mut self, bytes: &[u8]) {
        self.open(bytes);
        let leftover = if self.random.once_in(14) { 1 + self.random.below(7) } else { 0 };
        self.act("end", leftover);
    }

    fn bytes(&mut self, count: u64) -> Vec<u8> {
        (0..count).map(|_| self.random.byte()).collect()
    }

    fn frame_with(&mut self, head: &[u8], count: u64) {
        let mut bytes = head.to_vec();
        bytes.extend(self.bytes(count));
        self.frame(&bytes);
    }

    fn scene(&mut self) {
        match self.random.below(40) {
            0..=6 => self.eeprom_write(),
            7..=9 => self.status_write(),
            10..=14 => self.id_write(),
            15..=16 => self.clock_write(),
            17..=18 => self.look(),
            19..=26 => self.alarm(),
            27..=30 => self.watchdog(),
            31 => self.oscillator(),
            32 => self.clear(),
            33 => self.power_cut(),
            34 => self.any_frame(),
            35 => self.refused(),
            36 => self.bad_line(),
            37 => self.long_wait(),
            _ => self.short_wait(),
        }
        if self.random.once_in(6) {
            self.look();
        }
    }

    fn any_frame(&mut self) {
        let code = match self.random.below(3) {
            0 => self.random.byte(),
            _ => self.a_code(),
        };
        let count = self.random.below(6);
        match self.random.below(8) {
            0 => self.frame(&[]),
            _ => self.frame_with(&[code], count),
        }
    }

    fn a_code(&mut self) -> u8 {
        self.random.pick(&[
            EEREAD, EEWRITE, EEWRDI, EEWREN, SRREAD, SRWRITE, READ, WRITE, UNLOCK, IDWRITE, IDREAD,
            CLRWDT, CLRRAM,
        ])
    }

    /// Lets a cycle run: whole, in pieces, with frames inside, or into a cut.
    fn cycle(&mut self) {
        match self.random.below(8) {
            0..=2 => self.wait(200),
            3 => {
                self.wait(163);
                self.frame(&[SRREAD, 0]);
                self.wait(1);
            }
            4 => {
                let part = self.random.below(164);
                self.wait(part);
                match self.random.below(3) {
                    0 => self.any_frame(),
                    1 => self.clear(),
                    _ => self.clock_write(),
                }
                self.look();
                self.wait(164);
            }
            5 => {
                // WIP falls inside a frame.
                self.act("select", 0);
                let code = self.random.pick(&[SRREAD, EEREAD, READ, EEWRITE, IDREAD]);
                self.act("byte", u64::from(code));
                self.act("byte", 0);
                self.wait(164);
                self.act("byte", 0);
                self.act("end", 0);
            }
            6 => {
                let part = self.random.below(170);
                self.wait(part);
                self.power_cut();
            }
            _ => {} // the next scene finds WIP set
        }
    }

    fn enable(&mut self) {
        match self.random.below(24) {
            0 => {}
            1 => self.frame(&[EEWREN, 0]),
            _ => self.frame(&[EEWREN]),
        }
        match self.random.below(24) {
            0 => self.frame(&[EEWRDI]),
            1 => self.frame(&[EEWRDI, 0]),
            2 | 3 => self.frame(&[SRREAD, 0, 0]),
            _ => {}
        }
    }

    fn data_count(&mut self) -> u64 {
        match self.random.below(6) {
            0 => 0,
            1 => 8 + self.random.below(6),
            _ => 1 + self.random.below(8),
        }
    }

    fn eeprom_write(&mut self) {
        let address = match self.random.below(3) {
            0 => self
                .random
                .pick(&[0x00, 0x07, 0x3F, 0x40, 0x5F, 0x60, 0x7F, 0x80, 0xBF, 0xC0, 0xFF]),
            _ => self.random.byte(),
        };
        self.enable();
        let count = self.data_count();
        self.frame_with(&[EEWRITE, address], count);
        self.cycle();
        let count = 1 + self.random.below(10);
        self.frame_with(&[EEREAD, address & 0xF8], count);
    }

    fn status_write(&mut self) {
        let value = match self.random.below(5) {
            0..=2 => 0, // most of the time EEPROM writes are free
            3 => 4 * self.random.below(4) as u8,
            _ => self.random.byte(),
        };
        self.enable();
        match self.random.below(8) {
            0 => self.frame(&[SRWRITE]),
            1 => self.frame(&[SRWRITE, value, value]),
            _ => self.frame(&[SRWRITE, value]),
        }
        self.cycle();
        self.frame(&[SRREAD, 0]);
    }

    /// Something that may or may not close the lock.
    fn between(&mut self) {
        match self.random.below(16) {
            0 => self.frame(&[SRREAD, 0]),
            1 => self.frame(&[EEWREN]),
            2 => self.frame(&[EEWREN, 0]),
            3 => self.frame(&[]),
            4 => self.any_frame(),
            5 | 6 => self.frame(&[UNLOCK, 0x55]),
            7 => self.frame(&[UNLOCK, 0xAA]),
            8 => {
                let bytes =
                    self.random.pick(&[&[UNLOCK][..], &[UNLOCK, 0x55, 0], &[UNLOCK, 0xAA, 0]]);
                self.frame(bytes);
            }
            9 => {
                let any = self.random.byte();
                self.frame(&[any]);
            }
            10..=12 => {
                let (code, count) = (self.a_code(), self.random.below(4));
                self.frame_with(&[code], count);
            }
            13 => self.power_cut(),
            _ => self.short_wait(),
        }
    }

    /// Unlock, enable, write; in most scenes with one thing more at one place.
    fn id_write(&mut self) {
        let disturbed = self.random.below(6);
        self.frame(&[UNLOCK, 0x55]);
        if disturbed == 0 {
            self.between();
        }
        self.frame(&[UNLOCK, 0xAA]);
        if disturbed == 1 {
            self.between();
        }
        self.enable();
        if disturbed == 2 {
            self.between();
        }
        let address = self.random.byte();
        let count = self.data_count();
        self.frame_with(&[IDWRITE, address], count);
        self.cycle();
        self.frame_with(&[IDREAD, address & 0xF8], 8);
        if disturbed == 3 {
            // Once more, with no unlock: the lock is closed.
            self.wait(164);
            self.frame(&[EEWREN]);
            self.frame_with(&[IDWRITE, address], 1);
            self.cycle();
            self.frame_with(&[IDREAD, address], 1);
        }
    }

    /// CLRRAM or CLRWDT; there is something to clear, and it is looked at.
    fn clear(&mut self) {
        let count = self.random.below(3);
        if self.random.once_in(2) {
            self.frame_with(&[WRITE, 0x3D], 4);
            self.frame_with(&[CLRRAM], count);
            self.frame_with(&[READ, 0x3C], 6);
        } else {
            self.frame(&[WRITE, 0x01, 0x80]);
            self.wait(32);
            self.frame(&[WRITE, 0x0A, 0x81]);
            let ticks = self.random.below(512);
            self.wait(ticks);
            self.frame_with(&[CLRWDT], count);
            self.wait(600);
        }
    }

    /// Starts and stops the oscillator, and looks at OSCON and the hundredths.
    fn oscillator(&mut self) {
        for _ in 0..2 + self.random.below(6) {
            let seconds = self.random.pick(&[0x00, 0x80, 0x80]);
            self.frame(&[WRITE, 0x01, seconds]);
            let ticks = self.random.pick(&[5, 20, 31, 32, 33, 200, 340]);
            self.wait(ticks);
            self.frame(&[READ, 0x00, 0, 0, 0, 0, 0]);
        }
    }

    fn clock_write(&mut self) {
        let address = match self.random.below(3) {
            0 => self
                .random
                .pick(&[0x00, 0x08, 0x0A, 0x17, 0x1E, 0x1F, 0x20, 0x5E, 0x5F, 0x60, 0xFF, 0xFF]),
            _ => self.random.below(0x60) as u8,
        };
        let count = self.random.below(10);
        self.frame_with(&[WRITE, address], count);
        if self.random.once_in(2) {
            self.frame_with(&[READ, address], count);
        }
    }

    fn look(&mut self) {
        match self.random.below(8) {
            0 => self.frame(&[READ, 0, 0, 0, 0, 0, 0, 0, 0, 0]),
            1 => {
                let address = self.random.pick(&[0x07, 0x12, 0x18, 0x5C, 0x60, 0xFE]);
                self.frame_with(&[READ, address], 14);
            }
            2 => self.frame_with(&[READ, 0], 33),
            3 => {
                let address = self.random.byte();
                self.frame_with(&[EEREAD, address], 9);
            }
            4 => {
                let address = self.random.byte();
                self.frame_with(&[IDREAD, address], 17);
            }
            5 => {
                let address = 0x20 + self.random.below(0x40) as u8;
                self.frame_with(&[READ, address], 6);
            }
            6 => self.frame(&[READ, 0x0A, 0, 0, 0, 0, 0, 0, 0]),
            _ => self.frame(&[SRREAD, 0, 0]),
        }
    }

    /// A time about to carry: each field its last, any valid one, or any byte.
    fn late_time(&mut self) -> [u8; 8] {
        const LAST: [[u8; 8]; 8] = [
            [0x99, 0x99, 0x99, 0x99, 0x99, 0x98, 0x95, 0x9A],
            [0xD9, 0xD9, 0xD9, 0xD9, 0xD9, 0xD8, 0xDA, 0xE0],
            [0x59, 0x59, 0x59, 0x59, 0x59, 0x58, 0x5A, 0x60],
            [0x23, 0x23, 0xA3, 0x71, 0x71, 0xF1, 0x40, 0x24],
            [0x07, 0x07, 0x01, 0x02, 0x05, 0x06, 0x00, 0x17],
            [0x31, 0x31, 0x30, 0x30, 0x29, 0x28, 0x27, 0x00],
            [0x12, 0x12, 0x11, 0x09, 0x04, 0x02, 0x02, 0x00],
            [0x99, 0x00, 0x01, 0x04, 0x95, 0x96, 0x9A, 0xA0],
        ];
        let mut time = [0; 8];
        // Up to here the fields carry; those above are any.
        let carries = self.random.pick(&[0, 1, 2, 3, 4, 7, 7, 7, 7, 7]);
        for place in 0..8 {
            let any = self.random.byte();
            let plain = self.random.pick(&[0x01, 0x09, 0x10, 0x12, 0x05, any]);
            time[place] = match place > carries {
                true => plain,
                false => self.random.pick(&LAST[place]),
            };
        }
        if !self.random.once_in(12) {
            time[1] |= 0x80; // ST
        }
        if !self.random.once_in(3) {
            time[4] |= 0x08; // VBATEN
        }
        for (register, writable) in time.iter_mut().zip(WRITABLE) {
            *register &= writable;
        }
        time
    }

    /// Time, control and alarms in one WRITE; the alarms are often those of the next step.
    fn alarm(&mut self) {
        let time = self.late_time();
        let mut next = time;
        for _ in 0..self.random.pick(&[1, 1, 1, 1, 2, 3]) {
            calendar::step(&mut next);
        }
        let mut block = [0; 24];
        block[..8].copy_from_slice(&time);
        block[0x08] = self.random.byte() | if self.random.once_in(6) { 0 } else { 0x30 };
        block[0x09] = self.random.byte();
        block[0x0A] = if self.random.once_in(4) { self.watchdog_byte() } else { 0 };
        block[0x0B] = self.random.byte() & if self.free_flags { 0xFF } else { 0x3F };
        for (base, from) in [(0x0B, 1), (0x12, 0)] {
            for field in from..from + 6 {
                block[base + field] = next[field];
            }
        }
        for day in [ALARM0_DAY, ALARM1_DAY] {
            let code = self.random.pick(&[0, 1, 2, 3, 4, 5, 6, 7, 7, 7]);
            let pin = if self.random.once_in(3) { 0x80 } else { 0 };
            let flag = if self.random.once_in(8) { 0x08 } else { 0 };
            block[day] = pin | code << 4 | flag | next[4] & 7;
        }
        match self.random.below(4) {
            0 => {
                // One alarm register differs from the time to come in one bit.
                let wrong = 0x0C + self.random.below(12) as usize;
                block[wrong] ^= 1 << self.random.below(7);
            }
            1 => {
                // Many differ; the days stand beside their codes.
                for wrong in 0x0C..0x18 {
                    if wrong != ALARM0_DAY && wrong != ALARM1_DAY && self.random.once_in(2) {
                        block[wrong] = self.random.byte();
                    }
                }
            }
            _ => {}
        }
        let mut bytes = vec![WRITE, 0];
        bytes.extend(block);
        self.frame(&bytes);
        if self.random.once_in(8) {
            self.power_cut();
        }
        for _ in 0..1 + self.random.below(3) {
            match self.random.below(6) {
                0 => self.short_wait(),
                1 => self.wait(32),
                _ => self.wait(400),
            }
            match self.random.below(8) {
                0 => self.frame(&[WRITE, 0x0F, block[0x0F] & 0xF7]),
                1 => self.frame(&[WRITE, 0x16, block[0x16] & 0xF7]),
                _ => {}
            }
        }
        self.frame(&[READ, 0, 0, 0, 0, 0, 0, 0, 0, 0]);
        self.frame(&[READ, 0x0F, 0]);
        self.frame(&[READ, 0x16, 0]);
    }

    fn watchdog_byte(&mut self) -> u8 {
        let period = match self.random.below(6) {
            0 => self.random.below(16) as u8,
            n => self.random.pick(&[0, 0, 1, 2, 3, 8]) | u8::from(n == 1) << 3,
        };
        let delay = if self.random.once_in(8) { 0x20 } else { 0 };
        let pulse = if self.random.once_in(2) { 0x10 } else { 0 };
        let flag = if self.random.once_in(12) { 0x40 } else { 0 };
        let enable = if self.random.once_in(10) { 0 } else { 0x80 };
        enable | flag | delay | pulse | period
    }

    fn watchdog(&mut self) {
        if self.random.once_in(3) {
            let seconds = 0x80 | self.random.byte();
            self.frame(&[WRITE, 0x01, seconds]);
            if !self.random.once_in(3) {
                self.wait(32);
            }
        }
        let byte = self.watchdog_byte();
        self.frame(&[WRITE, 0x0A, byte]);
        for _ in 0..1 + self.random.below(5) {
            match self.random.below(10) {
                0 => self.wait(31),
                1 => self.wait(32),
                2 => self.wait(600),
                3 => self.wait(5_000),
                4 => {
                    let count = self.random.below(3);
                    self.frame_with(&[CLRWDT], count);
                }
                5 => self.frame(&[WRITE, 0x0A, byte & 0xBF]),
                6 => self.frame(&[READ, 0x0A, 0]),
                7 => {
                    self.frame(&[WRITE, 0x01, 0x00]);
                    self.wait(5_000);
                }
                8 => self.power_cut(),
                _ => self.short_wait(),
            }
        }
        if byte & 0x20 != 0 || self.random.once_in(30) {
            // A long period, or the delay.
            let long = byte & 0xB8 | 5 + self.random.below(3) as u8;
            self.frame(&[WRITE, 0x01, 0x80]);
            self.wait(32);
            self.frame(&[WRITE, 0x0A, long]);
            self.wait(DELAY);
            self.wait(DELAY);
            self.frame(&[READ, 0x0A, 0]);
        }
    }

    fn power_cut(&mut self) {
        self.cut();
        if self.random.once_in(2) {
            self.short_wait();
        }
        self.raw(b"op=up arg=0");
    }

    /// A cut, and now and then acts that are refused after it.
    fn cut(&mut self) {
        let mask = match self.random.below(4) {
            0 => 0,
            1 => 255,
            _ => self.random.below(256),
        };
        self.raw(format!("op=cut arg={mask}").as_bytes());
        while self.random.once_in(3) {
            match self.random.below(5) {
                0 => self.raw(b"op=select arg=0"),
                1 => self.raw(b"op=byte arg=5"),
                2 => self.raw(b"op=end arg=0"),
                3 => self.raw(b"op=cut arg=255"),
                _ => self.raw(b"op=up arg=1"),
            }
        }
    }

    /// An act that the table refuses now or mostly.
    fn refused(&mut self) {
        let past = self.random.pick(&[0, 0, 0, 1, 248, 1_000]);
        let line = match self.random.below(12) {
            0 => format!("op=byte arg={}", 256 + past),
            1 => format!("op=end arg={}", 8 + past),
            2 => format!("op=wait arg={}", LONGEST_WAIT + 1 + past),
            3 => "op=wait arg=99999999".to_string(),
            4 => format!("op=cut arg={}", 256 + past),
            5 => format!("op=select arg={}", 1 + past),
            6 => format!("op=up arg={}", 1 + past),
            7 => "op=up arg=0".to_string(),
            8 => "op=select arg=0".to_string(),
            9 => format!("op=byte arg={}", self.random.below(256)),
            10 => format!("op=end arg={}", self.random.below(8)),
            _ => format!("op=part arg={}", self.random.below(6)),
        };
        self.raw(line.as_bytes());
    }

    fn bad_line(&mut self) {
        const BAD: [&[u8]; 34] = [
            b"",
            b" ",
            b"op",
            b"op=",
            b"op=byte",
            b"op=byte ",
            b"op=byte arg",
            b"op=byte arg=",
            b"op=byte arg=01",
            b"op=end arg=00",
            b"op=wait arg=00000001",
            b"op=wait arg=100000000",
            b"op=wait arg=000000000",
            b"op=byte  arg=1",
            b" op=byte arg=1",
            b"op=byte arg=1 ",
            b"op=byte arg=1\r",
            b"op=byte\targ=1",
            b"OP=byte arg=1",
            b"op=Byte arg=1",
            b"op=bytes arg=1",
            b"op=byt arg=1",
            b"op= arg=1",
            b"op=byte arg=-1",
            b"op=byte arg=+1",
            b"op=byte arg=1x",
            b"op=byte arg=x1",
            b"op=byte arg=0x1",
            b"op=byte arg=1.0",
            b"arg=1 op=byte",
            b"op=read arg=0",
            b"op=byte arg=\xB2",
            b"\xFF\x00\x80",
            b"op=byte arg=1 op=byte arg=1",
        ];
        match self.random.below(5) {
            0 => {
                // A good line with one byte other than it was.
                let mut line = format!("op=byte arg={}", self.random.below(256)).into_bytes();
                let place = self.random.below(line.len() as u64) as usize;
                line[place] = self.random.byte();
                if line[place] == b'\n' {
                    line[place] = 0;
                }
                self.raw(&line);
            }
            1 => {
                let length = self.random.pick(&[63, 64, 65, 66, 200, 1_000]);
                let fill = self.random.pick(b"0 1x");
                let mut line = b"op=byte arg=1".to_vec();
                line.resize(length, fill);
                self.raw(&line);
            }
            _ => {
                let line = self.random.pick(&BAD);
                self.raw(line);
            }
        }
    }
}

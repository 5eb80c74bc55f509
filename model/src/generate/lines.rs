//! The lines of a lines tape, most of them bad: a name that is nearly known, digits too many, a line
//! of about 64 bytes, and then a byte or two other than they were. Between them are scenes.

use super::Writer;
use crate::chip::LONGEST_WAIT;
use crate::tape::{parse, Op};
use crate::Act;

const NAMES: [&str; 9] = ["part", "select", "byte", "end", "wait", "cut", "up", "evls", "evhs"];

impl Writer {
    /// None of them is a part that is accepted.
    pub(super) fn lines_before_the_part(&mut self) {
        for _ in 0..self.random.below(40) {
            let line = self.any_line();
            if !matches!(parse(&line), Ok((Op::Part, 1..=4))) {
                self.raw(&line);
            }
        }
    }

    pub(super) fn lines_scene(&mut self) {
        if self.random.once_in(40) {
            return self.scene();
        }
        let line = self.any_line();
        match parse(&line) {
            Ok((Op::Do(Act::Wait), ticks)) if ticks <= LONGEST_WAIT => self.wait(ticks),
            Ok((Op::Do(Act::Cut), _)) => {
                self.raw(&line);
                while self.random.once_in(3) {
                    self.lines_scene();
                }
                self.raw(b"op=up arg=0");
            }
            _ => self.raw(&line),
        }
    }

    fn any_line(&mut self) -> Vec<u8> {
        let mut line = match self.random.below(8) {
            0 => self.long_line(),
            1 => format!("op=part arg={}", self.random.below(6)).into_bytes(),
            _ => {
                let (name, digits) = (self.a_name(), self.digits());
                [b"op=", &name[..], b" arg=", &digits].concat()
            }
        };
        for _ in 0..self.random.pick(&[0, 0, 1, 1, 1, 2]) {
            self.spoil_line(&mut line);
        }
        line
    }

    /// Known, or a letter away from that.
    fn a_name(&mut self) -> Vec<u8> {
        let mut name = self.random.pick(&NAMES).as_bytes().to_vec();
        let place = self.random.below(name.len() as u64) as usize;
        match self.random.below(16) {
            0 => drop(name.remove(place)),
            1 => name.insert(place, self.a_letter()),
            2 => name.push(self.a_letter()),
            3 => name[place] = self.a_letter(),
            _ => {}
        }
        name
    }

    fn a_letter(&mut self) -> u8 {
        b'a' + self.random.below(26) as u8
    }

    /// Few, or about eight; with needless zeros or without.
    fn digits(&mut self) -> Vec<u8> {
        let zeros = match self.random.below(6) {
            0 => 1 + self.random.below(3) as usize,
            _ => 0,
        };
        let digits = match self.random.below(4) {
            0 => {
                let count = 7 + self.random.below(6) as u32;
                let least = 10_u64.pow(count - 1);
                least + self.random.below(9 * least)
            }
            _ => self.random.pick(&[0, 1, 5, 19, 255, 256]),
        };
        format!("{}{digits}", "0".repeat(zeros)).into_bytes()
    }

    /// A line of 62 to 67 bytes, or far more, that is bad at its end or before.
    fn long_line(&mut self) -> Vec<u8> {
        let length = self.random.pick(&[62, 63, 64, 64, 65, 65, 66, 67, 200, 1_000]);
        let name = self.a_name();
        let start = [b"op=", &name[..], b" arg="].concat();
        let (mut line, fill) = match self.random.below(5) {
            0 => (b"op=".to_vec(), self.a_letter()),
            1 => (start, b'0'),
            2 => (start, b'7'),
            3 => ([&start[..], b"1"].concat(), self.a_byte()),
            _ => {
                let mut line = b"op=".to_vec();
                line.resize(length - 6, self.a_letter());
                line.extend(b" arg=");
                (line, b'3')
            }
        };
        line.resize(length, fill);
        line
    }

    /// Any but a newline: one of the form, one that is seen in texts, one from 80h up, or any.
    fn a_byte(&mut self) -> u8 {
        let byte = match self.random.below(5) {
            0 | 1 => self.random.pick(b"op= arg0123456789z"),
            2 => self.random.pick(b"\r\r\t\0 OA-+.;_{`/:\x7F"),
            3 => 0x80 | self.random.byte(),
            _ => self.random.byte(),
        };
        if byte == b'\n' {
            b'\r'
        } else {
            byte
        }
    }

    fn spoil_line(&mut self, line: &mut Vec<u8>) {
        let place = self.random.below(line.len() as u64 + 1) as usize;
        match self.random.below(6) {
            0 => line.insert(place, self.a_byte()),
            1 => line.truncate(place),
            2 => line.push(self.random.pick(b"\r\r 0x\0")),
            3 if place < line.len() => drop(line.remove(place)),
            _ if place < line.len() => line[place] = self.a_byte(),
            _ => line.push(self.a_byte()),
        }
    }
}

//! The tape (01 Tape): bytes to acts, answers to bytes.

use crate::chip::{self, Answer, Chip};
use crate::Act;

/// What a line of the form names.
#[derive(Clone, Copy, Debug, PartialEq, Eq)]
pub enum Op {
    Part,
    Do(Act),
}

const LONGEST_LINE: usize = 64;
const MOST_DIGITS: usize = 8;

/// 02 Bad lines: what is wrong with a line, by its number, and the column that tells where.
#[derive(Clone, Copy, Debug, PartialEq, Eq)]
pub struct Fault {
    pub number: u64,
    /// In bytes, from 1.
    pub column: usize,
}

/// A line without its newline. The first fault counts: its length, the form, the name, the digits.
pub fn parse(line: &[u8]) -> Result<(Op, u64), Fault> {
    if line.len() > LONGEST_LINE {
        return Err(Fault { number: 71, column: LONGEST_LINE + 1 });
    }
    let Some((name, digits)) = of_the_form(line) else {
        return Err(Fault { number: 72, column: 1 + longest_beginning(line) });
    };
    let Some(op) = op_of(name) else {
        return Err(Fault { number: 73, column: START.len() + 1 });
    };
    let first_digit = line.len() - digits.len() + 1;
    match number(digits) {
        Ok(number) => Ok((op, number)),
        Err(digit) => Err(Fault { number: 75, column: first_digit + digit }),
    }
}

const START: &[u8] = b"op=";
const MIDDLE: &[u8] = b" arg=";

/// The letters and the digits of a line of the form, of any length, whatever name they make.
fn of_the_form(line: &[u8]) -> Option<(&[u8], &[u8])> {
    let rest = line.strip_prefix(START)?;
    let (name, rest) = rest.split_at(rest.iter().position(|&b| b == b' ')?);
    let digits = rest.strip_prefix(MIDDLE)?;
    let letters = !name.is_empty() && name.iter().all(u8::is_ascii_lowercase);
    (letters && !digits.is_empty() && digits.iter().all(u8::is_ascii_digit))
        .then_some((name, digits))
}

/// How many of the line's first bytes some line of the form begins with. A beginning becomes such a
/// line with some end of the shortest one, and so does all that it begins with.
fn longest_beginning(line: &[u8]) -> usize {
    const SHORTEST: &[u8] = b"op=a arg=0";
    let begins = |bytes: &[u8]| {
        (0..=SHORTEST.len()).any(|k| of_the_form(&[bytes, &SHORTEST[k..]].concat()).is_some())
    };
    (1..=line.len()).take_while(|&n| begins(&line[..n])).count()
}

fn op_of(name: &[u8]) -> Option<Op> {
    Some(match name {
        b"part" => Op::Part,
        b"select" => Op::Do(Act::Select),
        b"byte" => Op::Do(Act::Byte),
        b"end" => Op::Do(Act::End),
        b"wait" => Op::Do(Act::Wait),
        b"cut" => Op::Do(Act::Cut),
        b"up" => Op::Do(Act::Up),
        b"evls" => Op::Do(Act::Evls),
        b"evhs" => Op::Do(Act::Evhs),
        _ => return None,
    })
}

/// 01 Tape: at most eight digits; a 0 in front stands alone. Else the place of the digit that is
/// to blame, from 0: a needless zero, or the first digit too many.
fn number(digits: &[u8]) -> Result<u64, usize> {
    if digits.len() > 1 && digits[0] == b'0' {
        return Err(0);
    }
    if digits.len() > MOST_DIGITS {
        return Err(MOST_DIGITS);
    }
    Ok(digits.iter().fold(0, |n, &d| 10 * n + u64::from(d - b'0')))
}

/// A tape in the middle of its lines: the chip once a part came, and the bytes of a line that
/// has not ended.
#[derive(Default)]
pub struct Tape {
    chip: Option<Chip>,
    open: Vec<u8>,
    in_line: bool,
}

impl Tape {
    pub fn new() -> Tape {
        Tape::default()
    }

    /// 02 Save: a tape that goes on with a loaded chip. Its part has come.
    pub fn with(chip: Chip) -> Tape {
        Tape { chip: Some(chip), ..Tape::default() }
    }

    /// None while no part came.
    pub fn chip(&self) -> Option<&Chip> {
        self.chip.as_ref()
    }

    /// Answers every line that ends in `chunk`.
    pub fn feed(&mut self, chunk: &[u8], out: &mut Vec<u8>) {
        for &byte in chunk {
            if byte == b'\n' {
                self.end_line(out);
            } else {
                self.in_line = true;
                // A longer line is 71 whatever follows: one byte too many tells it.
                if self.open.len() <= LONGEST_LINE {
                    self.open.push(byte);
                }
            }
        }
    }

    /// A last line that lacks its newline is answered too; 01 Tape does not ask for one.
    pub fn finish(&mut self, out: &mut Vec<u8>) {
        if self.in_line {
            self.end_line(out);
        }
    }

    fn end_line(&mut self, out: &mut Vec<u8>) {
        let line = std::mem::take(&mut self.open);
        let (number, shown) = self.answer(&line);
        self.print(number, shown, out);
        self.open = line;
        self.open.clear();
        self.in_line = false;
    }

    /// The line's number, and what `out` shows: none is z.
    fn answer(&mut self, line: &[u8]) -> (u64, Option<u64>) {
        match (parse(line), &mut self.chip) {
            (Err(fault), _) => (fault.number, Some(fault.column as u64)),
            (Ok((Op::Part, part)), None) => {
                if !chip::part_exists(part) {
                    return (3, None);
                }
                self.chip = Some(Chip::fresh(part));
                (0, None)
            }
            (Ok((Op::Do(act), number)), Some(c)) => {
                let answer = c.perform(act, number);
                (answer.number, shown(act, answer))
            }
            // An act before the part, or a second part: no byte of the line is to blame.
            (Ok(_), _) => (74, Some(0)),
        }
    }

    fn print(&self, number: u64, shown: Option<u64>, out: &mut Vec<u8>) {
        let shown = shown.map_or("z".to_string(), |v| v.to_string());
        let (irq, wdo) = match &self.chip {
            Some(c) => (u8::from(c.device.irq()), u8::from(c.device.wdo())),
            None => (1, 1),
        };
        out.extend(format!("no={number} out={shown} irq={irq} wdo={wdo}\n").bytes());
    }
}

/// 01 Tape, 02 Bits: a wait shows its ticks, a cut its count, any other act its reply; none is z.
fn shown(act: Act, answer: Answer) -> Option<u64> {
    match act {
        _ if answer.number != 0 => None,
        Act::Wait | Act::Cut => Some(answer.count),
        _ => answer.reply.map(u64::from),
    }
}

/// The answers to a whole tape.
pub fn answers(tape: &[u8]) -> Vec<u8> {
    let mut out = Vec::new();
    let mut state = Tape::new();
    state.feed(tape, &mut out);
    state.finish(&mut out);
    out
}

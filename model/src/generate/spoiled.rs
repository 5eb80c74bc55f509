//! Saved texts with one thing wrong, or nearly so: some are still good.

use super::{chip, text_of, Random};
use crate::saved;

/// What is done to a line, or at its place to the whole text.
#[derive(Clone, Copy, Debug, PartialEq, Eq)]
pub enum Way {
    // Lines.
    Missing,
    Doubled,
    Swapped,
    Moved,
    EmptyLine,
    EndsBefore,
    EndsInside,
    /// Ends before the event inputs' lines, and is good.
    Older,
    NoNewline,
    NoLastNewline,
    AfterTheEnd,
    EmptyFile,
    OnlyNewlines,
    OtherLine,
    OtherChip,
    // The key.
    KeyLetter,
    KeyUpper,
    KeyNumber,
    KeyMissing,
    OtherKey,
    NoEquals,
    TwoEquals,
    // Blanks.
    BlankFirst,
    BlankLast,
    BlankBeforeEquals,
    BlankAfterEquals,
    BlankAtComma,
    Tab,
    CarriageReturn,
    CarriageReturns,
    // Numbers.
    JustBad,
    Edge,
    Wrapped,
    DigitMore,
    DigitLess,
    ZeroFirst,
    Digits9,
    Digits10,
    Digits20,
    Digits30,
    Plus,
    Minus,
    Letter,
    Hex,
    Point,
    Zeros,
    // How many numbers.
    TooFew,
    TooMany,
    EmptyNumber,
    CommaFirst,
    CommaLast,
    OtherComma,
    // Bytes.
    RandomBytes,
    HighByte,
    HighBit,
    Nul,
    OtherByte,
    ByteLost,
    BitFlipped,
}

impl Way {
    pub const ALL: [Way; 59] = [
        Way::Missing,
        Way::Doubled,
        Way::Swapped,
        Way::Moved,
        Way::EmptyLine,
        Way::EndsBefore,
        Way::EndsInside,
        Way::Older,
        Way::NoNewline,
        Way::NoLastNewline,
        Way::AfterTheEnd,
        Way::EmptyFile,
        Way::OnlyNewlines,
        Way::OtherLine,
        Way::OtherChip,
        Way::KeyLetter,
        Way::KeyUpper,
        Way::KeyNumber,
        Way::KeyMissing,
        Way::OtherKey,
        Way::NoEquals,
        Way::TwoEquals,
        Way::BlankFirst,
        Way::BlankLast,
        Way::BlankBeforeEquals,
        Way::BlankAfterEquals,
        Way::BlankAtComma,
        Way::Tab,
        Way::CarriageReturn,
        Way::CarriageReturns,
        Way::JustBad,
        Way::Edge,
        Way::Wrapped,
        Way::DigitMore,
        Way::DigitLess,
        Way::ZeroFirst,
        Way::Digits9,
        Way::Digits10,
        Way::Digits20,
        Way::Digits30,
        Way::Plus,
        Way::Minus,
        Way::Letter,
        Way::Hex,
        Way::Point,
        Way::Zeros,
        Way::TooFew,
        Way::TooMany,
        Way::EmptyNumber,
        Way::CommaFirst,
        Way::CommaLast,
        Way::OtherComma,
        Way::RandomBytes,
        Way::HighByte,
        Way::HighBit,
        Way::Nul,
        Way::OtherByte,
        Way::ByteLost,
        Way::BitFlipped,
    ];
}

/// The text with this index of a seed's: a chip of its own, every 60th whole, the others spoiled,
/// way by way and line by line. 60 times 96 of them have every way at every line.
pub fn saved_text(seed: u64, index: u64) -> Vec<u8> {
    let mut random = Random::new(seed ^ index.wrapping_mul(0xA24B_AED4_963E_E407));
    let text = text_of(&chip(&mut random));
    let turns = Way::ALL.len() as u64 + 1;
    let lines = text.iter().filter(|&&b| b == b'\n').count() as u64;
    let line = (index / turns + seed % lines) % lines;
    match Way::ALL.get((index % turns) as usize) {
        Some(&way) => spoil(&mut random, &text, line as usize, way),
        None => text,
    }
}

/// A line with its newline, as key and numbers.
pub(super) struct Line {
    pub(super) key: Vec<u8>,
    pub(super) numbers: Vec<Vec<u8>>,
}

impl Line {
    pub(super) fn of(line: &[u8]) -> Line {
        let line = line.strip_suffix(b"\n").unwrap_or(line);
        let equals = line.iter().position(|&b| b == b'=').unwrap_or(line.len());
        let joined = line.get(equals + 1..).unwrap_or(&[]);
        Line {
            key: line[..equals].to_vec(),
            numbers: joined.split(|&b| b == b',').map(<[u8]>::to_vec).collect(),
        }
    }

    pub(super) fn bytes(&self) -> Vec<u8> {
        [&self.key[..], b"=", &self.numbers.join(&b','), b"\n"].concat()
    }
}

/// The lines behind the ID's.
const EVENT_LINES: usize = 5;

/// `text` is good, and `line` is one of its lines, from 0.
pub fn spoil(random: &mut Random, text: &[u8], line: usize, way: Way) -> Vec<u8> {
    let mut lines: Vec<Vec<u8>> =
        text.split_inclusive(|&b| b == b'\n').map(<[u8]>::to_vec).collect();
    let other = (line + 1 + random.below(lines.len() as u64 - 1) as usize) % lines.len();
    match way {
        Way::Missing => drop(lines.remove(line)),
        Way::Doubled => lines.insert(line, lines[line].clone()),
        Way::Swapped => {
            let count = lines.len();
            lines.swap(line, (line + 1) % count);
        }
        Way::Moved => {
            let moved = lines.remove(line);
            lines.insert(other.min(lines.len()), moved);
        }
        Way::EmptyLine => lines.insert(line, b"\n".to_vec()),
        Way::EndsBefore => lines.truncate(line),
        Way::EndsInside => {
            lines.truncate(line + 1);
            let length = lines[line].len() as u64;
            lines[line].truncate(random.below(length) as usize);
        }
        Way::Older => lines.truncate(lines.len() - EVENT_LINES),
        Way::NoNewline => drop(lines[line].pop()),
        Way::NoLastNewline => drop(lines.last_mut().map(Vec::pop)),
        Way::AfterTheEnd => {
            let again = lines[line].clone();
            let after: [&[u8]; 8] = [
                b"\n",
                b" ",
                b"0",
                b"\0",
                b"\r\n",
                b"id2=0,0,0,0,0,0,0,0\n",
                b"edition=1\n",
                &again,
            ];
            lines.push(random.pick(&after).to_vec());
        }
        Way::EmptyFile => lines.clear(),
        Way::OnlyNewlines => lines.iter_mut().for_each(|line| *line = b"\n".to_vec()),
        Way::OtherLine => lines[line] = lines[other].clone(),
        Way::OtherChip => {
            let theirs = text_of(&chip(random));
            let theirs = theirs.split_inclusive(|&b| b == b'\n').nth(line);
            lines[line] = theirs.unwrap_or(b"").to_vec();
        }
        Way::OtherKey => {
            let mut changed = Line::of(&lines[line]);
            changed.key = Line::of(&lines[other]).key;
            lines[line] = changed.bytes();
        }
        Way::CarriageReturns => {
            for line in &mut lines {
                line.insert(line.len() - 1, b'\r');
            }
        }
        Way::JustBad => just_bad(random, &mut lines, line),
        _ => lines[line] = spoil_line(random, &lines[line], way),
    }
    lines.concat()
}

/// Numbers that are one past some limit of the form, the smallest first.
const EDGES: [u64; 29] = [
    0, 1, 2, 3, 4, 5, 6, 7, 8, 16, 32, 33, 64, 128, 165, 256, 512, 1_025, 2_048, 4_096, 4_097,
    8_193, 16_385, 32_768, 524_288, 1_048_576, 2_097_152, 2_097_153, 16_777_216,
];

/// Puts the smallest of these that the line cannot have for one of its numbers.
fn just_bad(random: &mut Random, lines: &mut [Vec<u8>], line: usize) {
    let mut changed = Line::of(&lines[line]);
    let place = random.below(changed.numbers.len() as u64) as usize;
    for edge in EDGES {
        changed.numbers[place] = edge.to_string().into_bytes();
        lines[line] = changed.bytes();
        if saved::read(&lines[..=line].concat()) == Err(line as u64 + 1) {
            return;
        }
    }
}

fn digits(random: &mut Random, count: usize) -> Vec<u8> {
    let mut digits: Vec<u8> = (0..count).map(|_| b'0' + random.below(10) as u8).collect();
    if digits[0] == b'0' {
        digits[0] = b'1';
    }
    digits
}

/// What changes one line only. It ends with a newline, and mostly still does.
fn spoil_line(random: &mut Random, line: &[u8], way: Way) -> Vec<u8> {
    let mut parts = Line::of(line);
    let at = random.below(parts.numbers.len() as u64) as usize;
    let number = &mut parts.numbers[at];
    let equals = parts.key.len();
    let mut bytes = line.to_vec();
    let anywhere = random.below(line.len() as u64 - 1) as usize;
    match way {
        Way::KeyLetter => parts.key[anywhere % equals] = b'a' + random.below(26) as u8,
        Way::KeyUpper => parts.key.make_ascii_uppercase(),
        Way::KeyNumber => {
            let more: &[u8] = random.pick(&[b"0", b"1", b"9", b"00", b"-1", b"256"]);
            match parts.key.last() {
                Some(b'0'..=b'9') if random.once_in(2) => {
                    let letters = parts.key.iter().take_while(|b| b.is_ascii_alphabetic()).count();
                    parts.key.insert(letters, b'0'); // reg01
                }
                _ => parts.key.extend(more),
            }
        }
        Way::KeyMissing => parts.key.clear(),
        Way::Edge => *number = random.pick(&EDGES).to_string().into_bytes(),
        Way::Wrapped => {
            // The same number in 8, 16, 32 or 64 bits.
            let value: u128 = String::from_utf8_lossy(number).parse().unwrap_or(0);
            *number = (value + (1 << random.pick(&[8, 16, 31, 32, 63, 64, 64]))).to_string().into();
        }
        Way::DigitMore => number.push(b'0' + random.below(10) as u8),
        Way::DigitLess => drop(number.pop()),
        Way::ZeroFirst => number.insert(0, b'0'),
        Way::Digits9 => *number = digits(random, 9),
        Way::Digits10 => *number = digits(random, 10),
        Way::Digits20 => *number = digits(random, 20),
        Way::Digits30 => *number = digits(random, 30),
        Way::Plus => number.insert(0, b'+'),
        Way::Minus => number.insert(0, b'-'),
        Way::Letter => {
            *number = random.pick(&[&b"a"[..], b"O", b"l", b"ff", b"1e1", b"z"]).to_vec()
        }
        Way::Hex => *number = [b"0x", &number[..]].concat(),
        Way::Point => number.extend(random.pick(&[&b".0"[..], b".", b"'"])),
        Way::Zeros => parts.numbers.iter_mut().for_each(|number| *number = b"0".to_vec()),
        Way::TooFew => drop(parts.numbers.pop()),
        Way::TooMany => parts.numbers.insert(at, b"0".to_vec()),
        Way::EmptyNumber => number.clear(),
        Way::CommaFirst => parts.numbers.insert(0, Vec::new()),
        Way::CommaLast => parts.numbers.push(Vec::new()),
        _ => {
            match way {
                Way::NoEquals => bytes[equals] = random.pick(b": ,0"),
                Way::TwoEquals => bytes.insert(equals, b'='),
                Way::BlankFirst => bytes.insert(0, b' '),
                Way::BlankLast => bytes.insert(line.len() - 1, b' '),
                Way::BlankBeforeEquals => bytes.insert(equals, b' '),
                Way::BlankAfterEquals => bytes.insert(equals + 1, b' '),
                Way::BlankAtComma => {
                    let commas: Vec<usize> =
                        (0..bytes.len()).filter(|&k| bytes[k] == b',').collect();
                    let comma = commas.get(at.min(commas.len().saturating_sub(1)));
                    let after = comma.map_or(equals, |&k| k) + random.below(2) as usize;
                    bytes.insert(after, b' ');
                }
                Way::Tab => bytes.insert(anywhere, b'\t'),
                Way::CarriageReturn => bytes.insert(line.len() - 1, b'\r'),
                Way::OtherComma => {
                    let other = random.pick(b".;: \n");
                    match bytes.iter().position(|&b| b == b',') {
                        Some(comma) => bytes[comma] = other,
                        None => bytes.insert(line.len() - 1, other),
                    }
                }
                Way::RandomBytes => {
                    for _ in 0..1 + random.below(4) {
                        bytes.insert(anywhere, random.byte());
                    }
                }
                Way::HighByte => bytes.insert(anywhere, 0x80 | random.byte()),
                Way::HighBit => bytes[anywhere] |= 0x80,
                Way::Nul => bytes.insert(random.pick(&[anywhere, line.len() - 1]), 0),
                Way::OtherByte => bytes[anywhere] = random.byte(),
                Way::ByteLost => drop(bytes.remove(anywhere)),
                Way::BitFlipped => bytes[anywhere] ^= 1 << random.below(8),
                _ => unreachable!("{way:?} is not of one line"),
            }
            return bytes;
        }
    }
    parts.bytes()
}

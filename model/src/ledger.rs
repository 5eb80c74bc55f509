//! The ledger (01 Ledger): which bytes the acts of a run should have written. It is told the acts,
//! their numbers and how many ticks each wait used, and knows nothing of the chip's record. A run
//! that goes on with a loaded chip begins with what the record says, looked at once.

use crate::chip::{self, Chip, Place, Target, Two};
use crate::{Act, ERASED};

#[derive(Clone, Copy, Debug, PartialEq, Eq)]
pub enum Memory {
    Eeprom,
    Id,
}

/// What a cycle writes, and where: the first place of a page, or STATUS.
#[derive(Clone, Copy, Debug, PartialEq, Eq)]
pub enum Kind {
    Page(Memory, usize),
    Status(u8),
}

#[derive(Clone, Debug, PartialEq, Eq)]
pub struct Cycle {
    pub kind: Kind,
    pub loaded: [Option<u8>; 8],
    pub left: u64,
}

#[derive(Clone, Debug, PartialEq, Eq)]
pub struct Frame {
    pub heard: bool,
    pub code: u8,
    pub second: u8,
    pub bytes: u64,
    pub page: usize,
    pub next: usize,
    pub loaded: [Option<u8>; 8],
}

#[derive(Clone, Debug, PartialEq, Eq)]
pub struct Entry {
    pub memory: Memory,
    pub place: usize,
    pub byte: u8,
}

#[derive(Clone, Copy, Debug, PartialEq, Eq)]
pub enum Lock {
    Closed,
    Half,
    Open,
}

#[derive(Clone, Debug, PartialEq, Eq)]
pub struct Ledger {
    pub small: bool,
    pub power: bool,
    pub wel: bool,
    pub bp: u8,
    pub lock: Lock,
    /// None is not selected.
    pub frame: Option<Frame>,
    pub cycle: Option<Cycle>,
    pub entries: Vec<Entry>,
    /// What EEPROM and ID held when the run began.
    pub began: (Vec<u8>, Vec<u8>),
}

const NO_FRAME_BYTE: Frame =
    Frame { heard: false, code: 0, second: 0, bytes: 0, page: 0, next: 0, loaded: [None; 8] };

/// The frame that a record has open. How many bytes it had is known only as far as it matters; a
/// number that agrees is put.
fn frame_of(frame: chip::Frame, next: usize, loaded: [Option<u8>; 8]) -> Option<Frame> {
    let heard = frame.code();
    let begun = Frame { heard: heard.is_some(), code: heard.unwrap_or(0), ..NO_FRAME_BYTE };
    Some(match frame {
        chip::Frame::Idle => return None,
        chip::Frame::Empty => NO_FRAME_BYTE,
        chip::Frame::Unheard | chip::Frame::Heard(_) => Frame { bytes: 1, ..begun },
        chip::Frame::Writing(Place::Eeprom(p) | Place::Id(p)) => {
            let data = loaded.iter().any(Option::is_some);
            let page = p as usize / 8 * 8;
            Frame { bytes: if data { 3 } else { 2 }, page, next, loaded, ..begun }
        }
        chip::Frame::Second(Two::Srwrite(second) | Two::Unlock(second)) => {
            Frame { bytes: 2, second, ..begun }
        }
        chip::Frame::Reading(_) | chip::Frame::Writing(_) | chip::Frame::Second(_) => {
            Frame { bytes: 2, ..begun }
        }
        chip::Frame::Over(_) => Frame { bytes: 3, ..begun },
    })
}

impl Ledger {
    /// 01 Ledger: as a fresh chip, no cycle, no entries. Parts 1 and 3 have the small EEPROM.
    pub fn new(part: u64) -> Ledger {
        let small = part == 1 || part == 3;
        Ledger {
            small,
            power: true,
            wel: false,
            bp: 0,
            lock: Lock::Closed,
            frame: None,
            cycle: None,
            entries: Vec::new(),
            began: (vec![ERASED; if small { 128 } else { 256 }], vec![ERASED; 16]),
        }
    }

    /// 02 Save: the beginning of a run with a loaded chip. Its bytes stand for FFh; power, WEL, BP,
    /// lock, an open frame and a running cycle are the record's.
    pub fn of(chip: &Chip) -> Ledger {
        let d = &chip.device;
        let loaded = std::array::from_fn(|k| (d.loaded >> k & 1 == 1).then_some(d.load[k]));
        let kind = match d.target {
            Target::Eeprom(p) => Kind::Page(Memory::Eeprom, p as usize / 8 * 8),
            Target::Id(p) => Kind::Page(Memory::Id, p as usize / 8 * 8),
            Target::Status(protection) => Kind::Status(protection.bits()),
        };
        Ledger {
            power: d.power,
            wel: d.wel,
            bp: d.protection.bits(),
            lock: match d.lock {
                chip::Lock::Closed => Lock::Closed,
                chip::Lock::FirstStep => Lock::Half,
                chip::Lock::Open => Lock::Open,
            },
            frame: frame_of(d.frame, d.offset as usize, loaded),
            cycle: (d.countdown > 0).then_some(Cycle { kind, loaded, left: d.countdown }),
            began: (chip.eeprom.clone(), chip.id.to_vec()),
            ..Ledger::new(chip.part)
        }
    }

    /// 01 Ledger: what the newest entry for the place says; FFh if there is none, or, 02 Save, what
    /// was loaded there.
    pub fn byte_at(&self, memory: Memory, place: usize) -> u8 {
        let written = |e: &&Entry| e.memory == memory && e.place == place;
        let began = match memory {
            Memory::Eeprom => self.began.0[place],
            Memory::Id => self.began.1[place],
        };
        self.entries.iter().rev().find(written).map_or(began, |e| e.byte)
    }

    /// `ticks` is a wait's ticks used; it is looked at for a wait only.
    pub fn feed(&mut self, act: Act, number: u64, ticks: u64) {
        if self.refuses(act, number) {
            return;
        }
        match act {
            Act::Select => self.frame = Some(NO_FRAME_BYTE),
            Act::Byte => self.byte(number as u8),
            Act::End => self.end(number),
            Act::Wait => self.wait(ticks),
            Act::Cut => self.cut(number as u8),
            Act::Up => self.up(),
            // 02 Events: the ledger has no pins.
            Act::Evls | Act::Evhs => {}
        }
    }

    fn refuses(&self, act: Act, number: u64) -> bool {
        let selected = self.frame.is_some();
        match act {
            Act::Select => number != 0 || !self.power || selected,
            Act::Byte => number > 255 || !self.power || !selected,
            Act::End => number > 7 || !self.power || !selected,
            Act::Wait => number > 16_777_216,
            Act::Cut => number > 255 || !self.power,
            Act::Up => number != 0 || self.power,
            Act::Evls | Act::Evhs => false,
        }
    }

    fn byte(&mut self, byte: u8) {
        let wip = self.cycle.is_some();
        let size = if self.small { 128 } else { 256 };
        let Some(frame) = &mut self.frame else { return };
        match (frame.bytes, frame.code) {
            (0, _) => {
                frame.code = byte;
                // SRREAD, READ, WRITE, CLRWDT, CLRRAM
                frame.heard = !wip || [0x05, 0x13, 0x12, 0x44, 0x54].contains(&byte);
            }
            (1, _) => {
                frame.second = byte;
                let place = usize::from(byte) % if frame.code == 0x32 { 16 } else { size };
                frame.page = place - place % 8;
                frame.next = place % 8;
            }
            (_, 0x02 | 0x32) => {
                frame.loaded[frame.next] = Some(byte);
                frame.next = (frame.next + 1) % 8;
            }
            _ => {}
        }
        frame.bytes += 1;
    }

    fn end(&mut self, leftover: u64) {
        let Some(frame) = self.frame.take() else { return };
        if !frame.heard {
            return;
        }
        if let Some(kind) = self.carried(&frame, leftover) {
            self.cycle = Some(Cycle { kind, loaded: frame.loaded, left: 164 });
        }
        match frame.code {
            0x06 if frame.bytes == 1 && leftover == 0 => self.wel = true,
            0x04 if frame.bytes == 1 && leftover == 0 => self.wel = false,
            _ => {}
        }
        self.lock = match frame.code {
            0x14 if frame.bytes == 2 && leftover == 0 && frame.second == 0x55 => Lock::Half,
            0x14 if frame.bytes == 2 && leftover == 0 && frame.second == 0xAA => {
                if self.lock == Lock::Half {
                    Lock::Open
                } else {
                    Lock::Closed
                }
            }
            0x06 | 0x05 => self.lock,
            _ => Lock::Closed,
        };
    }

    /// 01 Frames: what the cycle of a write will write, if it starts one. It wants WEL, a data
    /// byte (of SRWRITE one only) and no bits over; EEWRITE an unprotected page too, IDWRITE an
    /// open lock.
    fn carried(&self, frame: &Frame, leftover: u64) -> Option<Kind> {
        if !self.wel || leftover != 0 {
            return None;
        }
        match frame.code {
            0x02 if frame.bytes > 2 && !self.protects(frame.page) => {
                Some(Kind::Page(Memory::Eeprom, frame.page))
            }
            0x32 if frame.bytes > 2 && self.lock == Lock::Open => {
                Some(Kind::Page(Memory::Id, frame.page))
            }
            0x01 if frame.bytes == 2 => Some(Kind::Status(frame.second >> 2 & 3)),
            _ => None,
        }
    }

    /// In quarters of the memory: BP 01 the upper one, 10 the upper two, 11 all four.
    fn protects(&self, page: usize) -> bool {
        let quarter = page / if self.small { 32 } else { 64 };
        quarter >= [4, 3, 2, 0][usize::from(self.bp)]
    }

    fn wait(&mut self, ticks: u64) {
        let Some(cycle) = &mut self.cycle else { return };
        cycle.left = cycle.left.saturating_sub(ticks);
        if cycle.left == 0 {
            self.store(0xFF);
            self.cycle = None;
            self.wel = false;
        }
    }

    /// The bytes of the cycle under the mask become entries, or BP changes under bit 0.
    fn store(&mut self, mask: u8) {
        let Some(cycle) = &self.cycle else { return };
        match cycle.kind {
            Kind::Page(memory, page) => {
                for (offset, loaded) in cycle.loaded.iter().enumerate() {
                    if let (Some(byte), true) = (*loaded, mask & 1 << offset != 0) {
                        self.entries.push(Entry { memory, place: page + offset, byte });
                    }
                }
            }
            Kind::Status(bp) if mask & 1 != 0 => self.bp = bp,
            Kind::Status(_) => {}
        }
    }

    fn cut(&mut self, mask: u8) {
        self.store(mask);
        self.power = false;
        self.cycle = None;
        self.frame = None;
        self.wel = false;
        self.lock = Lock::Closed;
    }

    /// 02 Latch: power on is one of the things that clear WEL.
    fn up(&mut self) {
        self.power = true;
        self.wel = false;
    }
}

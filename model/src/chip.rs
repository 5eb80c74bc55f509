//! The chip's record, its range (number 6), the refusal table, frames, ticks, cut, up and
//! `perform`.

use std::ops::Range;

use crate::calendar::{self, Reach};
use crate::{events, Act, ERASED};

// Instruction codes (000, table 3-1).
pub const EEREAD: u8 = 0x03;
pub const EEWRITE: u8 = 0x02;
pub const EEWRDI: u8 = 0x04;
pub const EEWREN: u8 = 0x06;
pub const SRREAD: u8 = 0x05;
pub const SRWRITE: u8 = 0x01;
pub const READ: u8 = 0x13;
pub const WRITE: u8 = 0x12;
pub const UNLOCK: u8 = 0x14;
pub const IDWRITE: u8 = 0x32;
pub const IDREAD: u8 = 0x33;
pub const CLRWDT: u8 = 0x44;
pub const CLRRAM: u8 = 0x54;

// Register addresses (000, table 4-1).
pub const SECONDS: usize = 0x01; // bit 7: ST
pub const MINUTES: usize = 0x02;
pub const HOURS: usize = 0x03; // bit 7: CALSGN, bit 6: 12/24
pub const DAY: usize = 0x04; // bit 5: OSCON, bit 4: VBAT, bit 3: VBATEN
pub const DATE: usize = 0x05;
pub const MONTH: usize = 0x06; // bit 5: LP
pub const YEAR: usize = 0x07;
pub const CONTROL: usize = 0x08; // bits 5:4: alarms active
pub const WATCHDOG: usize = 0x0A;
pub const ALARM0_HOURS: usize = 0x0E;
pub const ALARM0_DAY: usize = 0x0F;
pub const ALARM1_HOURS: usize = 0x15;
pub const ALARM1_DAY: usize = 0x16;
pub const POWER_DOWN: usize = 0x18; // the first of the four of a cut's time-stamp
pub const POWER_UP: usize = 0x1C; // the first of the four of an up's
pub const STAMPS: Range<usize> = 0x18..0x20;

/// VBAT's place in 04h.
pub const VBAT: u8 = 0x10;

/// 01 Frames: the bits that WRITE can change in each register, from 00h on. VBAT it can only
/// clear.
pub const WRITABLE: [u8; 32] = [
    0xFF, 0xFF, 0x7F, 0xFF, 0x1F, 0x3F, 0x1F, 0xFF, //
    0xFF, 0xFF, 0xFF, 0xFF, 0x7F, 0x7F, 0x3F, 0xFF, //
    0x3F, 0x1F, 0xFF, 0x7F, 0x7F, 0x3F, 0xFF, 0x3F, //
    0, 0, 0, 0, 0, 0, 0, 0,
];

/// Watchdog periods in ticks, by bits 2:0 of 0Ah.
pub const PERIODS: [u64; 8] = [32, 512, 2_048, 4_096, 32_768, 524_288, 1_048_576, 2_097_152];

pub const DELAY: u64 = 2_097_152;
pub const WRITE_CYCLE: u64 = 164;
pub const START_UP: u64 = 32;
pub const SHORT_PULSE: u64 = 4;
pub const LONG_PULSE: u64 = 4_096;
pub const DIVIDER: u64 = 32_768;
pub const LONGEST_WAIT: u64 = 16_777_216;
pub const ID_LENGTH: usize = 16;

/// BP1:BP0 of STATUS.
#[derive(Clone, Copy, Debug, PartialEq, Eq)]
pub enum Protection {
    Nothing,
    Quarter,
    Half,
    All,
}

impl Protection {
    pub fn from_bits(bits: u8) -> Self {
        match bits & 3 {
            0 => Protection::Nothing,
            1 => Protection::Quarter,
            2 => Protection::Half,
            _ => Protection::All,
        }
    }

    pub fn bits(self) -> u8 {
        self as u8
    }

    /// 01 Frames: the first address that is guarded: none, the last quarter, the last half, all.
    pub fn first_protected(self, length: usize) -> usize {
        match self {
            Protection::Nothing => length,
            Protection::Quarter => length / 4 * 3,
            Protection::Half => length / 2,
            Protection::All => 0,
        }
    }
}

/// The lock of the ID bytes: closed, UNLOCK 55h came, open.
#[derive(Clone, Copy, Debug, PartialEq, Eq)]
pub enum Lock {
    Closed,
    FirstStep,
    Open,
}

/// 000, table 3-1: all instruction codes.
pub const CODES: [u8; 13] = [
    EEREAD, EEWRITE, EEWRDI, EEWREN, SRREAD, SRWRITE, READ, WRITE, UNLOCK, IDWRITE, IDREAD, CLRWDT,
    CLRRAM,
];

/// The code of a heard frame. Bytes that are no code are all alike.
#[derive(Clone, Copy, Debug, PartialEq, Eq)]
pub struct Code(u8);

impl Code {
    pub fn of(byte: u8) -> Code {
        Code(if CODES.contains(&byte) { byte } else { 0 })
    }

    /// The byte of table 3-1; 0 if the code is none of it.
    pub fn byte(self) -> u8 {
        self.0
    }
}

/// Where a pointer stands.
#[derive(Clone, Copy, Debug, PartialEq, Eq)]
pub enum Place {
    Eeprom(u64),
    Clock(u8),
    Id(u64),
}

/// Two whole bytes of a code that has no address, and the second where it matters.
#[derive(Clone, Copy, Debug, PartialEq, Eq)]
pub enum Two {
    Srwrite(u8),
    Unlock(u8),
    Clrwdt,
    Clrram,
}

/// The codes that a further byte spoils: the third of the first four, the second of the others.
#[derive(Clone, Copy, Debug, PartialEq, Eq)]
pub enum TooLong {
    Srwrite,
    Unlock,
    Clrwdt,
    Clrram,
    Eewren,
    Eewrdi,
}

/// How far a frame has come. No two of these mean the same: bytes that change nothing, as all
/// after SRREAD or an unknown code, leave it where it was.
#[derive(Clone, Copy, Debug, PartialEq, Eq)]
pub enum Frame {
    /// Not selected.
    Idle,
    /// Selected, no whole byte yet.
    Empty,
    /// The first byte came while WIP was set and is not heard then.
    Unheard,
    /// The code, and nothing after it that matters.
    Heard(Code),
    /// EEREAD, READ or IDREAD with its address, and the pointer since then.
    Reading(Place),
    /// EEWRITE, WRITE or IDWRITE with its address; only the clock's pointer moves.
    Writing(Place),
    Second(Two),
    Over(TooLong),
}

impl Frame {
    /// The code of a heard frame, 0 if it is unknown.
    pub fn code(self) -> Option<u8> {
        Some(match self {
            Frame::Idle | Frame::Empty | Frame::Unheard => return None,
            Frame::Heard(code) => code.byte(),
            Frame::Reading(Place::Eeprom(_)) => EEREAD,
            Frame::Reading(Place::Clock(_)) => READ,
            Frame::Reading(Place::Id(_)) => IDREAD,
            Frame::Writing(Place::Eeprom(_)) => EEWRITE,
            Frame::Writing(Place::Clock(_)) => WRITE,
            Frame::Writing(Place::Id(_)) => IDWRITE,
            Frame::Second(Two::Srwrite(_)) | Frame::Over(TooLong::Srwrite) => SRWRITE,
            Frame::Second(Two::Unlock(_)) | Frame::Over(TooLong::Unlock) => UNLOCK,
            Frame::Second(Two::Clrwdt) | Frame::Over(TooLong::Clrwdt) => CLRWDT,
            Frame::Second(Two::Clrram) | Frame::Over(TooLong::Clrram) => CLRRAM,
            Frame::Over(TooLong::Eewren) => EEWREN,
            Frame::Over(TooLong::Eewrdi) => EEWRDI,
        })
    }
}

/// What a write cycle writes: the page in which the pointer lies, or STATUS.
#[derive(Clone, Copy, Debug, PartialEq, Eq)]
pub enum Target {
    Eeprom(u64),
    Id(u64),
    Status(Protection),
}

#[derive(Clone, Debug, PartialEq, Eq)]
pub struct Device {
    pub power: bool,
    pub registers: [u8; 32],
    pub sram: [u8; 64],
    pub frame: Frame,
    /// The page load: the offset that the next data byte goes to, a bit for each offset that got
    /// one, and the bytes. A running cycle reads the load; no frame that is heard then moves it.
    /// An end and a cut leave it, and the target; the address of the next write empties it.
    pub offset: u64,
    pub loaded: u8,
    pub load: [u8; 8],
    pub target: Target,
    /// Ticks left of the write cycle; 0 is no cycle.
    pub countdown: u64,
    /// 000 3.3, 02 Latch: EEWREN sets it; EEWRDI, the end of a cycle, a cut and an up clear it.
    pub wel: bool,
    pub protection: Protection,
    pub lock: Lock,
    pub divider: u64,
    pub start_up: u64,
    pub watchdog: u64,
    pub delay: u64,
    pub pulse: u64,
    /// 02 Time-stamps, the mark: the cut took a time-stamp, and so will the up that ends it.
    pub stamp_due: bool,
    /// 02 Events: the levels of the two inputs, 0 or 1.
    pub evls: u64,
    pub evhs: u64,
    /// Counted rises of EVHS, and ticks since the first of them.
    pub edges: u64,
    pub since: u64,
    /// Ticks left until a high EVLS is an event; 0 is none to come.
    pub debounce: u64,
}

/// 01 Acts: a fresh chip has 01h in day, date and month, and 0 in the other registers.
pub const FRESH_REGISTERS: [u8; 32] = {
    let mut registers = [0; 32];
    registers[0x04] = 0x01;
    registers[0x05] = 0x01;
    registers[0x06] = 0x01;
    registers
};

/// 01 Tape: parts 1 and 2 are W, 3 and 4 are B; the odd ones have 1 Kbit, the even ones 2.
pub fn part_exists(part: u64) -> bool {
    (1..=4).contains(&part)
}

pub fn eeprom_length(part: u64) -> usize {
    if part == 1 || part == 3 {
        128
    } else {
        256
    }
}

pub fn is_b_part(part: u64) -> bool {
    part >= 3
}

/// A part with its record and both memories.
#[derive(Clone, Debug, PartialEq, Eq)]
pub struct Chip {
    pub part: u64,
    pub device: Device,
    pub eeprom: Vec<u8>,
    pub id: [u8; ID_LENGTH],
}

impl Chip {
    /// 01 Acts: a fresh chip, its memories erased.
    pub fn fresh(part: u64) -> Chip {
        Chip {
            part,
            device: Device::fresh(),
            eeprom: vec![ERASED; eeprom_length(part)],
            id: [ERASED; ID_LENGTH],
        }
    }

    pub fn perform(&mut self, act: Act, number: u64) -> Answer {
        perform(self.part, act, number, &mut self.device, &mut self.eeprom, &mut self.id)
    }
}

impl Device {
    pub fn fresh() -> Device {
        Device {
            power: true,
            registers: FRESH_REGISTERS,
            sram: [0; 64],
            frame: Frame::Idle,
            offset: 0,
            loaded: 0,
            load: [0; 8],
            target: Target::Eeprom(0),
            countdown: 0,
            wel: false,
            protection: Protection::Nothing,
            lock: Lock::Closed,
            divider: 0,
            start_up: 0,
            watchdog: 0,
            delay: 0,
            pulse: 0,
            stamp_due: false,
            evls: 0,
            evhs: 0,
            edges: 0,
            since: 0,
            debounce: 0,
        }
    }

    pub fn selected(&self) -> bool {
        self.frame != Frame::Idle
    }

    pub fn wip(&self) -> bool {
        self.countdown > 0
    }

    pub fn oscon(&self) -> bool {
        self.start_up == START_UP
    }

    fn bit(&self, register: usize, bit: u8) -> bool {
        self.registers[register] >> bit & 1 == 1
    }

    fn st(&self) -> bool {
        self.bit(SECONDS, 7)
    }

    fn vbat(&self) -> bool {
        self.registers[DAY] & VBAT != 0
    }

    fn vbaten(&self) -> bool {
        self.bit(DAY, 3)
    }

    fn period(&self) -> u64 {
        PERIODS[usize::from(self.registers[WATCHDOG] & 7)]
    }

    /// 01 Frames: WIP in bit 0, WEL in bit 1, BP1:BP0 in bits 3:2; bits 7:4 are 0.
    pub fn status(&self) -> u8 {
        u8::from(self.wip()) | u8::from(self.wel) << 1 | self.protection.bits() << 2
    }

    /// An alarm that is active, has its flag set, and is shown on the pin that bit 7 picks.
    fn alarm_holds(&self, on_wdo: bool) -> bool {
        [(4, ALARM0_DAY), (5, ALARM1_DAY)].iter().any(|&(active, day)| {
            self.bit(CONTROL, active) && self.bit(day, 3) && self.bit(day, 7) == on_wdo
        })
    }

    /// 01 Calendar: the level of IRQ, low if an alarm holds it by a clear bit 7. 02 Events: so does
    /// each event flag, enabled or not.
    pub fn irq(&self) -> bool {
        !self.alarm_holds(false) && events::flags(self) == 0
    }

    /// 01 Calendar: the level of WDO, low if a pulse runs or an alarm holds it by a set bit 7.
    pub fn wdo(&self) -> bool {
        self.pulse == 0 && !self.alarm_holds(true)
    }

    /// What a wait stops at when it changes: the lines, and the event flags themselves.
    fn watched(&self) -> (bool, bool, bool, u8) {
        (self.irq(), self.wdo(), self.wip(), events::flags(self))
    }
}

// ---------------------------------------------------------------------------------------------
// Refusals

/// 01 Frames: the five codes that get through while a write cycle runs.
pub fn heard_under_wip(code: u8) -> bool {
    matches!(code, SRREAD | READ | WRITE | CLRWDT | CLRRAM)
}

/// The bits that a register may hold: those that WRITE can change; of a time-stamp all eight.
pub fn holds(register: usize) -> u8 {
    if STAMPS.contains(&register) {
        0xFF
    } else {
        WRITABLE[register]
    }
}

/// Number 6, row by row. 01 Acts: every pointer is judged, that of a cycle which does not run too.
pub fn out_of_range(part: u64, device: &Device) -> bool {
    let deaf_frame_open = device.frame.code().is_some_and(|code| !heard_under_wip(code));
    let eeprom_end = eeprom_length(part) as u64;
    let frame_strays = match device.frame {
        Frame::Reading(Place::Eeprom(p)) | Frame::Writing(Place::Eeprom(p)) => p >= eeprom_end,
        Frame::Reading(Place::Id(p)) | Frame::Writing(Place::Id(p)) => p > 15,
        _ => false,
    };
    let target_strays = match device.target {
        Target::Eeprom(p) => p >= eeprom_end,
        Target::Id(p) => p > 15,
        Target::Status(_) => false,
    };
    device.divider > 32_767
        || device.start_up > 32
        || device.countdown > 164
        || device.pulse > 4_096
        || device.delay > 2_097_152
        || device.watchdog >= device.period()
        || device.offset > 7
        || frame_strays
        || target_strays
        || (0..32).any(|r| device.registers[r] & !holds(r) != 0)
        || device.start_up > 0 && !is_b_part(part) && !device.st()
        || !device.power && (device.selected() || device.wip())
        || device.wip() && deaf_frame_open
        || device.power && device.stamp_due
        || events::out_of_range(device)
}

/// Number 3 for the act's number.
pub fn number_too_large(act: Act, number: u64) -> bool {
    let limit = match act {
        Act::End => 7,
        Act::Wait => LONGEST_WAIT,
        Act::Byte | Act::Cut => 255,
        Act::Select | Act::Up => 0,
        Act::Evls | Act::Evhs => 1,
    };
    number > limit
}

/// 01 Chip: whether memories of these lengths are the part's.
pub fn lengths_fit(part: u64, eeprom: usize, id: usize) -> bool {
    eeprom == eeprom_length(part) && id == ID_LENGTH
}

/// The rows that ask for no act: 3 for the part, 4, 6. 0 is none of them.
pub fn setup_refusal(part: u64, device: &Device, eeprom: &[u8], id: &[u8]) -> u64 {
    if !part_exists(part) {
        return 3;
    }
    if !lengths_fit(part, eeprom.len(), id.len()) {
        return 4;
    }
    if out_of_range(part, device) {
        return 6;
    }
    0
}

/// 01 Acts: the first row of the table that holds, in its order (a line's own numbers are the
/// tape's). 0 is done.
pub fn refusal(part: u64, act: Act, number: u64, device: &Device, eeprom: &[u8], id: &[u8]) -> u64 {
    let setup = setup_refusal(part, device, eeprom, id);
    if setup != 0 {
        return setup;
    }
    if number_too_large(act, number) {
        return 3;
    }
    let power_is_wrong = match act {
        Act::Select | Act::Byte | Act::End | Act::Cut => !device.power,
        Act::Up => device.power,
        Act::Wait | Act::Evls | Act::Evhs => false,
    };
    if power_is_wrong {
        return 5;
    }
    match act {
        Act::Select if device.selected() => 1,
        Act::Byte | Act::End if !device.selected() => 2,
        _ => 0,
    }
}

// ---------------------------------------------------------------------------------------------
// Registers and SRAM

/// The byte that READ answers: bits that are made when read are not stored.
pub fn read_clock(device: &Device, address: u8) -> u8 {
    let address = usize::from(address);
    match address {
        0x00..=0x1F => {
            let made = match address {
                DAY => u8::from(device.oscon()) << 5,
                MONTH => u8::from(calendar::leap(device.registers[YEAR])) << 5,
                ALARM0_HOURS | ALARM1_HOURS => device.registers[HOURS] & 0x40,
                _ => 0,
            };
            device.registers[address] | made
        }
        0x20..=0x5F => device.sram[address - 0x20],
        _ => 0,
    }
}

fn write_clock(part: u64, device: &mut Device, address: u8, byte: u8) {
    let address = usize::from(address);
    match address {
        0x00..=0x1F => {
            write_register(device, address, byte);
            after_register_write(part, device, address);
        }
        0x20..=0x5F => device.sram[address - 0x20] = byte,
        _ => {}
    }
}

/// 02 Time-stamps: the masks from 18h on stay 0, so bits outside a mask keep their value. So does
/// VBAT where a 1 is written to it; a 0 clears it and both time-stamps.
fn write_register(device: &mut Device, register: usize, byte: u8) {
    let mut mask = WRITABLE[register];
    if register == DAY {
        if byte & VBAT != 0 {
            mask &= !VBAT;
        } else {
            device.registers[STAMPS].fill(0);
        }
    }
    device.registers[register] = device.registers[register] & !mask | byte & mask;
}

fn after_register_write(part: u64, device: &mut Device, address: usize) {
    if address == SECONDS && !is_b_part(part) && !device.st() {
        device.start_up = 0;
    }
    if address == WATCHDOG {
        device.watchdog = 0;
        // Bits 7 and 5 set, 6 clear.
        let delayed = device.registers[WATCHDOG] & 0b1110_0000 == 0b1010_0000;
        device.delay = if delayed { DELAY } else { 0 };
    }
    if address == events::EVENTS {
        events::forget(device);
    }
}

/// 01 Frames, 002 6.1: registers and SRAM each roll over to their own start; at 60h and above the
/// pointer does not move (bench).
pub fn next_clock_address(address: u8) -> u8 {
    match address {
        0x1F => 0x00,
        0x5F => 0x20,
        0x60.. => address,
        _ => address + 1,
    }
}

// ---------------------------------------------------------------------------------------------
// Frames

/// 01 Frames: what a whole byte is answered if it comes now, whichever it is; none while SO is off.
/// SO is driven right after the code of SRREAD, and after the address of the other reads. Moves
/// nothing.
fn next_reply(device: &Device, eeprom: &[u8], id: &[u8]) -> Option<u8> {
    match device.frame {
        Frame::Heard(code) if code.byte() == SRREAD => Some(device.status()),
        Frame::Reading(Place::Eeprom(p)) => Some(eeprom[p as usize]),
        Frame::Reading(Place::Id(p)) => Some(id[p as usize]),
        Frame::Reading(Place::Clock(address)) => Some(read_clock(device, address)),
        _ => None,
    }
}

fn byte(part: u64, device: &mut Device, byte: u8, eeprom: &[u8], id: &[u8]) -> Option<u8> {
    let reply = next_reply(device, eeprom, id);
    take_byte(part, device, byte);
    reply
}

fn take_byte(part: u64, device: &mut Device, byte: u8) {
    device.frame = match device.frame {
        Frame::Empty if device.wip() && !heard_under_wip(byte) => Frame::Unheard,
        Frame::Empty => Frame::Heard(Code::of(byte)),
        Frame::Heard(code) => second_byte(part, device, code, byte),
        Frame::Reading(place) => Frame::Reading(next_place(part, place)),
        Frame::Writing(place) => {
            data_byte(part, device, place, byte);
            match place {
                Place::Clock(_) => Frame::Writing(next_place(part, place)),
                Place::Eeprom(_) | Place::Id(_) => device.frame,
            }
        }
        Frame::Second(Two::Srwrite(_)) => Frame::Over(TooLong::Srwrite),
        Frame::Second(Two::Unlock(_)) => Frame::Over(TooLong::Unlock),
        Frame::Second(Two::Clrwdt) => Frame::Over(TooLong::Clrwdt),
        Frame::Second(Two::Clrram) => Frame::Over(TooLong::Clrram),
        Frame::Idle | Frame::Unheard | Frame::Over(_) => device.frame,
    };
}

/// Gives where the second byte takes the frame. The address of a page write empties the load.
fn second_byte(part: u64, device: &mut Device, code: Code, byte: u8) -> Frame {
    // 01 Frames: with 1 Kbit, bit 7 of the address does not count; of an ID address the low four
    // bits count.
    let eeprom = Place::Eeprom(u64::from(byte) % eeprom_length(part) as u64);
    let id = Place::Id(u64::from(byte % 16));
    if let EEWRITE | IDWRITE = code.byte() {
        device.offset = u64::from(byte % 8);
        device.loaded = 0;
        device.load = [0; 8];
    }
    match code.byte() {
        EEREAD => Frame::Reading(eeprom),
        IDREAD => Frame::Reading(id),
        READ => Frame::Reading(Place::Clock(byte)),
        EEWRITE => Frame::Writing(eeprom),
        IDWRITE => Frame::Writing(id),
        WRITE => Frame::Writing(Place::Clock(byte)),
        SRWRITE => Frame::Second(Two::Srwrite(byte)),
        UNLOCK => Frame::Second(Two::Unlock(byte)),
        CLRWDT => Frame::Second(Two::Clrwdt),
        CLRRAM => Frame::Second(Two::Clrram),
        EEWREN => Frame::Over(TooLong::Eewren),
        EEWRDI => Frame::Over(TooLong::Eewrdi),
        _ => Frame::Heard(code), // SRREAD, an unknown code
    }
}

fn next_place(part: u64, place: Place) -> Place {
    match place {
        Place::Eeprom(p) => Place::Eeprom((p + 1) % eeprom_length(part) as u64),
        Place::Id(p) => Place::Id((p + 1) % 16),
        Place::Clock(address) => Place::Clock(next_clock_address(address)),
    }
}

fn data_byte(part: u64, device: &mut Device, place: Place, byte: u8) {
    match place {
        Place::Clock(address) => write_clock(part, device, address, byte),
        Place::Eeprom(_) | Place::Id(_) => {
            // 01 Frames: offset 0 comes after offset 7, and the newest byte of an offset stands.
            device.loaded |= 1 << device.offset;
            device.load[device.offset as usize] = byte;
            device.offset = (device.offset + 1) % 8;
        }
    }
}

/// 02 Bits, 000 3.0: the bits that left SO since the last whole byte, as a number. A byte leaves
/// with bit 7 first, so they are its upper ones.
fn bits_out(reply: Option<u8>, leftover: u64) -> Option<u8> {
    match leftover {
        0 => None,
        _ => reply.map(|byte| byte >> (8 - leftover)),
    }
}

/// Gives the bits that were out when CS rose, before the end does anything.
fn end(part: u64, device: &mut Device, leftover: u64, eeprom: &[u8], id: &[u8]) -> Option<u8> {
    let bits = bits_out(next_reply(device, eeprom, id), leftover);
    close_frame(part, device, leftover);
    bits
}

fn close_frame(part: u64, device: &mut Device, leftover: u64) {
    let (frame, whole) = (device.frame, leftover == 0);
    device.frame = Frame::Idle;
    if whole {
        match frame {
            Frame::Heard(code) => match code.byte() {
                EEWREN => device.wel = true,
                EEWRDI => device.wel = false,
                CLRWDT => device.watchdog = 0,
                CLRRAM => device.sram = [0; 64],
                _ => {}
            },
            Frame::Second(Two::Clrwdt) => device.watchdog = 0,
            Frame::Second(Two::Clrram) => device.sram = [0; 64],
            // A page write with data has a loaded offset.
            Frame::Writing(Place::Eeprom(p))
                if device.loaded != 0 && page_is_free(part, device, p) =>
            {
                start_if_enabled(device, Target::Eeprom(p));
            }
            Frame::Writing(Place::Id(p)) if device.loaded != 0 && device.lock == Lock::Open => {
                start_if_enabled(device, Target::Id(p));
            }
            Frame::Second(Two::Srwrite(byte)) => {
                start_if_enabled(device, Target::Status(Protection::from_bits(byte >> 2)));
            }
            _ => {}
        }
    }
    device.lock = lock_after_end(device.lock, frame, whole);
}

fn page_is_free(part: u64, device: &Device, pointer: u64) -> bool {
    let page = pointer as usize / 8 * 8;
    page < device.protection.first_protected(eeprom_length(part))
}

/// 01 Frames: the last thing that a write wants is WEL; then it is 'carried'. 02 Latch: the end of
/// its cycle clears WEL, and a write that comes to nothing leaves it as it was.
fn start_if_enabled(device: &mut Device, target: Target) {
    if device.wel {
        device.target = target;
        device.countdown = WRITE_CYCLE;
    }
}

/// 01 Frames, the lock (bench). `whole`: no bit is left over.
fn lock_after_end(lock: Lock, frame: Frame, whole: bool) -> Lock {
    match (frame, frame.code()) {
        (_, None | Some(EEWREN | SRREAD)) => lock,
        (Frame::Second(Two::Unlock(0x55)), _) if whole => Lock::FirstStep,
        (Frame::Second(Two::Unlock(0xAA)), _) if whole && lock == Lock::FirstStep => Lock::Open,
        _ => Lock::Closed,
    }
}

// ---------------------------------------------------------------------------------------------
// Ticks

/// Stores what the cycle loaded, at the offsets under the mask; gives how many were stored.
fn store(device: &mut Device, mask: u8, eeprom: &mut [u8], id: &mut [u8]) -> u64 {
    let (memory, page) = match device.target {
        Target::Eeprom(p) => (eeprom, p as usize / 8 * 8),
        Target::Id(p) => (id, p as usize / 8 * 8),
        Target::Status(protection) => {
            if mask & 1 == 1 {
                device.protection = protection;
            }
            return u64::from(mask & 1);
        }
    };
    let mut stored = 0;
    for offset in 0..8 {
        if device.loaded >> offset & mask >> offset & 1 == 1 {
            memory[page + offset] = device.load[offset];
            stored += 1;
        }
    }
    stored
}

/// One tick, its parts in the order of 01 Calendar; 02 Events puts the inputs after the watchdog.
pub fn tick(part: u64, device: &mut Device, eeprom: &mut [u8], id: &mut [u8]) {
    if !device.power && !device.vbaten() {
        return; // 01 Power: without power and battery no count moves
    }
    if device.countdown > 0 {
        device.countdown -= 1;
        if device.countdown == 0 {
            store(device, 0xFF, eeprom, id);
            device.wel = false;
        }
    }
    let counted = tick_oscillator(part, device);
    tick_watchdog(device, counted);
    events::tick(device, counted);
    if counted && device.st() {
        if let Some(reach) = tick_calendar(device) {
            tick_alarms(device, reach);
        }
    }
}

/// Gives whether this tick counts. 01 Calendar: OSCON comes with the 32nd tick at which the
/// oscillator is to run, and the ticks after that one count.
fn tick_oscillator(part: u64, device: &mut Device) -> bool {
    let counted = device.oscon();
    let asked = is_b_part(part) || device.st();
    if asked && !counted {
        device.start_up += 1;
    }
    counted
}

fn tick_watchdog(device: &mut Device, counted: bool) {
    device.pulse = device.pulse.saturating_sub(1);
    if !counted || !device.bit(WATCHDOG, 7) || device.bit(WATCHDOG, 6) {
        return;
    }
    if device.delay > 0 {
        device.delay -= 1;
        return;
    }
    device.watchdog += 1;
    if device.watchdog == device.period() {
        device.watchdog = 0;
        device.registers[WATCHDOG] |= 0x40;
        device.pulse = if device.bit(WATCHDOG, 4) { LONG_PULSE } else { SHORT_PULSE };
    }
}

/// 01 Calendar: the divider goes up by one, and round at 32,768; the hundredths step where a
/// hundred times the divider, over 32,768 and rounded down, becomes greater by that.
fn tick_calendar(device: &mut Device) -> Option<Reach> {
    let before = device.divider;
    let after = before + 1;
    device.divider = after % DIVIDER;
    if 100 * after / DIVIDER == 100 * before / DIVIDER {
        return None;
    }
    let mut time = [0; 8];
    time.copy_from_slice(&device.registers[..8]);
    let reach = calendar::step(&mut time);
    device.registers[..8].copy_from_slice(&time);
    Some(reach)
}

/// A compared field: its time register, the compared bits, and how far a step must reach to
/// advance it.
struct Field(usize, u8, Reach);

const HUNDREDTHS_FIELD: Field = Field(0x00, 0xFF, Reach::Hundredths);
const SECONDS_FIELD: Field = Field(0x01, 0x7F, Reach::Seconds);
const MINUTES_FIELD: Field = Field(0x02, 0x7F, Reach::Minutes);
const HOURS_FIELD: Field = Field(0x03, 0x3F, Reach::Hours);
const DAY_FIELD: Field = Field(0x04, 0x07, Reach::Date);
const DATE_FIELD: Field = Field(0x05, 0x3F, Reach::Date);
const MONTH_FIELD: Field = Field(0x06, 0x1F, Reach::Month);

/// Alarm 0 has seconds to month at 0Ch to 11h, alarm 1 hundredths to date at 12h to 17h.
const ALARM0_BASE: usize = 0x0B;
const ALARM1_BASE: usize = 0x12;

/// The fields that an alarm compares, the finest first; none for a code that never matches.
fn compared(alarm1: bool, code: u8) -> &'static [Field] {
    match (code, alarm1) {
        (0, _) => &[SECONDS_FIELD],
        (1, _) => &[MINUTES_FIELD],
        (2, _) => &[HOURS_FIELD],
        (3, _) => &[DAY_FIELD],
        (4, _) => &[DATE_FIELD],
        (5, true) => &[HUNDREDTHS_FIELD],
        (7, false) => {
            &[SECONDS_FIELD, MINUTES_FIELD, HOURS_FIELD, DAY_FIELD, DATE_FIELD, MONTH_FIELD]
        }
        (7, true) => &[SECONDS_FIELD, MINUTES_FIELD, HOURS_FIELD, DAY_FIELD, DATE_FIELD],
        _ => &[],
    }
}

/// 01 Calendar (bench): bits 4 and 5 of 08h make the alarms active. An active one is looked at
/// when the finest of its fields takes a value; where all agree its flag, bit 3, is set.
fn tick_alarms(device: &mut Device, reach: Reach) {
    let alarms = [(false, 4, ALARM0_DAY, ALARM0_BASE), (true, 5, ALARM1_DAY, ALARM1_BASE)];
    for (alarm1, active, day, base) in alarms {
        let fields = compared(alarm1, device.registers[day] >> 4 & 7);
        let tested = match fields.first() {
            Some(Field(_, _, finest)) => device.bit(CONTROL, active) && reach >= *finest,
            None => false,
        };
        let equal = |&Field(register, bits, _): &Field| {
            (device.registers[register] ^ device.registers[base + register]) & bits == 0
        };
        if tested && fields.iter().all(equal) {
            device.registers[day] |= 0x08;
        }
    }
}

/// 01 Calendar, 02 Events: ticks until IRQ, WDO, WIP or an event flag is another than before, n at
/// most. Gives how many.
fn wait(part: u64, device: &mut Device, n: u64, eeprom: &mut [u8], id: &mut [u8]) -> u64 {
    let watched = device.watched();
    for used in 1..=n {
        tick(part, device, eeprom, id);
        if device.watched() != watched {
            return used;
        }
    }
    n
}

// ---------------------------------------------------------------------------------------------
// Power

/// 01 Power: a cut. Gives how many bytes were stored.
fn cut(device: &mut Device, mask: u8, eeprom: &mut [u8], id: &mut [u8]) -> u64 {
    let stored = if device.wip() { store(device, mask, eeprom, id) } else { 0 };
    device.power = false;
    device.countdown = 0;
    device.frame = Frame::Idle;
    device.wel = false;
    device.lock = Lock::Closed;
    device.registers[WATCHDOG] &= !0x80;
    device.watchdog = 0;
    device.delay = 0;
    device.pulse = 0;
    if !device.vbaten() {
        device.registers = FRESH_REGISTERS;
        device.sram = [0; 64];
        device.divider = 0;
        device.start_up = 0;
        events::forget(device);
    } else if !device.vbat() {
        // 02 Time-stamps: later cuts find VBAT set, and the time of the first one stays.
        stamp(device, POWER_DOWN);
        device.registers[DAY] |= VBAT;
        device.stamp_due = true;
    }
    stored
}

/// 01 Power, 02 Time-stamps: power is back. Only the mark tells whether the cut took a time-stamp.
fn up(device: &mut Device) {
    device.power = true;
    // 02 Latch: the cut has cleared it; a record may come from elsewhere.
    device.wel = false;
    if device.stamp_due {
        stamp(device, POWER_UP);
        device.stamp_due = false;
    }
}

/// 02 Time-stamps, 000 table 4-1 and registers 8-1 to 8-4: copies the time of this moment to the
/// four registers from `first` on: minutes, hours, date, and month with the day of the week above
/// it. Copied is what is stored, valid or not; CALSGN is not.
fn stamp(device: &mut Device, first: usize) {
    let now = &device.registers;
    let month = (now[DAY] & 0x07) << 5 | now[MONTH] & 0x1F;
    let copy = [now[MINUTES], now[HOURS] & 0x7F, now[DATE], month];
    device.registers[first..first + 4].copy_from_slice(&copy);
}

// ---------------------------------------------------------------------------------------------
// Acts

/// `reply` is what SO gave: a byte, or the bits of an end. `count` is a wait's ticks used or a cut's
/// stored bytes, else 0.
#[derive(Clone, Copy, Debug, PartialEq, Eq)]
pub struct Answer {
    pub number: u64,
    pub reply: Option<u8>,
    pub count: u64,
}

/// One act. 01 Acts: one that is refused has no reply and leaves everything as it was.
pub fn perform(
    part: u64,
    act: Act,
    number: u64,
    device: &mut Device,
    eeprom: &mut [u8],
    id: &mut [u8],
) -> Answer {
    let mut answer =
        Answer { number: refusal(part, act, number, device, eeprom, id), reply: None, count: 0 };
    if answer.number != 0 {
        return answer;
    }
    match act {
        Act::Select => device.frame = Frame::Empty,
        Act::Byte => answer.reply = byte(part, device, number as u8, eeprom, id),
        Act::End => answer.reply = end(part, device, number, eeprom, id),
        Act::Wait => answer.count = wait(part, device, number, eeprom, id),
        Act::Cut => answer.count = cut(device, number as u8, eeprom, id),
        Act::Up => up(device),
        Act::Evls => events::set_evls(device, number),
        Act::Evhs => events::set_evhs(device, number),
    }
    answer
}

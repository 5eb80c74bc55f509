//! The random tapes: the same for a seed, as long as asked for, and what power, latch, bits, events
//! and lines tapes reach.

mod common;
use std::collections::BTreeMap;
use std::fmt::Debug;

use common::*;
use model::calendar::{from_bcd, leap};
use model::chip::{Device, Frame, Lock, Place, Protection};
use model::generate::{bits_tape, events_tape, latch_tape, lines_tape, power_tape, tape};
use model::tape::{answers, parse, Op, Tape};
use model::Act;

#[test]
fn seeds_and_lines() {
    let kinds = [tape, power_tape, latch_tape, bits_tape, events_tape, lines_tape];
    for made in kinds {
        for seed in 0..8 {
            let tape = made(seed, 1_000);
            assert_eq!(tape, made(seed, 1_000));
            assert_eq!(answers(&tape).iter().filter(|&&b| b == b'\n').count(), 1_000);
        }
        assert!(made(0, 0).is_empty());
        assert_ne!(made(0, 50), made(4, 50));
    }
    for (place, kind) in kinds.iter().enumerate() {
        for other in &kinds[..place] {
            assert_ne!(kind(0, 50), other(0, 50));
        }
    }
}

#[test]
fn tapes_that_are_kept() {
    // tools/expected tells their seeds.
    for (name, made) in [
        ("mixed_w_1k", tape(4, 3_000)),
        ("mixed_b_1k", tape(2, 3_000)),
        ("mixed_b_2k", tape(3, 3_000)),
        ("mixed_power", power_tape(2, 3_000)),
        ("mixed", tape(1, 30_000)),
        ("mixed_latch", latch_tape(4, 3_000)),
        ("mixed_bits", bits_tape(307, 3_000)),
        ("mixed_events", events_tape(40, 3_000)),
        ("mixed_lines", lines_tape(28, 3_000)),
    ] {
        let folder = concat!(env!("CARGO_MANIFEST_DIR"), "/../crates/mcp795/data");
        let kept = std::fs::read(format!("{folder}/{name}.tape")).unwrap();
        assert!(kept == made, "{name}");
    }
}

/// What the acts of tapes met, by name and how often.
#[derive(Default)]
struct Met<Name = &'static str>(BTreeMap<Name, u64>);

impl<Name: Ord + Debug> Met<Name> {
    fn count(&mut self, name: Name, met: bool) {
        *self.0.entry(name).or_default() += u64::from(met);
    }

    /// Nothing was met less than ten times.
    fn often(&self) {
        let seldom: Vec<_> = self.0.iter().filter(|&(_, &count)| count < 10).collect();
        assert!(seldom.is_empty(), "{seldom:?} of {:#?}", self.0);
    }
}

impl Met {
    fn cut(&mut self, before: &Device) {
        let r = &before.registers;
        let (vbat, vbaten) = (r[4] & 0x10 != 0, r[4] & 0x08 != 0);
        let stamped = vbaten && !vbat;
        self.count("a cut with a time-stamp", stamped);
        self.count("a cut that finds VBAT", vbaten && vbat);
        self.count("a cut without VBATEN", !vbaten);
        self.count("a cut without VBATEN, with VBAT", !vbaten && vbat);
        self.count("CALSGN", stamped && r[3] & 0x80 != 0);
        self.count("the 12-hour form", stamped && r[3] & 0x40 != 0);
        self.count("the 24-hour form", stamped && r[3] & 0x40 == 0);
        self.count("minutes not valid", stamped && !matches!(from_bcd(r[2]), Some(0..=59)));
        self.count("a month not valid", stamped && !matches!(from_bcd(r[6]), Some(1..=12)));
        self.count("a cut in a frame", stamped && before.frame != Frame::Idle);
        self.count("a cut in a cycle", stamped && before.countdown > 0);
        self.count("no oscillator", stamped && before.start_up < 32);
    }

    fn up(&mut self, before: &Device, after: &Device) {
        let r = &after.registers;
        let [minutes, hours, date, month] = [0x18, 0x19, 0x1A, 0x1B].map(|i| r[i] != r[i + 4]);
        let stamped = before.stamp_due;
        self.count("an up without a time-stamp", !stamped && r[4] & 0x18 == 0x18);
        self.count("an up in another minute", stamped && minutes);
        self.count("an up in another hour", stamped && hours);
        self.count("an up on another date", stamped && date);
        self.count("an up in another month", stamped && month && r[0x1F] & 0x1F != r[0x1B] & 0x1F);
        self.count("an up in the same minute", stamped && !minutes);
    }

    fn wait(&mut self, before: &Device, ticks: u64) {
        let counted = !before.power && before.registers[4] & 0x08 != 0 && before.start_up == 32;
        self.count("a minute on the battery", counted && ticks > 60 * 32_768);
    }

    fn write(&mut self, before: &Device, address: u8, byte: u8) {
        let r = &before.registers;
        let address = usize::from(address);
        let vbat = r[4] & 0x10 != 0;
        let stamps = r[0x18..].iter().any(|&b| b != 0);
        if address == 4 {
            self.count("0 to VBAT that is set", byte & 0x10 == 0 && vbat && stamps);
            self.count("0 to VBAT that is clear", byte & 0x10 == 0 && !vbat);
            self.count("1 to VBAT that is set", byte & 0x10 != 0 && vbat && stamps);
            self.count("1 to VBAT that is clear", byte & 0x10 != 0 && !vbat);
        }
        let changes = (0x18..0x20).contains(&address) && r[address] != byte;
        self.count("a write to a time-stamp", changes);
    }
}

#[test]
fn what_power_tapes_reach() {
    let mut met = Met::default();
    for seed in 0..100 {
        let mut rig = Rig::new(1 + seed % 4);
        for line in power_tape(seed, 400).split(|&b| b == b'\n') {
            let Ok((Op::Do(act), number)) = parse(line) else { continue };
            let before = rig.device.clone();
            let answer = rig.act(act, number);
            if answer.number != 0 {
                continue;
            }
            match (act, before.frame) {
                (Act::Cut, _) => met.cut(&before),
                (Act::Up, _) => met.up(&before, &rig.device),
                (Act::Wait, _) => met.wait(&before, answer.count),
                (Act::Byte, Frame::Writing(Place::Clock(address))) => {
                    met.write(&before, address, number as u8);
                }
                _ => {}
            }
        }
    }
    met.often();
}

/// Why a write with WEL and data starts no cycle.
const REASONS: [&str; 6] = [
    "a protected page",
    "a closed lock",
    "EEWRITE with bits over",
    "IDWRITE with bits over",
    "SRWRITE with bits over",
    "SRWRITE of two bytes or more",
];

/// The writes that came to nothing since WEL was set, and what came after them.
#[derive(Default)]
struct Latch {
    /// By reason, and whether STATUS was read since.
    failed: BTreeMap<&'static str, bool>,
    carried: Met,
    carried_after_a_look: Met,
    others: Met,
}

impl Latch {
    fn new() -> Latch {
        let mut latch = Latch::default();
        for reason in REASONS {
            latch.carried.count(reason, false);
            latch.carried_after_a_look.count(reason, false);
        }
        latch
    }

    /// A heard frame has come to its end.
    fn end(&mut self, code: u8, leftover: u64, before: &Device, after: &Device) {
        let one = matches!(before.frame, Frame::Heard(_));
        let data = match code {
            0x01 => !one,
            0x02 | 0x32 => !one && before.loaded != 0,
            _ => false,
        };
        if data && before.wel && after.countdown > 0 {
            for (reason, looked) in std::mem::take(&mut self.failed) {
                self.carried.count(reason, true);
                self.carried_after_a_look.count(reason, looked);
            }
        } else if data && before.wel {
            let reason = match (leftover, code) {
                (0, 0x02) => REASONS[0],
                (0, 0x32) => REASONS[1],
                (_, 0x02) => REASONS[2],
                (_, 0x32) => REASONS[3],
                (1.., _) => REASONS[4],
                (0, _) => REASONS[5],
            };
            self.failed.insert(reason, false);
        }
        let failed = !self.failed.is_empty();
        let whole = one && leftover == 0;
        self.others.count("EEWREN once more", code == 0x06 && whole && failed);
        self.others.count("EEWRDI", code == 0x04 && whole && failed);
        self.others.count("EEWRDI that is too long", code == 0x04 && !whole && failed);
        self.others.count("a write without data", !data && [1, 2, 0x32].contains(&code) && failed);
        self.others.count("a write without WEL", data && !before.wel);
        if code == 0x06 && whole {
            self.failed.clear();
        }
    }

    fn act(&mut self, act: Act, number: u64, before: &Device, after: &Device) {
        match (act, before.frame.code()) {
            (Act::End, Some(code)) => self.end(code, number, before, after),
            (Act::Byte, Some(0x05)) => {
                self.failed.values_mut().for_each(|looked| *looked = true);
            }
            (Act::Cut, _) => self.others.count("a cut", !self.failed.is_empty()),
            _ => {}
        }
        if !after.wel {
            self.failed.clear();
        }
    }
}

#[test]
fn what_latch_tapes_reach() {
    let mut latch = Latch::new();
    for seed in 0..100 {
        let mut rig = Rig::new(1 + seed % 4);
        latch.failed.clear();
        for line in latch_tape(seed, 400).split(|&b| b == b'\n') {
            let Ok((Op::Do(act), number)) = parse(line) else { continue };
            let before = rig.device.clone();
            if rig.act(act, number).number == 0 {
                latch.act(act, number, &before, &rig.device);
            }
        }
    }
    latch.carried.often();
    latch.carried_after_a_look.often();
    latch.others.often();
}

/// Where the next byte of a frame comes from, if one comes.
fn source(d: &Device) -> Option<&'static str> {
    match d.frame {
        Frame::Heard(code) if code.byte() == 0x05 => Some("STATUS"),
        Frame::Reading(Place::Eeprom(_)) => Some("EEPROM"),
        Frame::Reading(Place::Id(_)) => Some("ID"),
        Frame::Reading(Place::Clock(0x00..=0x1F)) => Some("a register"),
        Frame::Reading(Place::Clock(0x20..=0x5F)) => Some("SRAM"),
        Frame::Reading(Place::Clock(_)) => Some("60h or above"),
        _ => None,
    }
}

const SOURCES: [&str; 6] = ["EEPROM", "ID", "a register", "SRAM", "60h or above", "STATUS"];

/// Ends with bits over, and what they met.
#[derive(Default)]
struct HalfBytes {
    /// By the source and how many bits.
    answered: Met<(&'static str, u64)>,
    /// Those bits that are neither all 0 nor all 1.
    mixed: Met<(&'static str, u64)>,
    others: Met,
    /// What the next byte would have been when the last one had come.
    next: Option<u8>,
    /// How many bytes the frame has.
    bytes: u64,
}

impl HalfBytes {
    fn new() -> HalfBytes {
        let mut half_bytes = HalfBytes::default();
        for source in SOURCES {
            for leftover in 1..=7 {
                half_bytes.answered.count((source, leftover), false);
                if leftover > 1 && source != "STATUS" && source != "60h or above" {
                    half_bytes.mixed.count((source, leftover), false);
                }
            }
        }
        half_bytes
    }

    /// An end with bits over that answers them.
    fn bits(&mut self, source: &'static str, leftover: u64, bits: u8, before: &Rig) {
        let ones = bits.count_ones();
        self.answered.count((source, leftover), true);
        if ones > 0 && u64::from(ones) < leftover {
            self.mixed.count((source, leftover), true);
        }
        self.rolled_over(before);
        match source {
            "STATUS" => self.status(leftover, &before.device),
            "a register" => self.register(&before.device),
            _ => {}
        }
        let (d, status) = (&before.device, source == "STATUS");
        self.others.count("READ in a cycle", !status && d.countdown > 0);
        self.others.count("a lock that is closed", !status && d.lock == Lock::Open);
        self.others.count("a lock that stays open", status && d.lock == Lock::Open);
        self.changed(leftover as usize, before.clone().act(Act::Byte, 0).reply);
    }

    /// The next byte, as it is at the end, beside what it was when the last one had come.
    fn changed(&mut self, leftover: usize, now: Option<u8>) {
        let [was, now] = [self.next, now].map(|byte| format!("{:08b}", byte.unwrap()));
        self.others.count("a next byte that changed in the frame", was != now);
        let seen = was[..leftover] != now[..leftover];
        self.others.count("a change among the bits over", seen);
    }

    fn rolled_over(&mut self, before: &Rig) {
        // A byte came after code and address.
        let at = |place| self.bytes > 2 && before.device.frame == Frame::Reading(place);
        let small = before.eeprom.len() == 128;
        let [eeprom, id] = [at(Place::Eeprom(0)), at(Place::Id(0))];
        let [registers, sram] = [at(Place::Clock(0x00)), at(Place::Clock(0x20))];
        self.others.count("EEPROM 00h after 7Fh", eeprom && small);
        self.others.count("EEPROM 00h after FFh", eeprom && !small);
        self.others.count("ID 00h after 0Fh", id);
        self.others.count("00h after 1Fh", registers);
        self.others.count("20h after 5Fh", sram);
    }

    fn status(&mut self, leftover: u64, d: &Device) {
        let bp = d.protection != Protection::Nothing;
        self.others.count("WIP", d.countdown > 0);
        self.others.count("WEL", d.wel && leftover == 7);
        self.others.count("BP", bp && leftover >= 5);
    }

    fn register(&mut self, d: &Device) {
        let Frame::Reading(Place::Clock(address)) = d.frame else { return };
        let (address, r) = (usize::from(address), &d.registers);
        self.others.count("OSCON", address == 0x04 && d.start_up == 32);
        self.others.count("LP", address == 0x06 && leap(r[7]));
        let alarm_hours = [0x0E, 0x15].contains(&address);
        self.others.count("12/24 of an alarm", alarm_hours && r[3] & 0x40 != 0);
        self.others.count("a time-stamp", address >= 0x18 && r[address] != 0);
    }

    /// An end with bits over that answers none.
    fn none(&mut self, before: &Device) {
        let heard = |codes: &[u8]| before.frame.code().is_some_and(|code| codes.contains(&code));
        self.others.count("no byte", before.frame == Frame::Empty);
        self.others.count("EEREAD without its address", heard(&[0x03]));
        self.others.count("READ without its address", heard(&[0x13]));
        self.others.count("IDREAD without its address", heard(&[0x33]));
        self.others.count("EEWRITE", heard(&[0x02]));
        self.others.count("IDWRITE", heard(&[0x32]));
        self.others.count("SRWRITE", heard(&[0x01]));
        self.others.count("WRITE", heard(&[0x12]));
        self.others.count("UNLOCK", heard(&[0x14]));
        self.others.count("one of one byte", heard(&[0x04, 0x06, 0x44, 0x54]));
        self.others.count("an unknown code", heard(&[0]));
        let unheard = before.frame == Frame::Unheard;
        self.others.count("not heard", unheard && before.countdown > 0);
        self.others.count("not heard, the cycle over", unheard && before.countdown == 0);
    }

    fn refused(&mut self, number: u64, read: bool) {
        self.others.count("too many bits in a read", number == 3 && read);
        self.others.count("bits while not selected", number == 2);
        self.others.count("bits without power", number == 5);
    }

    fn act(&mut self, act: Act, number: u64, before: &Rig, after: &mut Rig) {
        let answer = after.act(act, number);
        let source = source(&before.device);
        match (act, answer.number, number) {
            (Act::End, 0, 0) => self.others.count("no bits in a read", source.is_some()),
            (Act::End, 0, leftover) => match (source, answer.reply) {
                (Some(source), Some(bits)) => self.bits(source, leftover, bits, before),
                (None, None) => self.none(&before.device),
                unlike => panic!("{unlike:?} in {:?}", before.device),
            },
            (Act::End, refusal, 1..) => self.refused(refusal, source.is_some()),
            (Act::Cut, 0, _) => self.others.count("a cut in a read", source.is_some()),
            (Act::Select, 0, _) => self.bytes = 0,
            (Act::Byte, 0, _) => {
                self.next = after.clone().act(Act::Byte, 0).reply;
                self.bytes += 1;
            }
            _ => {}
        }
    }
}

#[test]
fn what_bits_tapes_reach() {
    let mut half_bytes = HalfBytes::new();
    for seed in 0..100 {
        let mut rig = Rig::new(1 + seed % 4);
        for line in bits_tape(seed, 400).split(|&b| b == b'\n') {
            let Ok((Op::Do(act), number)) = parse(line) else { continue };
            let before = rig.clone();
            half_bytes.act(act, number, &before, &mut rig);
        }
    }
    half_bytes.answered.often();
    half_bytes.mixed.often();
    half_bytes.others.often();
}

/// What acts of an events tape met.
#[derive(Default)]
struct Events(Met);

impl Events {
    fn pin(&mut self, act: Act, level: u64, before: &Device, after: &Device) {
        let met = &mut self.0;
        let byte = before.registers[0x0B];
        let (was, rises_of_evhs) = match act {
            Act::Evls => (before.evls, false),
            _ => (before.evhs, level > before.evhs),
        };
        met.count("a level that is there", was == level);
        met.count("a pin without power", !before.power && was != level);
        met.count("a pin in a frame", before.frame != Frame::Idle && was != level);
        met.count("a pin in a cycle", before.countdown > 0 && was != level);
        let oscon = before.start_up == 32;
        if act == Act::Evls {
            met.count("a rise without EVEN0", level > was && byte & 0x10 == 0);
            met.count("a rise of EVLS with EVLIF", level > was && byte & 0x40 != 0);
            met.count("a rise of EVLS without OSCON", level > was && !oscon && byte & 0x10 != 0);
            met.count("the short debounce", after.debounce == 1_024 && level > was);
            met.count("the long debounce", after.debounce == 16_384 && level > was);
            met.count("a fall in the debounce", before.debounce > 0 && level < was);
            met.count("a fall in its last tick", before.debounce == 1 && level < was);
            return;
        }
        met.count("a rise without EVEN1", rises_of_evhs && byte & 0x20 == 0);
        met.count("a rise of EVHS with EVHIF", rises_of_evhs && byte & 0x80 != 0);
        met.count("a rise of EVHS without OSCON", rises_of_evhs && !oscon && byte & 0x20 != 0);
        let edges = (byte & 3, after.registers[0x0B] & !byte & 0x80 != 0);
        met.count("EVHIF by 1 edge", edges == (0, true));
        met.count("EVHIF by 4 edges", edges == (1, true));
        met.count("EVHIF by 16 edges", edges == (2, true));
        met.count("EVHIF by 32 edges", edges == (3, true));
        met.count("EVHIF at the last tick", edges.1 && before.since == 8_192);
        met.count("EVHIF with EVLIF set", edges.1 && byte & 0x40 != 0);
        let zeroed = byte & 0x08 != 0 && before.watchdog > 0;
        met.count("EVWDT by a rise", zeroed && level > was);
        met.count("EVWDT by a fall", zeroed && level < was);
        let last = before.watchdog + 1 == 32 && before.registers[0x0A] & 0x87 == 0x80;
        met.count("EVWDT in the last tick", zeroed && level != was && last);
        met.count("EVWDT in the pulse", byte & 0x08 != 0 && before.pulse > 0 && level != was);
    }

    fn wait(&mut self, ticks: u64, before: &Device, after: &Device) {
        let met = &mut self.0;
        let set = after.registers[0x0B] & !before.registers[0x0B] & 0x40 != 0;
        met.count("EVLIF", set);
        met.count("EVLIF with IRQ low before", set && !before.irq());
        met.count(
            "EVLIF by an alarm's IRQ",
            set && before.registers[0x0B] & 0xC0 == 0 && !before.irq(),
        );
        met.count("EVLIF after one tick", set && ticks == 1);
        met.count("EVLIF without power", set && !before.power);
        met.count("edges that are forgotten", before.edges > 0 && after.edges == 0);
        met.count(
            "edges forgotten by one tick more",
            before.since + ticks == 8_193 && after.edges == 0,
        );
        met.count("edges at the last tick", before.since + ticks == 8_192 && after.edges > 0);
        let counts = after.edges > 0 || after.debounce > 0;
        met.count("counts that stand", counts && ticks > 0 && before.start_up < 32);
        let alarm = [0x0F, 0x16]
            .iter()
            .any(|&day| after.registers[day] & !before.registers[day] & 0x08 != 0);
        met.count("an alarm while a flag is set", alarm && before.registers[0x0B] & 0xC0 != 0);
        met.count("an alarm while none is set", alarm && before.registers[0x0B] & 0xC0 == 0);
    }

    fn act(&mut self, act: Act, number: u64, before: &Device, rig: &mut Rig) {
        let answer = rig.act(act, number);
        let after = &rig.device;
        let counts = before.edges > 0 || before.debounce > 0;
        let battery = before.registers[4] & 0x08 != 0;
        match (act, answer.number, before.frame) {
            (Act::Evls | Act::Evhs, 0, _) => self.pin(act, number, before, after),
            (Act::Evls | Act::Evhs, 3, _) => self.0.count("a pin refused by 3", true),
            (Act::Evls | Act::Evhs, refused, _) => panic!("a pin refused by {refused}"),
            (Act::Wait, 0, _) => self.wait(answer.count, before, after),
            (Act::Cut, 0, _) => {
                self.0.count("a cut with counts and battery", counts && battery);
                self.0.count("a cut with counts, without battery", counts && !battery);
                self.0.count("a cut with a level high", before.evls + before.evhs > 0);
            }
            (Act::Byte, 0, Frame::Writing(Place::Clock(0x0B))) => {
                self.0.count("a write of 0Bh with counts", counts);
                self.0.count("a write of a flag", number & 0xC0 != 0);
                self.0.count(
                    "a write that clears a flag",
                    before.registers[0x0B] & !(number as u8) & 0xC0 != 0,
                );
            }
            (Act::Byte, 0, Frame::Writing(Place::Clock(0x01))) => {
                self.0.count("ST cleared with counts", counts && number & 0x80 == 0);
            }
            _ => {}
        }
    }
}

#[test]
fn what_events_tapes_reach() {
    let mut events = Events::default();
    for seed in 0..100 {
        let mut rig = Rig::new(1 + seed % 4);
        for line in events_tape(seed, 400).split(|&b| b == b'\n') {
            let Ok((Op::Do(act), number)) = parse(line) else { continue };
            let before = rig.device.clone();
            events.act(act, number, &before, &mut rig);
        }
    }
    events.0.often();
}

/// The bad lines of a lines tape.
#[derive(Default)]
struct BadLines {
    met: Met,
    /// By number and column.
    columns: Met<(u64, u64)>,
}

impl BadLines {
    fn new() -> BadLines {
        let mut lines = BadLines::default();
        // Up to a second digit behind the longest name, and the ends of lines of about 64.
        for column in (1..=16).chain(63..=65) {
            lines.columns.count((72, column), false);
        }
        // The first digit behind each name, and the ninth.
        for column in (11..=15).filter(|&c| c != 14).flat_map(|first| [first, first + 8]) {
            lines.columns.count((75, column), false);
        }
        lines
    }

    fn line(&mut self, line: &[u8], number: u64, out: u64, part_came: bool, chip_is_busy: bool) {
        self.columns.count((number, out), true);
        let met = &mut self.met;
        let at = line.get((out as usize).wrapping_sub(1)).copied();
        met.count("71 before the part", number == 71 && !part_came);
        met.count("72 before the part", number == 72 && !part_came);
        met.count("73 before the part", number == 73 && !part_came);
        met.count("75 before the part", number == 75 && !part_came);
        met.count("an act before the part", number == 74 && !part_came);
        met.count("a second part", number == 74 && part_came);
        met.count("a second part that is not there", number == 74 && line == b"op=part arg=5");
        met.count("a bad line in a frame or a cycle", chip_is_busy);
        met.count("71 of 65 bytes", number == 71 && line.len() == 65);
        met.count("71 of many", number == 71 && line.len() > 100);
        met.count("72 of 64 bytes", number == 72 && line.len() == 64);
        met.count("73 of 64 bytes", number == 73 && line.len() == 64);
        met.count("75 of 64 bytes", number == 75 && line.len() == 64);
        met.count("an empty line", line.is_empty());
        met.count("72, stops short", number == 72 && at.is_none());
        met.count("72, a carriage return", number == 72 && at == Some(b'\r'));
        let last = out == line.len() as u64;
        met.count("72, a carriage return last", number == 72 && at == Some(b'\r') && last);
        met.count("72, NUL", number == 72 && at == Some(0));
        met.count("72, 80h or above", number == 72 && at >= Some(0x80));
        met.count("72, a capital", number == 72 && at.is_some_and(|b| b.is_ascii_uppercase()));
        met.count("72, a small letter", number == 72 && at.is_some_and(|b| b.is_ascii_lowercase()));
        met.count("72, a digit", number == 72 && at.is_some_and(|b| b.is_ascii_digit()));
        met.count("72, a blank", number == 72 && at == Some(b' '));
        met.count("72, an equals sign", number == 72 && at == Some(b'='));
        let digits = line.rsplit(|&b| b == b'=').next().unwrap_or(b"");
        let (zero, many) = (digits.len() > 1 && digits[0] == b'0', digits.len() > 8);
        met.count("73 with good digits", number == 73 && !zero && !many);
        met.count("73 with a needless zero", number == 73 && zero);
        met.count("73 with too many digits", number == 73 && many && !zero);
        met.count("75, a zero and too many", number == 75 && zero && many);
        met.count("75, 00", number == 75 && digits == b"00");
        met.count("75, nine digits", number == 75 && !zero && digits.len() == 9);
        met.count("75, twelve digits", number == 75 && !zero && digits.len() == 12);
        met.count("75 of a part line", number == 75 && line.starts_with(b"op=part "));
    }
}

#[test]
fn what_lines_tapes_reach() {
    let mut bad = BadLines::new();
    for seed in 0..100 {
        let mut state = Tape::new();
        for line in lines_tape(seed, 400).split_inclusive(|&b| b == b'\n') {
            let part_came = state.chip().is_some();
            let busy = |d: &Device| d.frame != Frame::Idle || d.countdown > 0;
            let chip_is_busy = state.chip().is_some_and(|chip| busy(&chip.device));
            let mut out = Vec::new();
            state.feed(line, &mut out);
            state.finish(&mut out);
            let answer = String::from_utf8(out).unwrap();
            let words: Vec<&str> = answer.split([' ', '=', '\n']).collect();
            let number = words[1].parse().unwrap();
            let low = words[5] == "0" || words[7] == "0";
            let line = line.strip_suffix(b"\n").unwrap_or(line);
            let digits = line.rsplit(|&b| b == b'=').next().unwrap_or(b"").len();
            bad.met.count("eight digits", number <= 5 && digits == 8);
            bad.met.count("seven digits", number <= 5 && digits == 7);
            bad.met.count("3 for the part", number == 3 && !part_came);
            bad.met.count("an act that is done", number == 0 && part_came);
            bad.met.count("a refused act", (1..=5).contains(&number) && part_came);
            bad.met.count("a bad line with a level low", number > 70 && low);
            if number > 70 {
                bad.line(line, number, words[3].parse().unwrap(), part_came, chip_is_busy);
            }
        }
    }
    bad.met.often();
    // Columns far inside long lines come seldom.
    bad.columns.0.retain(|&(number, column), _| number != 72 || !(17..=62).contains(&column));
    bad.columns.often();
}

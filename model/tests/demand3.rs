//! Demand 3: every EEPROM and ID byte is the ledger's byte, on random runs and after writes that
//! came to nothing.

mod common;
use common::*;
use model::chip::{Chip, Frame, Lock, CODES};
use model::generate;
use model::ledger::{self, Entry, Ledger, Memory};
use model::tape::{parse, Op};
use model::Act;

/// Both memories are what the ledger says.
fn same_bytes(rig: &Rig, ledger: &Ledger) -> bool {
    let eeprom =
        rig.eeprom.iter().enumerate().all(|(i, &b)| ledger.byte_at(Memory::Eeprom, i) == b);
    let id = rig.id.iter().enumerate().all(|(i, &b)| ledger.byte_at(Memory::Id, i) == b);
    eeprom && id
}

/// What record and ledger both hold is the same.
fn agrees(rig: &Rig, ledger: &Ledger) -> bool {
    let d = &rig.device;
    let lock = match d.lock {
        Lock::Closed => ledger::Lock::Closed,
        Lock::FirstStep => ledger::Lock::Half,
        Lock::Open => ledger::Lock::Open,
    };
    d.power == ledger.power
        && d.wel == ledger.wel
        && d.protection.bits() == ledger.bp
        && lock == ledger.lock
        && (d.frame != Frame::Idle) == ledger.frame.is_some()
        && d.countdown == ledger.cycle.as_ref().map_or(0, |cycle| cycle.left)
}

/// A chip, and a ledger that is told the same acts.
struct Told {
    rig: Rig,
    ledger: Ledger,
}

impl Told {
    fn new(part: u64) -> Told {
        Told { rig: Rig::new(part), ledger: Ledger::new(part) }
    }

    /// 02 Save: a loaded chip begins a new run.
    fn of(chip: &Chip) -> Told {
        let Chip { part, device, eeprom, id } = chip.clone();
        Told { rig: Rig { part, device, eeprom, id: id.to_vec() }, ledger: Ledger::of(chip) }
    }

    /// The same chip, at the beginning of a new run.
    fn anew(&self) -> Told {
        let Rig { part, device, eeprom, id } = self.rig.clone();
        Told::of(&Chip { part, device, eeprom, id: id.try_into().unwrap() })
    }

    /// An act; of its answer the ledger is told a wait's ticks.
    fn act(&mut self, act: Act, number: u64) {
        let ticks = match (act, self.rig.act(act, number)) {
            (Act::Wait, answer) => answer.count,
            _ => 0,
        };
        self.ledger.feed(act, number, ticks);
    }

    /// The same, and what both hold is then the same.
    fn agreed(&mut self, act: Act, number: u64) {
        self.act(act, number);
        let Told { rig, ledger } = self;
        assert!(agrees(rig, ledger), "{act:?} {number}: {:?} {ledger:?}", rig.device);
    }

    fn frame(&mut self, bytes: &[u8], leftover: u64) {
        self.agreed(Act::Select, 0);
        for &byte in bytes {
            self.agreed(Act::Byte, byte.into());
        }
        self.agreed(Act::End, leftover);
    }

    /// The entries that a frame and enough ticks for a cycle add.
    fn entered(&mut self, bytes: &[u8], leftover: u64) -> Vec<Entry> {
        let before = self.ledger.entries.len();
        self.frame(bytes, leftover);
        self.agreed(Act::Wait, 200);
        assert!(same_bytes(&self.rig, &self.ledger), "{bytes:02X?} and {leftover} bits");
        self.ledger.entries[before..].to_vec()
    }
}

/// Feeds the acts of a random tape; gives how many there were and how many entries.
fn run(seed: u64, tape: &[u8]) -> (u64, usize) {
    let mut told = Told::new(1 + seed % 4);
    let (mut acts, mut entries) = (0, 0);
    let mut memories = (told.rig.eeprom.clone(), told.rig.id.clone());
    for line in tape.split(|&b| b == b'\n') {
        let Ok((Op::Do(act), number)) = parse(line) else { continue };
        acts += 1;
        told.act(act, number);
        let Told { rig, ledger } = &told;
        assert!(agrees(rig, ledger), "seed {seed}, act {acts}: {:?} {ledger:?}", rig.device);
        // Equal memories stay equal while neither side moves.
        if ledger.entries.len() != entries || memories != (rig.eeprom.clone(), rig.id.clone()) {
            assert!(same_bytes(rig, ledger), "seed {seed}, act {acts}");
            entries = ledger.entries.len();
            memories = (rig.eeprom.clone(), rig.id.clone());
        }
    }
    assert!(same_bytes(&told.rig, &told.ledger), "seed {seed}");
    (acts, entries)
}

#[test]
fn some_hundred_thousand_acts() {
    let (mut acts, mut entries) = (0, 0);
    for seed in 0..200 {
        let (a, e) = run(seed, &generate::tape(seed, 2_000));
        acts += a;
        entries += e;
    }
    assert!(acts > 350_000, "{acts} acts");
    assert!(entries > 5_000, "{entries} entries");
}

#[test]
fn acts_with_many_cuts() {
    let (mut acts, mut entries) = (0, 0);
    for seed in 0..40 {
        let (a, e) = run(seed, &generate::power_tape(seed, 1_000));
        acts += a;
        entries += e;
    }
    assert!(acts > 35_000, "{acts} acts");
    assert!(entries > 100, "{entries} entries");
}

#[test]
fn acts_with_many_failed_writes() {
    let (mut acts, mut entries) = (0, 0);
    for seed in 0..100 {
        let (a, e) = run(seed, &generate::latch_tape(seed, 1_000));
        acts += a;
        entries += e;
    }
    assert!(acts > 90_000, "{acts} acts");
    assert!(entries > 2_000, "{entries} entries");
}

#[test]
fn acts_with_many_half_bytes() {
    let (mut acts, mut entries) = (0, 0);
    for seed in 0..100 {
        let (a, e) = run(seed, &generate::bits_tape(seed, 1_000));
        acts += a;
        entries += e;
    }
    assert!(acts > 90_000, "{acts} acts");
    assert!(entries > 2_000, "{entries} entries");
}

#[test]
fn acts_with_many_edges_at_the_inputs() {
    let (mut acts, mut entries) = (0, 0);
    for seed in 0..100 {
        let (a, e) = run(seed, &generate::events_tape(seed, 1_000));
        acts += a;
        entries += e;
    }
    assert!(acts > 90_000, "{acts} acts");
    assert!(entries > 50, "{entries} entries");
}

/// Pin acts strewn among the acts of a tape.
fn with_pins(tape: &[u8], random: &mut generate::Random) -> Vec<u8> {
    let mut strewn = Vec::new();
    for line in tape.split(|&b| b == b'\n') {
        while random.once_in(3) {
            let pin = random.pick(&["evls", "evhs"]);
            let number = random.pick(&[0, 0, 1, 1, 1, 2, 256]);
            strewn.extend(format!("op={pin} arg={number}\n").bytes());
        }
        strewn.extend(line);
        strewn.push(b'\n');
    }
    strewn
}

#[test]
fn pins_anywhere_in_a_run() {
    // 02 Events: between any two acts, in frames, in cycles, with power off, refused or not.
    let mut random = generate::Random::new(61);
    let (mut acts, mut entries) = (0, 0);
    for seed in 0..40 {
        let made = [generate::tape, generate::power_tape, generate::latch_tape][seed as usize % 3];
        let (a, e) = run(seed, &with_pins(&made(seed, 1_000), &mut random));
        acts += a;
        entries += e;
    }
    assert!(acts > 50_000, "{acts} acts");
    assert!(entries > 500, "{entries} entries");
}

#[test]
fn a_pin_feeds_the_ledger_nothing() {
    let mut random = generate::Random::new(62);
    for _ in 0..500 {
        let mut ledger = Ledger::of(&generate::chip(&mut random));
        let before = ledger.clone();
        for act in [Act::Evls, Act::Evhs] {
            for number in [0, 1, 2, 255, 256, u64::MAX] {
                ledger.feed(act, number, 164);
                assert_eq!(ledger, before, "{act:?} {number}");
            }
        }
    }
}

#[test]
fn the_whole_case_by_the_ledger() {
    // 01 Promise: the byte that a chip without any effect would not have.
    let mut ledger = Ledger::new(2);
    for (act, number, ticks) in [
        (Act::Select, 0, 0),
        (Act::Byte, 6, 0),
        (Act::End, 0, 0),
        (Act::Select, 0, 0),
        (Act::Byte, 2, 0),
        (Act::Byte, 7, 0),
        (Act::Byte, 18, 0),
        (Act::Byte, 52, 0),
        (Act::End, 0, 0),
    ] {
        ledger.feed(act, number, ticks);
    }
    assert!(ledger.entries.is_empty());
    ledger.feed(Act::Wait, 200, 164);
    assert_eq!(ledger.byte_at(Memory::Eeprom, 0x07), 18);
    assert_eq!(ledger.byte_at(Memory::Eeprom, 0x00), 52);
    assert_eq!(ledger.byte_at(Memory::Eeprom, 0x08), 0xFF);
    assert_eq!(ledger.byte_at(Memory::Id, 0x00), 0xFF);
    assert_eq!(ledger.entries.len(), 2);
}

#[test]
fn refused_acts_leave_the_ledger() {
    let mut ledger = Ledger::new(2);
    let fresh = ledger.clone();
    for (act, number) in [
        (Act::Select, 1),
        (Act::Byte, 6),
        (Act::Byte, 256),
        (Act::End, 0),
        (Act::End, 8),
        (Act::Wait, 16_777_217),
        (Act::Cut, 256),
        (Act::Up, 0),
        (Act::Up, 1),
    ] {
        ledger.feed(act, number, 0);
        assert_eq!(ledger, fresh, "{act:?} {number}");
    }
    ledger.feed(Act::Select, 0, 0);
    let open = ledger.clone();
    ledger.feed(Act::Select, 0, 0);
    assert_eq!(ledger, open);
}

/// One entry of a byte at a place of the EEPROM.
fn eeprom_entry(place: usize, byte: u8) -> Vec<Entry> {
    vec![Entry { memory: Memory::Eeprom, place, byte }]
}

#[test]
fn after_a_write_that_came_to_nothing() {
    // 02 Latch: with BP 01 and the lock closed these enter nothing. One enable before them is
    // enough for the write after them, and for no second one. The last quarter is protected from
    // C0h on, with 1 Kbit from 60h on.
    for (part, free, protected) in
        [(W1K, 0x5F, 0x60), (W2K, 0xBF, 0xC0), (B1K, 0x5F, 0x60), (B2K, 0xBF, 0xC0)]
    {
        for (bytes, leftover) in [
            (&[0x02, protected, 0x11][..], 0),
            (&[0x32, 0x00, 0x11], 0),
            (&[0x02, free, 0x11], 1),
            (&[0x02, free, 0x11], 7),
            (&[0x01, 0x00], 4),
            (&[0x01, 0x00, 0x00], 0),
            (&[0x01, 0x00, 0x00, 0x00], 0),
        ] {
            let mut told = Told::new(part);
            told.frame(&[0x06], 0);
            told.frame(&[0x01, 0x04], 0);
            told.agreed(Act::Wait, 164);
            assert_eq!(told.ledger.bp, 0b01);
            // Without the enable nothing is entered either.
            assert_eq!(told.entered(bytes, leftover), []);
            assert_eq!(told.entered(&[0x02, free, 0x22], 0), []);
            told.frame(&[0x06], 0);
            assert_eq!(told.entered(bytes, leftover), []);
            assert_eq!(told.entered(&[0x02, free, 0x33], 0), eeprom_entry(free.into(), 0x33));
            assert_eq!(told.entered(&[0x02, free, 0x44], 0), []);
            assert_eq!(told.rig.eeprom[usize::from(free)], 0x33);
            assert_eq!(told.rig.eeprom[usize::from(protected)], 0xFF);
            // The same for an ID byte, with the lock opened in between.
            told.frame(&[0x06], 0);
            assert_eq!(told.entered(bytes, leftover), []);
            told.frame(&[0x14, 0x55], 0);
            told.frame(&[0x14, 0xAA], 0);
            let id = Entry { memory: Memory::Id, place: 9, byte: 0x55 };
            assert_eq!(told.entered(&[0x32, 0x09, 0x55], 0), [id]);
            assert_eq!((told.rig.id[9], told.ledger.bp), (0x55, 0b01));
        }
    }
}

#[test]
fn a_cut_takes_the_enable() {
    // After a protected write as well: the write after the up enters nothing.
    for mask in [0x00, 0xFF] {
        let mut told = Told::new(W2K);
        told.frame(&[0x06], 0);
        told.frame(&[0x01, 0x0C], 0);
        told.agreed(Act::Wait, 164);
        told.frame(&[0x06], 0);
        assert_eq!(told.entered(&[0x02, 0x00, 0x11], 0), []);
        assert!(told.ledger.wel);
        told.agreed(Act::Cut, mask);
        assert!(!told.ledger.wel);
        told.agreed(Act::Up, 0);
        assert_eq!(told.entered(&[0x01, 0x00], 0), []);
        assert_eq!(told.ledger.bp, 0b11);
    }
}

#[test]
fn the_ledgers_own_up() {
    // 02 Latch: it clears WEL; only a ledger that did not start fresh has it set with power off.
    let mut ledger = Ledger::new(2);
    (ledger.power, ledger.wel) = (false, true);
    let off = ledger.clone();
    ledger.feed(Act::Up, 1, 0);
    assert_eq!(ledger, off);
    ledger.feed(Act::Up, 0, 0);
    assert_eq!(ledger, Ledger::new(2));
}

#[test]
fn a_protected_write_by_the_ledger() {
    // Told by hand: BP 11, an enable, a protected write, then SRWRITE 00h without a new enable.
    let mut ledger = Ledger::new(1);
    let mut frame = |bytes: &[u64]| {
        ledger.feed(Act::Select, 0, 0);
        bytes.iter().for_each(|&byte| ledger.feed(Act::Byte, byte, 0));
        ledger.feed(Act::End, 0, 0);
        let ticks = if ledger.cycle.is_some() { 164 } else { 200 };
        ledger.feed(Act::Wait, 200, ticks);
        (ledger.wel, ledger.bp, ledger.entries.len())
    };
    assert_eq!(frame(&[0x06]), (true, 0, 0));
    assert_eq!(frame(&[0x01, 0x0C]), (false, 0b11, 0));
    assert_eq!(frame(&[0x06]), (true, 0b11, 0));
    assert_eq!(frame(&[0x02, 0x00, 0x11]), (true, 0b11, 0));
    assert_eq!(frame(&[0x01, 0x00]), (false, 0b00, 0));
    assert_eq!(frame(&[0x02, 0x00, 0x11]), (false, 0b00, 0));
    assert_eq!(frame(&[0x06]), (true, 0b00, 0));
    assert_eq!(frame(&[0x02, 0x00, 0x11]), (false, 0b00, 1));
    assert_eq!(ledger.byte_at(Memory::Eeprom, 0x00), 0x11);
}

#[test]
fn a_fresh_chip_is_one_beginning() {
    for part in 1..=4 {
        assert_eq!(Ledger::of(&Chip::fresh(part)), Ledger::new(part));
    }
}

#[test]
fn runs_that_begin_with_any_chip() {
    let mut random = generate::Random::new(48);
    let (mut entries, mut of_a_loaded_cycle, mut of_a_loaded_frame) = (0, 0, 0);
    for _ in 0..4_000 {
        let chip = generate::chip(&mut random);
        let mut told = Told::of(&chip);
        assert!(agrees(&told.rig, &told.ledger) && same_bytes(&told.rig, &told.ledger));
        let (mut cycle, mut frame) = (chip.device.countdown > 0, chip.device.frame != Frame::Idle);
        for _ in 0..30 {
            let any = random.below(256);
            let byte = match random.below(3) {
                0 => any,
                1 => u64::from(random.pick(&CODES)),
                _ => random.pick(&[0x55, 0xAA]),
            };
            let (act, number) = random.pick(&[
                (Act::Select, 0),
                (Act::Byte, byte),
                (Act::Byte, byte),
                (Act::Byte, byte),
                (Act::End, 0),
                (Act::End, 0),
                (Act::End, any % 8),
                (Act::Wait, 164),
                (Act::Wait, any),
                (Act::Up, 0),
                (if any < 64 { Act::Cut } else { Act::Up }, any),
                (if any < 128 { Act::Evls } else { Act::Evhs }, any % 3),
            ]);
            let before = told.ledger.entries.len();
            let started = told.ledger.cycle.is_some();
            told.agreed(act, number);
            assert!(same_bytes(&told.rig, &told.ledger), "{act:?} {number} after {chip:?}");
            let added = told.ledger.entries.len() - before;
            if added > 0 {
                of_a_loaded_cycle += u64::from(cycle);
                of_a_loaded_frame += u64::from(!cycle && frame);
            }
            entries += added;
            cycle = cycle && told.ledger.cycle.is_some();
            // A frame that was loaded ends, and the cycle that it started goes on.
            frame = frame
                && (told.rig.device.frame != Frame::Idle
                    || told.ledger.cycle.is_some() && (started || act == Act::End));
        }
    }
    let counts = (entries, of_a_loaded_cycle, of_a_loaded_frame);
    assert!(entries > 2_000 && of_a_loaded_cycle > 300 && of_a_loaded_frame > 30, "{counts:?}");
}

#[test]
fn runs_that_begin_anew_at_every_act() {
    let mut entries = 0;
    for seed in 0..32 {
        let kinds =
            [generate::tape, generate::power_tape, generate::latch_tape, generate::events_tape];
        // The part goes by the seed, and the kind goes on after all parts had their turn.
        let made = kinds[seed as usize / 4 % 4];
        let mut told = Told::new(1 + seed % 4);
        for line in made(seed, 500).split(|&b| b == b'\n') {
            let Ok((Op::Do(act), number)) = parse(line) else { continue };
            told.agreed(act, number);
            if told.ledger.entries.is_empty() {
                assert_eq!(told.ledger.began, (told.rig.eeprom.clone(), told.rig.id.clone()));
            } else {
                assert!(same_bytes(&told.rig, &told.ledger), "seed {seed}");
            }
            entries += told.ledger.entries.len();
            told = told.anew();
        }
    }
    assert!(entries > 200, "{entries} entries");
}

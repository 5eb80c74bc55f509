//! 02 Save: a chip as text and back. What is expected is written from D154 to D159 and D194: texts
//! by hand, limits from both sides, the first bad line of spoiled texts, and runs that are cut in two.

mod common;
use std::collections::{BTreeMap, HashSet};

use common::text::*;
use common::*;
use model::chip::*;
use model::generate::{self, chip, spoil, text_of, Random, Way};
use model::saved::{load, plain, read, save, Refused};
use model::tape::Tape;
use model::Act;

fn eight(text: Result<Chip, u64>) -> u64 {
    text.expect_err("the text is good")
}

/// The text is good, and is written again as it was.
fn good(text: &Text) -> Chip {
    let bytes = text.bytes();
    match read(&bytes) {
        Ok(chip) => {
            assert_eq!(String::from_utf8(text_of(&chip)), String::from_utf8(bytes));
            chip
        }
        Err(line) => panic!("line {line}: {}", text.0.get(line as usize - 1).unwrap()),
    }
}

/// The line of the key is the first bad one.
fn bad(text: &Text, key: &str) {
    let line = text.line(key);
    assert_eq!(read(&text.bytes()).map(|_| line), Err(text.number(key)), "{line}");
}

fn saved(rig: &Rig) -> Text {
    let text = save(rig.part, &rig.device, &rig.eeprom, &rig.id, usize::MAX).unwrap();
    Text::of(&text)
}

#[test]
fn fresh_chips() {
    for part in 1..=4 {
        let text = Text::fresh(part);
        assert_eq!(text.0.len(), if part % 2 == 1 { 80 } else { 96 });
        let rig = Rig::new(part);
        let written = save(part, &rig.device, &rig.eeprom, &rig.id, usize::MAX).unwrap();
        assert_eq!(String::from_utf8(written), String::from_utf8(text.bytes()), "part {part}");
        assert_eq!(good(&text), Chip::fresh(part));
    }
}

#[test]
fn what_acts_leave_in_the_text() {
    let mut rig = Rig::new(W2K);
    rig.enable();
    assert_eq!(saved(&rig).line("wel"), "wel=1");
    rig.protect(2);
    assert_eq!(saved(&rig).line("bp"), "bp=2");
    rig.frame(&[0x14, 0x55]);
    assert_eq!(saved(&rig).line("lock"), "lock=1");
    rig.frame(&[0x14, 0xAA]);
    assert_eq!(saved(&rig).line("lock"), "lock=2");
    // Offsets 6, 7 and, after the roll-over, 0.
    assert!(rig.eeprom_write(0x16, &[1, 2, 3]));
    rig.wait(60);
    let text = saved(&rig);
    for line in [
        "power=1",
        "wel=1",
        "lock=0",
        "stage=0,0,0",
        "offsets=193",
        "load=3,0,0,0,0,0,1,2",
        "next=1",
        "target=0,22",
        "left=104",
        "ee2=255,255,255,255,255,255,255,255",
    ] {
        assert_eq!(text.line(line.split('=').next().unwrap()), line);
    }
    rig.wait(104);
    let text = saved(&rig);
    assert_eq!(text.line("ee2"), "ee2=3,255,255,255,255,255,1,2");
    assert_eq!((text.line("wel"), text.line("left")), ("wel=0", "left=0"));
    // The ID, and STATUS.
    rig.unlock();
    rig.enable();
    rig.frame(&[0x32, 0x0F, 9]);
    let text = saved(&rig);
    assert_eq!((text.line("target"), text.line("left")), ("target=1,15", "left=164"));
    rig.wait(164);
    assert_eq!(saved(&rig).line("id1"), "id1=255,255,255,255,255,255,255,9");
    rig.enable();
    rig.frame(&[0x01, 0x0C]);
    let text = saved(&rig);
    assert_eq!((text.line("target"), text.line("left")), ("target=2,3", "left=164"));
    // Registers as stored: OSCON, LP and the alarms' 12/24 bit are made when read.
    let mut rig = Rig::new(B1K);
    rig.write(0x03, &[0x52, 0x09]);
    rig.write(0x20, &[10, 11]);
    rig.wait(40);
    rig.write(0x0A, &[0xA3]);
    rig.wait(5);
    let text = saved(&rig);
    for line in
        ["reg3=82", "reg4=9", "reg6=1", "reg14=0", "reg10=163", "startup=32", "delay=2097147"]
    {
        assert_eq!(text.line(line.split('=').next().unwrap()), line);
    }
    assert_eq!(text.line("sram0"), "sram0=10,11,0,0,0,0,0,0");
    // A cut with VBATEN leaves the mark and VBAT.
    rig.cut(0);
    let text = saved(&rig);
    assert_eq!((text.line("power"), text.line("mark")), ("power=0", "mark=1"));
    assert_eq!((text.line("reg4"), text.line("reg10")), ("reg4=25", "reg10=35"));
    rig.up();
    assert_eq!((saved(&rig).line("power"), saved(&rig).line("mark")), ("power=1", "mark=0"));
}

#[test]
fn stages_that_acts_bring_about() {
    let rows: [(&[u8], &str); 39] = [
        (&[], "1,0,0"),
        (&[0x03], "3,3,0"),
        (&[0x02], "3,2,0"),
        (&[0x04], "3,4,0"),
        (&[0x06], "3,6,0"),
        (&[0x05], "3,5,0"),
        (&[0x01], "3,1,0"),
        (&[0x13], "3,19,0"),
        (&[0x12], "3,18,0"),
        (&[0x14], "3,20,0"),
        (&[0x32], "3,50,0"),
        (&[0x33], "3,51,0"),
        (&[0x44], "3,68,0"),
        (&[0x54], "3,84,0"),
        (&[0x00], "3,0,0"),
        (&[0xFF], "3,0,0"),
        (&[0x07, 1, 2, 3], "3,0,0"),
        (&[0x05, 0, 0, 0], "3,5,0"),
        (&[0x03, 0x12], "4,0,18"),
        (&[0x03, 0xFF, 0], "4,0,0"),
        (&[0x13, 0x1E, 0], "4,1,31"),
        (&[0x13, 0x60, 0], "4,1,96"),
        (&[0x33, 0x1E, 0], "4,2,15"),
        (&[0x02, 0x34], "5,0,52"),
        (&[0x02, 0x34, 7, 7], "5,0,52"),
        (&[0x12, 0x5F, 7], "5,1,32"),
        (&[0x32, 0xF3, 7], "5,2,3"),
        (&[0x01, 0xFC], "6,0,252"),
        (&[0x14, 0x55], "6,1,85"),
        (&[0x44, 9], "6,2,0"),
        (&[0x54, 9], "6,3,0"),
        (&[0x01, 0xFC, 0], "7,0,0"),
        (&[0x14, 0x55, 0], "7,1,0"),
        (&[0x44, 9, 9], "7,2,0"),
        (&[0x54, 9, 9, 9], "7,3,0"),
        (&[0x06, 0], "7,4,0"),
        (&[0x06, 0, 0], "7,4,0"),
        (&[0x04, 0], "7,5,0"),
        (&[0x04, 0, 0, 0], "7,5,0"),
    ];
    for (bytes, numbers) in rows {
        let mut rig = Rig::new(W2K);
        rig.select();
        for &byte in bytes {
            rig.byte(byte);
        }
        let text = saved(&rig);
        assert_eq!(text.line("stage"), format!("stage={numbers}"), "{bytes:02X?}");
        assert_eq!(good(&text).device, rig.device);
    }
    // In a cycle.
    let mut rig = Rig::new(W2K);
    rig.eeprom_write(0, &[0]);
    for (bytes, numbers) in
        [(&[0x03, 1][..], "2,0,0"), (&[0x07], "2,0,0"), (&[0x12, 1], "5,1,1"), (&[0x05], "3,5,0")]
    {
        rig.select();
        for &byte in bytes {
            rig.byte(byte);
        }
        let text = saved(&rig);
        assert_eq!(text.line("stage"), format!("stage={numbers}"), "{bytes:02X?}");
        assert_eq!(good(&text).device, rig.device);
        rig.end(0);
    }
}

/// Each number in turn is good, each of the others is the first bad line.
fn limits(text: &Text, key: &str, goods: &[u64], bads: &[u64]) {
    for n in goods {
        good(&text.with(key, &n.to_string()));
    }
    for n in bads {
        bad(&text.with(key, &n.to_string()), key);
    }
}

#[test]
fn limits_of_single_numbers() {
    for part in 1..=4 {
        let t = Text::fresh(part);
        let off = t.with("power", "0");
        limits(&t, "divider", &[0, 1, 32_766, 32_767], &[32_768, 32_769, 99_999]);
        limits(&t, "delay", &[0, 2_097_151, 2_097_152], &[2_097_153, 9_999_999]);
        limits(&t, "pulse", &[0, 4, 4_095, 4_096], &[4_097, 5_000]);
        limits(&t, "power", &[0, 1], &[2, 3, 10, 255]);
        limits(&t, "mark", &[0], &[1, 2]);
        limits(&off, "mark", &[0, 1], &[2, 3]);
        limits(&t, "wel", &[0, 1], &[2]);
        limits(&off, "wel", &[0, 1], &[2]);
        limits(&t, "bp", &[0, 1, 2, 3], &[4, 5, 8]);
        limits(&t, "lock", &[0, 1, 2], &[3, 4]);
        limits(&off, "lock", &[0, 1, 2], &[3]);
        limits(&t, "offsets", &[0, 1, 128, 254, 255], &[256, 257]);
        limits(&t, "next", &[0, 1, 6, 7], &[8, 9, 70]);
        limits(&t, "left", &[0, 1, 163, 164], &[165, 166, 1_640]);
        limits(&off, "left", &[0], &[1, 164, 165]);
        // The start-up count needs ST on a W part.
        let st = t.with("reg1", "128");
        limits(&st, "startup", &[0, 1, 31, 32], &[33, 320]);
        limits(&st.with("power", "0"), "startup", &[0, 32], &[33]);
        for seconds in ["0", "127"] {
            let stopped = t.with("reg1", seconds);
            match part {
                1 | 2 => limits(&stopped, "startup", &[0], &[1, 32, 33]),
                _ => limits(&stopped, "startup", &[0, 1, 32], &[33]),
            }
        }
        // Bits 2:0 of 0Ah set the period, whatever the others are.
        let periods = [32, 512, 2_048, 4_096, 32_768, 524_288, 1_048_576, 2_097_152];
        for (bits, period) in (0..8).zip(periods) {
            for others in [0x00, 0x08, 0x80, 0xF0, 0xF8] {
                let set = t.with("reg10", &(others | bits).to_string());
                limits(&set, "watchdog", &[0, period - 1], &[period, period + 1]);
            }
        }
    }
}

#[test]
fn limits_of_the_event_inputs() {
    // D194. Bits 1:0 of 0Bh set 1, 4, 16 or 32 edges, bit 2 the debounce; 5 and 4 enable.
    for byte in 0..=255_u64 {
        let set = Text::fresh(1 + byte % 4).with("reg11", &byte.to_string());
        limits(&set, "evls", &[0, 1], &[2, 3, 10]);
        limits(&set, "evhs", &[0, 1], &[2, 3, 10]);
        let number = [1, 4, 16, 32][byte as usize % 4];
        let (high_speed, low_speed) = (byte & 0x20 != 0, byte & 0x10 != 0);
        match high_speed {
            true => limits(&set, "edges", &[0, number - 1], &[number, number + 1, 99]),
            false => limits(&set, "edges", &[0], &[1, number]),
        }
        limits(&set, "since", &[0], &[1, 8_192, 8_193]);
        if high_speed && number > 1 {
            let counted = set.with("edges", &(number - 1).to_string());
            limits(&counted, "since", &[0, 1, 8_191, 8_192], &[8_193, 8_194, 81_920]);
        }
        let ticks = if byte & 0x04 == 0 { 1_024 } else { 16_384 };
        limits(&set, "debounce", &[0], &[1, ticks]);
        let high = set.with("evls", "1").with("evhs", "1");
        match low_speed {
            true => limits(&high, "debounce", &[0, 1, ticks], &[ticks + 1, 10 * ticks]),
            false => limits(&high, "debounce", &[0], &[1, ticks]),
        }
    }
}

#[test]
fn a_text_from_before_the_event_inputs() {
    // It ends behind the last line of the ID, and nowhere else before its end. It is loaded with
    // five zeros and written with them.
    let mut random = Random::new(49);
    for _ in 0..200 {
        let chip = chip(&mut random);
        let whole = Text::of(&text_of(&chip));
        let older = whole.without_events();
        let loaded = read(&older.bytes()).unwrap();
        let mut expected = chip.clone();
        let d = &mut expected.device;
        (d.evls, d.evhs, d.edges, d.since, d.debounce) = (0, 0, 0, 0, 0);
        assert_eq!(loaded, expected);
        assert_eq!(text_of(&loaded), [&older.bytes()[..], NO_EVENTS.as_bytes()].concat());
        assert_eq!(good(&Text::of(&text_of(&loaded))), expected);
        // Every number of lines, with the last newline and without it.
        let lines = whole.0.len();
        for kept in 0..=lines {
            let begun = Text(whole.0[..kept].to_vec()).bytes();
            let ends = kept == lines || kept == lines - EVENT_LINES;
            assert_eq!(read(&begun).err(), (!ends).then_some(kept as u64 + 1));
            if kept > 0 {
                assert_eq!(read(&begun[..begun.len() - 1]).err(), Some(kept as u64));
            }
            if kept < lines {
                assert_eq!(read(&[&begun[..], b"\n"].concat()).err(), Some(kept as u64 + 1));
            }
        }
        // The lines cannot stand without those before them.
        for missing in lines - EVENT_LINES..lines {
            let mut text = whole.clone();
            text.0.remove(missing);
            assert_eq!(read(&text.bytes()), Err(missing as u64 + 1));
        }
    }
}

#[test]
fn the_event_inputs_in_the_text() {
    let mut rig = Rig::new(W1K);
    rig.start_at([0, 0, 0, 0, 1, 1, 1, 0]);
    rig.write(0x0B, &[0x32]);
    rig.evls(1);
    rig.wait(24);
    for level in [1, 0, 1, 0, 1] {
        rig.evhs(level);
    }
    rig.wait(300);
    let text = saved(&rig);
    let last = ["evls=1", "evhs=1", "edges=3", "since=300", "debounce=700"];
    assert_eq!(text.0[text.0.len() - EVENT_LINES..], last);
    assert_eq!(text.line("reg11"), "reg11=50");
    // What was saved goes on as it would have.
    let chip = good(&text);
    let mut next = Rig { part: 1, device: chip.device, eeprom: chip.eeprom, id: chip.id.to_vec() };
    assert_eq!(next, rig);
    assert_eq!((next.wait(10_000), next.read(0x0B)), (700, 0x72));
}

#[test]
fn limits_of_the_part() {
    for part in [0, 5, 6, 10, 11, 255] {
        assert_eq!(read(format!("part={part}\n").as_bytes()), Err(1), "{part}");
    }
    for part in 1..=4 {
        assert_eq!(read(format!("part={part}\n").as_bytes()), Err(2), "{part}");
    }
    // The part says how many lines there are.
    let (small, large) = (Text::fresh(1), Text::fresh(2));
    assert_eq!(read(&small.with("part", "2").bytes()), Err(small.number("id0")));
    assert_eq!(read(&large.with("part", "3").bytes()), Err(large.number("ee16")));
}

#[test]
fn limits_of_registers() {
    let masks = [
        0xFF, 0xFF, 0x7F, 0xFF, 0x1F, 0x3F, 0x1F, 0xFF, 0xFF, 0xFF, 0xFF, 0xFF, 0x7F, 0x7F, 0x3F,
        0xFF, 0x3F, 0x1F, 0xFF, 0x7F, 0x7F, 0x3F, 0xFF, 0x3F, 0xFF, 0xFF, 0xFF, 0xFF, 0xFF, 0xFF,
        0xFF, 0xFF,
    ];
    let text = Text::fresh(B1K);
    for (register, mask) in masks.into_iter().enumerate() {
        let key = format!("reg{register}");
        for n in 0..=260_u64 {
            match n <= 255 && n & !mask == 0 {
                true => drop(good(&text.with(&key, &n.to_string()))),
                false => bad(&text.with(&key, &n.to_string()), &key),
            }
        }
    }
}

#[test]
fn limits_of_eight_bytes() {
    for part in [W1K, B2K] {
        let text = Text::fresh(part);
        let mut keys: Vec<String> = (0..8).map(|k| format!("sram{k}")).collect();
        keys.push("load".to_string());
        keys.extend((0..if part == W1K { 16 } else { 32 }).map(|k| format!("ee{k}")));
        keys.extend((0..2).map(|k| format!("id{k}")));
        for key in keys {
            good(&text.with(&key, "0,1,2,3,4,5,6,255"));
            good(&text.with(&key, "255,0,255,0,255,0,255,0"));
            for place in 0..8 {
                for (byte, is_good) in [("255", true), ("9", true), ("256", false), ("1000", false)]
                {
                    let mut bytes = ["7"; 8];
                    bytes[place] = byte;
                    let changed = text.with(&key, &bytes.join(","));
                    match is_good {
                        true => drop(good(&changed)),
                        false => bad(&changed, &key),
                    }
                }
            }
            bad(&text.with(&key, "1,2,3,4,5,6,7"), &key);
            bad(&text.with(&key, "1,2,3,4,5,6,7,8,9"), &key);
        }
    }
}

const ENDS: [u64; 17] = [0, 1, 2, 3, 4, 7, 15, 16, 63, 64, 127, 128, 129, 255, 256, 257, 1_000];

#[test]
fn every_stage() {
    let codes = [0, 1, 2, 3, 4, 5, 6, 18, 19, 20, 50, 51, 68, 84];
    for (part, eeprom) in [(W1K, 128), (B2K, 256)] {
        let text = Text::fresh(part);
        let at = text.place("stage");
        let head = Text(text.0[..at].to_vec()).bytes();
        let off = Text(text.with("power", "0").0[..at].to_vec()).bytes();
        let mut seen = HashSet::new();
        for kind in 0..=9 {
            for case in 0..=260 {
                for value in ENDS {
                    let address = match case {
                        0 => value < eeprom,
                        1 => value <= 255,
                        2 => value <= 15,
                        _ => false,
                    };
                    let expected = match kind {
                        0..=2 => case == 0 && value == 0,
                        3 => codes.contains(&case) && value == 0,
                        4 | 5 => address,
                        6 => case <= 1 && value <= 255 || (2..=3).contains(&case) && value == 0,
                        7 => case <= 5 && value == 0,
                        _ => false,
                    };
                    let line = format!("stage={kind},{case},{value}\n");
                    let verdict = eight(read(&[&head, line.as_bytes()].concat()));
                    assert_eq!(verdict, at as u64 + 1 + u64::from(expected), "{line}");
                    // Power off goes with no frame.
                    let verdict = eight(read(&[&off, line.as_bytes()].concat()));
                    assert_eq!(verdict, at as u64 + 1 + u64::from(kind == 0 && expected), "{line}");
                    if expected {
                        let changed = text.with("stage", &format!("{kind},{case},{value}"));
                        assert!(seen.insert(format!("{:?}", good(&changed).device.frame)));
                    }
                }
            }
        }
    }
}

#[test]
fn every_target() {
    for (part, eeprom) in [(W1K, 128), (W2K, 256), (B1K, 128), (B2K, 256)] {
        let text = Text::fresh(part);
        for kind in 0..=5 {
            for value in ENDS {
                let expected = match kind {
                    0 => value < eeprom,
                    1 => value <= 15,
                    2 => value <= 3,
                    _ => false,
                };
                // In use or not, with power or without.
                for (power, left) in [("0", "0"), ("1", "0"), ("1", "164")] {
                    let changed = text
                        .with("power", power)
                        .with("left", left)
                        .with("target", &format!("{kind},{value}"));
                    match expected {
                        true => drop(good(&changed)),
                        false => bad(&changed, "target"),
                    }
                }
            }
        }
    }
}

#[test]
fn a_cycle_and_a_frame() {
    // With a cycle: no frame, no byte, not heard, or one of SRREAD, READ, WRITE, CLRWDT, CLRRAM.
    let text = Text::fresh(B2K);
    for (stages, heard) in [
        (&["0,0,0", "1,0,0", "2,0,0"][..], true),
        (&["3,5,0", "3,19,0", "3,18,0", "3,68,0", "3,84,0"], true),
        (&["4,1,0", "4,1,255", "5,1,0", "5,1,255"], true),
        (&["6,2,0", "6,3,0", "7,2,0", "7,3,0"], true),
        (&["3,0,0", "3,1,0", "3,2,0", "3,3,0", "3,4,0", "3,6,0", "3,20,0"], false),
        (&["3,50,0", "3,51,0"], false),
        (&["4,0,0", "4,0,255", "4,2,0", "4,2,15", "5,0,0", "5,0,255", "5,2,0"], false),
        (&["6,0,0", "6,0,255", "6,1,0", "6,1,85"], false),
        (&["7,0,0", "7,1,0", "7,4,0", "7,5,0"], false),
    ] {
        for stage in stages {
            let open = text.with("stage", stage);
            match heard {
                true => limits(&open, "left", &[0, 1, 164], &[165]),
                false => limits(&open, "left", &[0], &[1, 164, 165]),
            }
        }
    }
}

/// All frames of a part.
fn frames(part: u64) -> Vec<Frame> {
    let eeprom = if part == W1K || part == B1K { 128 } else { 256 };
    let mut places: Vec<Place> = (0..eeprom).map(Place::Eeprom).collect();
    places.extend((0..=255).map(Place::Clock));
    places.extend((0..16).map(Place::Id));
    let mut frames = vec![Frame::Idle, Frame::Empty, Frame::Unheard];
    frames.extend(CODES.iter().chain(&[0]).map(|&code| Frame::Heard(Code::of(code))));
    frames.extend(places.iter().map(|&place| Frame::Reading(place)));
    frames.extend(places.iter().map(|&place| Frame::Writing(place)));
    frames.extend((0..=255).map(|byte| Frame::Second(Two::Srwrite(byte))));
    frames.extend((0..=255).map(|byte| Frame::Second(Two::Unlock(byte))));
    frames.extend([Two::Clrwdt, Two::Clrram].map(Frame::Second));
    frames.extend([TooLong::Srwrite, TooLong::Unlock, TooLong::Clrwdt].map(Frame::Over));
    frames.extend([TooLong::Clrram, TooLong::Eewren, TooLong::Eewrdi].map(Frame::Over));
    frames
}

#[test]
fn every_frame_has_its_text() {
    // What number 6 does not refuse is saved and comes back; no two have the same text.
    for part in [W1K, B2K] {
        let mut texts = HashSet::new();
        let mut saved = 0;
        let mut chip = Chip::fresh(part);
        for frame in frames(part) {
            for power in [true, false] {
                for countdown in [0, 164] {
                    let d = &mut chip.device;
                    (d.frame, d.power, d.countdown) = (frame, power, countdown);
                    let in_range = !out_of_range(part, d);
                    match save(part, d, &chip.eeprom, &chip.id, usize::MAX) {
                        Ok(text) => {
                            assert!(in_range);
                            assert_eq!(read(&text).as_ref(), Ok(&chip));
                            texts.insert(text);
                            saved += 1;
                        }
                        Err(refused) => {
                            assert!(!in_range);
                            assert_eq!(refused, Refused { number: 6, line: 0 });
                        }
                    }
                }
            }
        }
        assert_eq!(texts.len(), saved);
        // All frames with power, one without; with a cycle those of five codes: 3 and 5 by their
        // byte, 256 and 256 at clock addresses, 2 and 2 of CLRWDT and CLRRAM.
        assert_eq!(saved, frames(part).len() + 1 + 3 + 5 + 512 + 4);
    }
}

#[test]
fn every_target_has_its_text() {
    for (part, eeprom) in [(W1K, 128), (B2K, 256)] {
        let mut targets: Vec<Target> = (0..eeprom).map(Target::Eeprom).collect();
        targets.extend((0..16).map(Target::Id));
        targets.extend((0..4).map(|bits| Target::Status(Protection::from_bits(bits))));
        let mut texts = HashSet::new();
        let mut chip = Chip::fresh(part);
        for &target in &targets {
            for lock in [Lock::Closed, Lock::FirstStep, Lock::Open] {
                for bits in 0..4 {
                    let d = &mut chip.device;
                    (d.target, d.lock) = (target, lock);
                    d.protection = Protection::from_bits(bits);
                    let text = text_of(&chip);
                    assert_eq!(read(&text).as_ref(), Ok(&chip));
                    texts.insert(text);
                }
            }
        }
        assert_eq!(texts.len(), 12 * targets.len());
    }
}

/// A number of the record, by its key.
fn put(d: &mut Device, key: &str, n: u64) {
    match key {
        "divider" => d.divider = n,
        "startup" => d.start_up = n,
        "watchdog" => d.watchdog = n,
        "delay" => d.delay = n,
        "pulse" => d.pulse = n,
        "power" => d.power = n == 1,
        "mark" => d.stamp_due = n == 1,
        "next" => d.offset = n,
        "left" => d.countdown = n,
        "stage" => d.frame = Frame::Writing(Place::Eeprom(n)),
        "target" => d.target = Target::Eeprom(n),
        "evls" => d.evls = n,
        "evhs" => d.evhs = n,
        "edges" => d.edges = n,
        "since" => d.since = n,
        "debounce" => d.debounce = n,
        _ => {
            let register: usize = key.strip_prefix("reg").unwrap().parse().unwrap();
            d.registers[register] = n as u8;
        }
    }
}

#[test]
fn lines_are_judged_as_number_6_judges() {
    // A good beginning goes on with 0 on every later line. So a line is bad just if number 6
    // refuses the record that has it, and 0 for all that comes after it.
    let mut random = Random::new(41);
    let (mut goods, mut bads) = (0, 0);
    let mut keys: Vec<String> = (0..32).map(|r| format!("reg{r}")).collect();
    keys.extend(
        ["divider", "startup", "watchdog", "delay", "pulse", "power", "mark"].map(String::from),
    );
    keys.extend(["stage", "next", "target", "left"].map(String::from));
    keys.extend(["evls", "evhs", "edges", "since", "debounce"].map(String::from));
    for _ in 0..40 {
        let text = Text::of(&text_of(&chip(&mut random)));
        for key in &keys {
            let place = text.place(key);
            let zeros = text.then_zeros(place);
            let before = good(&zeros);
            let near = 1 << random.below(23);
            let numbers: &[u64] = match &key[..] {
                "power" | "mark" => &[0, 1],
                "stage" | "target" => &[0, 127, 128, 255, 256, near],
                _ if key.starts_with("reg") => &[0, 1, 32, 64, 128, 255, near % 256],
                "evls" | "evhs" => &[0, 1, 2, 3, 256],
                "edges" => &[0, 1, 3, 4, 15, 16, 31, 32, 33],
                "since" => &[0, 1, 8_191, 8_192, 8_193, near],
                "debounce" => &[0, 1, 1_024, 1_025, 16_384, 16_385, near],
                _ => &[0, 1, 7, 8, 32, 33, 164, 165, near - 1, near, near + 1],
            };
            for &n in numbers {
                let mut chip = before.clone();
                put(&mut chip.device, key, n);
                let line = match &key[..] {
                    "stage" => format!("5,0,{n}"),
                    "target" => format!("0,{n}"),
                    _ => n.to_string(),
                };
                let changed = zeros.with(key, &line);
                if out_of_range(chip.part, &chip.device) {
                    bad(&changed, key);
                    bads += 1;
                } else {
                    assert_eq!(good(&changed), chip, "{key}={line}");
                    goods += 1;
                }
            }
        }
    }
    assert!(goods > 5_000 && bads > 500, "{goods} good, {bads} bad");
}

#[test]
fn zeros_are_good_after_every_line() {
    let mut random = Random::new(42);
    for _ in 0..40 {
        let text = Text::of(&text_of(&chip(&mut random)));
        for place in 1..=text.0.len() {
            good(&text.then_zeros(place));
        }
    }
}

#[test]
fn round_trips() {
    let mut random = Random::new(43);
    let mut met: BTreeMap<&str, u64> = BTreeMap::new();
    for _ in 0..3_000 {
        let chip = chip(&mut random);
        let d = &chip.device;
        let text = text_of(&chip);
        let again = load(&text, chip.eeprom.len(), 16).unwrap();
        assert_eq!(again, chip);
        assert_eq!(text_of(&again), text);
        let page_write = matches!(d.frame, Frame::Writing(Place::Eeprom(_) | Place::Id(_)));
        for (name, is_met) in [
            ("W 1 Kbit", chip.part == 1),
            ("W 2 Kbit", chip.part == 2),
            ("B 1 Kbit", chip.part == 3),
            ("B 2 Kbit", chip.part == 4),
            ("power off", !d.power),
            ("the mark", d.stamp_due),
            ("no frame", d.frame == Frame::Idle),
            ("no byte", d.frame == Frame::Empty),
            ("not heard", d.frame == Frame::Unheard),
            ("a code", matches!(d.frame, Frame::Heard(_))),
            ("a read", matches!(d.frame, Frame::Reading(_))),
            ("a write", matches!(d.frame, Frame::Writing(_))),
            ("a page write with data", page_write && d.loaded != 0),
            ("two bytes", matches!(d.frame, Frame::Second(_))),
            ("too many bytes", matches!(d.frame, Frame::Over(_))),
            ("an EEPROM cycle", d.countdown > 0 && matches!(d.target, Target::Eeprom(_))),
            ("an ID cycle", d.countdown > 0 && matches!(d.target, Target::Id(_))),
            ("a STATUS cycle", d.countdown > 0 && matches!(d.target, Target::Status(_))),
            ("a cycle and a frame", d.countdown > 0 && d.frame != Frame::Idle),
            ("OSCON", d.start_up == 32),
            ("a pulse", d.pulse > 0),
            ("a delay", d.delay > 0),
            ("the lock open", d.lock == Lock::Open),
            ("EVLS high", d.evls == 1),
            ("EVHS high", d.evhs == 1),
            ("an edge", d.edges > 0),
            ("ticks since the first", d.since > 0),
            ("debounce", d.debounce > 0),
            ("EVHIF and edges", d.edges > 0 && d.registers[0x0B] & 0x80 != 0),
            ("EVWDT and edges", d.edges > 0 && d.registers[0x0B] & 0x08 != 0),
            ("EVLIF and debounce", d.debounce > 0 && d.registers[0x0B] & 0x40 != 0),
        ] {
            *met.entry(name).or_default() += u64::from(is_met);
        }
    }
    assert!(met.values().all(|&count| count >= 50), "{met:#?}");
}

#[test]
fn saving_is_refused_in_order() {
    let mut chip = Chip::fresh(1);
    let room = FRESH.len();
    let try_saving = |chip: &Chip, part, eeprom: &[u8], id: &[u8], room| {
        save(part, &chip.device, eeprom, id, room)
    };
    let refused = |number| Err(Refused { number, line: 0 });
    chip.device.divider = 32_768;
    for part in [0, 5, u64::MAX] {
        assert_eq!(try_saving(&chip, part, &[0; 7], &[0; 17], 0), refused(3));
    }
    for (part, length) in [(1, 128), (2, 256), (3, 128), (4, 256)] {
        for (eeprom, id) in [(length - 1, 16), (length + 1, 16), (384 - length, 16), (0, 16)] {
            assert_eq!(try_saving(&chip, part, &vec![0; eeprom], &vec![0; id], 0), refused(4));
        }
        for id in [0, 8, 15, 17] {
            assert_eq!(try_saving(&chip, part, &vec![0; length], &vec![0; id], 0), refused(4));
        }
        assert_eq!(try_saving(&chip, part, &vec![0; length], &[0; 16], 0), refused(6));
        assert_eq!(try_saving(&chip, part, &vec![0; length], &[0; 16], usize::MAX), refused(6));
    }
    chip.device.divider = 0;
    for short in [0, 1, 7, room - 1] {
        assert_eq!(try_saving(&chip, 1, &[255; 128], &[255; 16], short), refused(8));
    }
    for enough in [room, room + 1, usize::MAX] {
        let text = try_saving(&chip, 1, &[255; 128], &[255; 16], enough).unwrap();
        assert_eq!(text, FRESH.as_bytes());
    }
}

#[test]
fn loading_is_refused_in_order() {
    let four = Err(Refused { number: 4, line: 0 });
    for (part, length) in [(1, 128), (2, 256), (3, 128), (4, 256)] {
        let text = Text::fresh(part).bytes();
        assert_eq!(load(&text, length, 16), Ok(Chip::fresh(part)));
        for (eeprom, id) in [
            (0, 16),
            (length - 1, 16),
            (length + 1, 16),
            (384 - length, 16),
            (length, 0),
            (length, 15),
            (length, 17),
            (0, 0),
        ] {
            assert_eq!(load(&text, eeprom, id), four);
            // 8 goes first.
            let spoiled = Text::fresh(part).with("left", "165");
            let eight = Err(Refused { number: 8, line: spoiled.number("left") });
            assert_eq!(load(&spoiled.bytes(), eeprom, id), eight);
            let long = [&text[..], b"\n"].concat();
            let lines = Text::fresh(part).0.len() as u64;
            assert_eq!(load(&long, eeprom, id), Err(Refused { number: 8, line: lines + 1 }));
        }
    }
}

/// Where the first bad line of a spoiled text must be, from 1; none where it depends.
fn first_bad(way: Way, line: u64, lines: u64) -> Option<u64> {
    Some(match way {
        Way::Missing | Way::EmptyLine | Way::EndsBefore | Way::EndsInside | Way::NoNewline => line,
        Way::Older => return None,
        Way::Doubled => line + 1,
        Way::Swapped if line == lines => 1, // with the first
        Way::Swapped => line,
        Way::NoLastNewline => lines,
        Way::AfterTheEnd => lines + 1,
        Way::EmptyFile | Way::OnlyNewlines | Way::CarriageReturns => 1,
        Way::OtherLine | Way::OtherKey => line,
        Way::KeyUpper | Way::KeyNumber | Way::KeyMissing => line,
        Way::NoEquals | Way::TwoEquals => line,
        Way::BlankFirst | Way::BlankLast | Way::BlankBeforeEquals => line,
        Way::BlankAfterEquals | Way::BlankAtComma | Way::Tab | Way::CarriageReturn => line,
        Way::JustBad | Way::ZeroFirst => line,
        Way::Digits9 | Way::Digits10 | Way::Digits20 | Way::Digits30 => line,
        Way::Plus | Way::Minus | Way::Letter | Way::Hex | Way::Point => line,
        Way::TooFew | Way::TooMany | Way::EmptyNumber | Way::CommaFirst | Way::CommaLast => line,
        Way::HighByte | Way::HighBit | Way::Nul => line,
        Way::Moved | Way::OtherChip | Way::KeyLetter | Way::Edge | Way::Wrapped => return None,
        Way::DigitMore | Way::DigitLess | Way::Zeros | Way::OtherComma => return None,
        Way::RandomBytes | Way::OtherByte | Way::ByteLost | Way::BitFlipped => return None,
    })
}

/// What holds of every text: a good one is the text of its chip, or has all of it but the last five
/// lines, which are 0. Of a bad one the lines before the bad one are the beginning of a good one, and
/// no line is bad that is not there or does not end.
fn judged(text: &[u8], like: &Text) -> Option<u64> {
    match read(text) {
        Ok(chip) if text_of(&chip).len() > text.len() => {
            assert_eq!(text_of(&chip), [text, NO_EVENTS.as_bytes()].concat());
            None
        }
        Ok(chip) => {
            assert_eq!(text_of(&chip), text);
            None
        }
        Err(line) => {
            let ends: Vec<usize> = (0..text.len()).filter(|&k| text[k] == b'\n').collect();
            let before = line as usize - 1;
            assert!(before <= ends.len());
            let head = &text[..if before == 0 { 0 } else { ends[before - 1] + 1 }];
            if before == 0 {
                return Some(line);
            }
            // As long as the part of the spoiled text says.
            let kept = Text::of(head);
            let mut whole = match &kept.0[0][..] {
                "part=1" | "part=3" => Text::fresh(1),
                _ => Text::fresh(2),
            };
            whole.0[..before.min(kept.0.len())].clone_from_slice(&kept.0);
            good(&whole.then_zeros(before));
            assert!(like.0.len() + 1 >= before);
            Some(line)
        }
    }
}

#[test]
fn the_first_bad_line_of_spoiled_texts() {
    let mut random = Random::new(44);
    let (mut goods, mut bads, mut ends) = (0, 0, 0);
    for _ in 0..2 {
        let text = text_of(&chip(&mut random));
        let like = Text::of(&text);
        let lines = like.0.len() as u64;
        for line in 1..=lines {
            for way in Way::ALL {
                let spoiled = spoil(&mut random, &text, line as usize - 1, way);
                let found = judged(&spoiled, &like);
                // What ends just before the event inputs' lines is good.
                if like.without_events().bytes() == spoiled {
                    assert!(found.is_none());
                    assert!(way == Way::Older || line == like.number("evls"));
                    ends += u64::from(way != Way::Older);
                } else if let Some(expected) = first_bad(way, line, lines) {
                    let shown = String::from_utf8_lossy(&spoiled);
                    assert_eq!(found, Some(expected), "{way:?} at {line} of\n{shown}");
                }
                match found {
                    None => goods += 1,
                    Some(_) => bads += 1,
                }
            }
        }
    }
    assert!(goods > 100 && bads > 7_000 && ends >= 2, "{goods} good, {bads} bad, {ends} short");
}

#[test]
fn generated_texts() {
    let mut seen = HashSet::new();
    let (mut goods, mut at) = (0, HashSet::new());
    for index in 0..600 {
        let text = generate::saved_text(5, index);
        assert_eq!(text, generate::saved_text(5, index));
        assert_ne!(text, generate::saved_text(6, index + 1));
        match judged(&text, &Text::fresh(2)) {
            None => goods += 1,
            Some(line) => drop(at.insert(line)),
        }
        seen.insert(text);
    }
    assert!(goods > 15 && at.len() > 10 && seen.len() > 550);
}

#[test]
fn a_text_cut_at_every_byte() {
    for text in [Text::fresh(1).bytes(), text_of(&chip(&mut Random::new(45)))] {
        let mut line = 1;
        let older = Text::of(&text).without_events().bytes().len();
        for end in 0..text.len() {
            match read(&text[..end]) {
                Ok(_) => assert_eq!(end, older),
                Err(bad) => assert_eq!((bad, end == older), (line, false)),
            }
            line += u64::from(text[end] == b'\n');
        }
        assert!(read(&text).is_ok());
    }
}

#[test]
fn every_byte_at_every_place_of_some_lines() {
    // One byte put in, for all 256; what is good is written again as it was.
    let text = Text::fresh(B1K);
    for key in ["part", "reg1", "stage", "left", "evls", "debounce"] {
        let place = text.place(key);
        let start: usize = text.0[..place].iter().map(|line| line.len() + 1).sum();
        for at in 0..=text.0[place].len() {
            for byte in 0..=255 {
                let mut bytes = text.bytes();
                bytes.insert(start + at, byte);
                let found = judged(&bytes, &text);
                if !byte.is_ascii_digit() && byte != b'\n' {
                    assert_eq!(found, Some(place as u64 + 1), "{byte} at {at} of {key}");
                }
            }
        }
    }
}

#[test]
fn any_bytes_of_any_length() {
    let mut random = Random::new(46);
    for length in (0..300).chain([4_096, 100_000]) {
        let bytes: Vec<u8> = (0..length).map(|_| random.byte()).collect();
        assert_eq!(read(&bytes), Err(1));
        let some: Vec<u8> = (0..length).map(|_| random.pick(b"part=1\n,0")).collect();
        judged(&some, &Text::fresh(2));
    }
    for fill in *b"0159,=\n p\0\xFF" {
        let long = vec![fill; 1_000_000];
        assert_eq!(read(&long), Err(1));
        let head: &[u8] = b"part=1\nreg0=";
        assert_eq!(read(&[head, &long].concat()), Err(2));
        assert_eq!(read(&[head, &long, b"\n"].concat()), Err(2));
        assert_eq!(read(&[FRESH.as_bytes(), &long].concat()), Err(81));
        let older = Text::fresh(1).without_events().bytes();
        assert_eq!(read(&[&older[..], &long].concat()), Err(76));
    }
    // A number that is 0 or 1 in some count of bits.
    for n in ["256", "65536", "4294967296", "18446744073709551616"] {
        for key in ["power", "wel", "next", "reg0", "left", "divider"] {
            if key != "divider" || n != "256" {
                bad(&Text::fresh(1).with(key, n), key);
            }
        }
    }
    for n in ["18446744073709551615", "340282366920938463463374607431768211456"] {
        bad(&Text::fresh(1).with("delay", n), "delay");
    }
}

#[test]
fn signs_blanks_and_needless_zeros() {
    for line in [
        "",
        "0",
        "divider",
        "divider=",
        "divider =0",
        "divider= 0",
        "divider=0 ",
        " divider=0",
        "divider=00",
        "divider=01",
        "divider=+0",
        "divider=-0",
        "divider=-1",
        "divider=0,0",
        "divider=0,",
        "divider=,0",
        "divider==0",
        "divider:0",
        "Divider=0",
        "DIVIDER=0",
        "divide=0",
        "dividers=0",
        "divider=0x1",
        "divider=1.0",
        "divider=1e1",
        "divider=1_0",
        "divider=0\r",
        "divider=0\t",
        "divider=\0",
        "divider=0\0",
        "divider=٣",
        "startup=0",
        "divider0=0",
        "divider=32768",
        "divider=032767",
        "divider=000000000000000000000000000000",
    ] {
        let mut text = Text::fresh(1);
        let place = text.place("divider");
        text.0[place] = line.to_string();
        assert_eq!(read(&text.bytes()), Err(place as u64 + 1), "{line:?}");
    }
}

/// The answers of a tape that has answered some lines, to further ones.
fn fed(mut tape: Tape, bytes: &[u8]) -> (Vec<u8>, Tape) {
    let mut out = Vec::new();
    tape.feed(bytes, &mut out);
    tape.finish(&mut out);
    (out, tape)
}

/// Saved, loaded, and ready to go on.
fn resumed(tape: &Tape) -> Option<Tape> {
    let chip = tape.chip()?;
    let text = save(chip.part, &chip.device, &chip.eeprom, &chip.id, usize::MAX).unwrap();
    let again = load(&text, chip.eeprom.len(), 16).unwrap();
    assert_eq!(&again, chip);
    Some(Tape::with(again))
}

type Made = fn(u64, u64) -> Vec<u8>;

const MADE: [Made; 5] = [
    generate::tape,
    generate::power_tape,
    generate::latch_tape,
    generate::bits_tape,
    generate::events_tape,
];

#[test]
fn a_run_cut_in_two_at_every_line() {
    for made in MADE {
        for seed in 2..6 {
            let tape = made(seed, 90);
            let (whole, _) = fed(Tape::new(), &tape);
            let ends = (0..tape.len()).filter(|&k| tape[k] == b'\n');
            for end in ends.map(|k| k + 1) {
                let (first, tape_at_the_cut) = fed(Tape::new(), &tape[..end]);
                let Some(next) = resumed(&tape_at_the_cut) else { continue };
                let (second, _) = fed(next, &tape[end..]);
                assert!([first, second].concat() == whole, "seed {seed}, byte {end}");
            }
        }
    }
}

#[test]
fn a_run_resumed_after_every_line() {
    let mut met = [("a frame", 0), ("a cycle", 0), ("a frame in a cycle", 0), ("no power", 0)];
    for made in MADE {
        for seed in 10..18 {
            let tape = made(seed, 300);
            let (whole, _) = fed(Tape::new(), &tape);
            let mut state = Tape::new();
            let mut answers = Vec::new();
            for line in tape.split_inclusive(|&b| b == b'\n') {
                let (out, next) = fed(state, line);
                answers.extend(out);
                state = resumed(&next).unwrap_or(next);
                let Some(chip) = state.chip() else { continue };
                let d = &chip.device;
                let (frame, cycle) = (d.frame != Frame::Idle, d.countdown > 0);
                for (count, is_met) in met.iter_mut().zip([frame, cycle, frame && cycle, !d.power])
                {
                    count.1 += u64::from(is_met);
                }
            }
            assert!(answers == whole, "seed {seed}");
        }
    }
    assert!(met.iter().all(|&(_, count)| count > 100), "{met:?}");
}

#[test]
fn kept_tapes_resumed_at_every_line() {
    let folder = concat!(env!("CARGO_MANIFEST_DIR"), "/../crates/mcp795/data");
    for name in [
        "whole_case",
        "access_during_a_cycle",
        "cut_masks",
        "frames_begun_in_a_cycle",
        "half_bytes_of_the_moment",
        "id_unlock",
        "time_stamp_in_a_write_cycle",
        "watchdog_pulses",
        "drum_stood_still",
        "window_at_its_last_tick",
        "window_a_tick_too_long",
        "bounce_during_debounce",
        "events_on_the_battery",
        "levels_kept_over_a_cut",
    ] {
        let tape = std::fs::read(format!("{folder}/{name}.tape")).unwrap();
        let (whole, _) = fed(Tape::new(), &tape);
        let mut state = Tape::new();
        let mut answers = Vec::new();
        for line in tape.split_inclusive(|&b| b == b'\n') {
            let (out, next) = fed(state, line);
            answers.extend(out);
            state = resumed(&next).unwrap_or(next);
        }
        assert!(answers == whole, "{name}");
    }
}

#[test]
fn a_loaded_chip_has_its_part() {
    for part in 1..=4 {
        let state = Tape::with(good(&Text::fresh(part)));
        let (out, _) = fed(state, b"op=part arg=1\nop=select arg=0\nop=part arg=9\n");
        let second = "no=74 out=0 irq=1 wdo=1\n";
        assert_eq!(out, [second, "no=0 out=z irq=1 wdo=1\n", second].concat().as_bytes());
    }
}

#[test]
fn a_night_between() {
    // A page write that waits for its last ticks in the morning; a read that stands at its place.
    let mut rig = Rig::new(W1K);
    rig.eeprom_write(0x24, &[0xA1, 0xA2]);
    rig.wait(163);
    rig.select();
    rig.byte(0x05);
    let text = saved(&rig);
    for (key, line) in [("stage", "stage=3,5,0"), ("left", "left=1"), ("target", "target=0,36")] {
        assert_eq!(text.line(key), line);
    }
    let chip = good(&text);
    let mut rig = Rig { part: 1, device: chip.device, eeprom: chip.eeprom, id: chip.id.to_vec() };
    assert_eq!(rig.byte(0), Some(0b0000_0011));
    assert_eq!(rig.wait(100), 1);
    assert_eq!(rig.byte(0), Some(0));
    rig.end(0);
    assert_eq!(rig.frame(&[0x03, 0x24, 0, 0])[2..], [Some(0xA1), Some(0xA2)]);
    // Texts by hand: an IDWRITE that has its data and wants its end, WEL set and the lock open.
    let text = Text::fresh(2)
        .with("wel", "1")
        .with("lock", "2")
        .with("stage", "5,2,9")
        .with("offsets", "6")
        .with("load", "99,17,18,99,99,99,99,99")
        .with("next", "3");
    let chip = good(&text);
    let mut rig = Rig { part: 2, device: chip.device, eeprom: chip.eeprom, id: chip.id.to_vec() };
    rig.byte(19);
    rig.end(0);
    assert_eq!(rig.wait(500), 164);
    assert_eq!(rig.id[8..], [255, 17, 18, 19, 255, 255, 255, 255]);
}

#[test]
fn what_plain_drops_cannot_be_told() {
    // Any acts are answered alike, and leave chips that are alike in the same sense.
    let mut random = Random::new(47);
    let (mut changed, mut stored) = (0, 0);
    for _ in 0..1_500 {
        let mut chip = chip(&mut random);
        let mut other = plain(&chip);
        assert_eq!(plain(&other), other);
        assert!(!out_of_range(other.part, &other.device));
        changed += u64::from(other != chip);
        let memories = |chip: &Chip| (chip.eeprom.clone(), chip.id);
        let before = memories(&chip);
        for _ in 0..40 {
            let byte = match random.below(3) {
                0 => random.below(256),
                _ => u64::from(random.pick(&CODES)),
            };
            let leftover = random.below(8);
            let (act, number) = random.pick(&[
                (Act::Select, 0),
                (Act::Byte, byte),
                (Act::Byte, byte),
                (Act::Byte, byte),
                (Act::End, 0),
                (Act::End, leftover),
                (Act::Wait, 200),
                (Act::Wait, 3),
                (Act::Cut, byte),
                (Act::Up, 0),
                (Act::Evls, leftover & 1),
                (Act::Evhs, leftover & 1),
            ]);
            if act == Act::Cut && !random.once_in(4) {
                continue;
            }
            assert_eq!(chip.perform(act, number), other.perform(act, number));
            assert_eq!(plain(&chip), plain(&other));
        }
        stored += u64::from(memories(&chip) != before);
    }
    assert!(changed > 1_000 && stored > 100, "{changed} changed, {stored} stored");
}

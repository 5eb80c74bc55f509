//! Random runs of acts, spoiled states and spoiled texts, through the C interface and through the model. The first difference ends
//! it, with words that tell where.

use crate::library::{self, ANSWER, STATE};
use crate::ACTS;
use model::chip::{self, lengths_fit, part_exists};
use model::generate::{self, Random};
use model::saved;
use model::tape::{parse, Op};

const LINES: u64 = 300;
const TAPES: [fn(u64, u64) -> Vec<u8>; 5] =
    [generate::tape, generate::power_tape, generate::latch_tape, generate::bits_tape, generate::events_tape];

/// Spoiled states and texts for each run of acts.
const STATES: u64 = 50;
const TEXTS: u64 = 20;

/// Where a state has its counts, each of three bytes. From the first of them on there is no register and no SRAM.
const COUNTS: [usize; 7] = [97, 100, 103, 106, 109, 136, 139];

/// Where it has 0Bh, and from where on the event inputs.
const EVENT_DETECT: usize = 1 + 0x0B;
const EVENTS: usize = 133;

#[derive(Default)]
struct Totals {
    acts: u64,
    refused: u64,
    bad_states: u64,
    bad_texts: u64,
}

/// `runs` runs from this seed; the line that tells how it went.
pub fn compare(runs: u64, first: u64) -> Result<String, String> {
    let mut totals = Totals::default();
    for k in 0..runs {
        let seed = first.wrapping_add(k);
        let mut random = Random::new(seed ^ 0x5EED);
        // The seed chooses the part, so the kind of the tape goes on only after each part had its turn.
        let tape = TAPES[(seed / 4 % 5) as usize](seed, LINES);
        run(&tape, &mut random, &mut totals).map_err(|why| format!("seed {seed}: {why}"))?;
        for _ in 0..STATES {
            spoiled_state(&mut random, &mut totals).map_err(|why| format!("seed {seed}: {why}"))?;
        }
        for index in 0..TEXTS {
            let text = generate::saved_text(seed, random.below(1 << 20) + index);
            spoiled_text(&text, &mut random, &mut totals).map_err(|why| format!("seed {seed}: {why}"))?;
        }
    }
    let Totals { acts, refused, bad_states, bad_texts } = totals;
    let (states, texts) = (runs * STATES, runs * TEXTS);
    Ok(format!(
        "{runs} runs, {acts} acts, {refused} of them refused; {states} states, {bad_states} of them refused; \
         {texts} texts, {bad_texts} of them refused; no difference"
    ))
}

/// The same chip on both sides.
struct Both {
    library: library::Chip,
    model: chip::Chip,
}

fn levels(model: &chip::Chip) -> [u64; 2] {
    [model.device.irq().into(), model.device.wdo().into()]
}

/// What the interface is to answer to an act, by the model; the model's chip after it.
fn expected(model: &mut chip::Chip, act: u64, number: u64) -> [u64; ANSWER] {
    let known = usize::try_from(act).ok().and_then(|code| ACTS.get(code));
    let (number, reply, count) = match known {
        Some(&act) => {
            let answer = model.perform(act, number);
            (answer.number, answer.reply, answer.count)
        }
        None => (3, None, 0),
    };
    let [irq, wdo] = levels(model);
    [number, reply.is_some().into(), reply.unwrap_or(0).into(), count, irq, wdo]
}

impl Both {
    fn fresh(part: u64) -> Result<Both, String> {
        let model = chip::Chip::fresh(part);
        let mut library = library::Chip::blank(model.eeprom.len(), model.id.len());
        match library.renew(part) {
            0 => Ok(Both { library, model }),
            refusal => Err(format!("a fresh part {part} is refused by {refusal}")),
        }
    }

    fn act(&mut self, act: u64, number: u64) -> Result<[u64; ANSWER], String> {
        let before = self.library.clone();
        let found = self.library.act(act, number);
        let expected = expected(&mut self.model, act, number);
        if found != expected {
            return Err(format!("act {act}, number {number}: the library answers {found:?}, the model {expected:?}"));
        }
        if self.library.eeprom != self.model.eeprom || self.library.id != self.model.id {
            return Err(format!("act {act}, number {number}: the memories differ"));
        }
        if found[0] != 0 && self.library != before {
            return Err(format!("act {act}, number {number}: refused by {}, and something changed", found[0]));
        }
        Ok(found)
    }

    /// The states mean the same, the array has the text's numbers, and what is saved is loaded as it was.
    fn same_state(&self) -> Result<(), String> {
        let text = self.library.text().map_err(|refusal| format!("saving is refused by {refusal}"))?;
        if text_with(&text, &self.library) != text {
            return Err("the arrays have other numbers than their text".to_string());
        }
        let read = saved::read(&text).map_err(|line| format!("the model refuses the saved text, line {line}"))?;
        if saved::plain(&read) != saved::plain(&self.model) {
            return Err("the states differ".to_string());
        }
        let mut back = library::Chip::blank(self.library.eeprom.len(), self.library.id.len());
        match back.load(&text) {
            (0, 0) if back == self.library => Ok(()),
            (0, 0) => Err("what was saved is loaded as something else".to_string()),
            verdict => Err(format!("loading what was saved answers {verdict:?}")),
        }
    }
}

/// The acts that a tape's lines name, and some that no line can.
fn run(tape: &[u8], random: &mut Random, totals: &mut Totals) -> Result<(), String> {
    let mut both = None;
    for (number, line) in tape.split(|&b| b == b'\n').enumerate() {
        let asked = parse(line);
        let Some(both) = &mut both else {
            if let Ok((Op::Part, part)) = asked {
                let mut none = library::Chip::blank(256, 16);
                if part_exists(part) {
                    both = Some(Both::fresh(part)?);
                } else if none.renew(part) != 3 || none != library::Chip::blank(256, 16) {
                    return Err(format!("part {part} is not refused by 3, or something changed"));
                }
            }
            continue;
        };
        let mut acts = Vec::new();
        if let Ok((Op::Do(act), argument)) = asked {
            acts.push((ACTS.iter().position(|&a| a == act).expect("an act") as u64, argument));
        }
        if random.once_in(20) {
            acts.push(odd_act(random));
        }
        for (act, argument) in acts {
            let answer = both.act(act, argument).map_err(|why| format!("line {}: {why}", number + 1))?;
            totals.acts += 1;
            totals.refused += u64::from(answer[0] != 0);
        }
        if random.once_in(40) {
            both.same_state().map_err(|why| format!("after line {}: {why}", number + 1))?;
            wrong_sizes(both, random).map_err(|why| format!("after line {}: {why}", number + 1))?;
        }
    }
    match both {
        Some(both) => both.same_state().map_err(|why| format!("at the end: {why}")),
        None => Ok(()),
    }
}

/// An act or a number that no line of a tape has. A wait is short, or longer than allowed.
fn odd_act(random: &mut Random) -> (u64, u64) {
    let act = match random.below(3) {
        0 => random.pick(&[8, 9, 255, 256, 257, 1 << 32, (1 << 32) + 3, (1 << 32) + 6, 1 << 63, u64::MAX]),
        _ => random.below(8),
    };
    let number = match random.below(3) {
        0 => random.below(9),
        1 => random.pick(&[254, 255, 256, 257, 16_777_217, 1 << 32, (1 << 32) + 1, 1 << 63, u64::MAX]),
        _ => random.next() | 1 << 25,
    };
    (act, number)
}

/// What an act on these arrays, and a save of them, is refused by before the numbers in them are judged: 3, 4, or 6 for the size.
fn sizes_refused(chip: &library::Chip) -> u64 {
    let part = chip.state.first().map_or(0, |&byte| byte.into());
    if !part_exists(part) {
        3
    } else if !lengths_fit(part, chip.eeprom.len(), chip.id.len()) {
        4
    } else if chip.state.len() != STATE {
        6
    } else {
        0
    }
}

/// A size of a state that is not its own.
fn odd_size(random: &mut Random) -> usize {
    random.pick(&[0, 1, 2, 96, 97, 123, EVENTS, STATE - 1, STATE + 1, 256, 984])
}

/// Arrays of other sizes are refused, whatever the act.
fn wrong_sizes(both: &Both, random: &mut Random) -> Result<(), String> {
    let mut chip = both.library.clone();
    let text = chip.text().map_err(|refusal| format!("saving is refused by {refusal}"))?;
    let state = if random.once_in(2) { odd_size(random) } else { STATE };
    let eeprom = random.pick(&[0, 16, 127, 128, 128, 129, 255, 256, 256, 257]);
    let id = random.pick(&[0, 15, 16, 16, 16, 17, 128]);
    chip.state.resize(state, 0x5A);
    chip.eeprom.resize(eeprom, 0x5A);
    chip.id.resize(id, 0x5A);
    let refusal = sizes_refused(&chip);
    if refusal == 0 {
        return Ok(());
    }
    let before = chip.clone();
    let (act, number) = odd_act(random);
    let (answer, saved, made, loaded) = (chip.act(act, number), chip.text(), chip.renew(both.model.part), chip.load(&text));
    let fits = lengths_fit(both.model.part, eeprom, id);
    let expected = ([refusal, 0, 0, 0, 1, 1], Err(refusal), if fits { 6 } else { 4 }, (if state == STATE { 4 } else { 6 }, 0));
    if (answer, saved.clone(), made, loaded) != expected || chip != before {
        let told = format!("an act answers {answer:?}, save {saved:?}, new {made}, load {loaded:?}");
        return Err(format!("arrays of {state}, {eeprom} and {id} bytes: {told}, or something changed"));
    }
    Ok(())
}

/// The numbers of a state: one for each byte, and for the three of a count.
fn numbers_of(state: &[u8]) -> Vec<u64> {
    let mut numbers = Vec::new();
    let mut at = 0;
    while at < state.len() {
        let width = if COUNTS.contains(&at) { 3 } else { 1 };
        numbers.push(state[at..at + width].iter().rev().fold(0, |n, &byte| n << 8 | u64::from(byte)));
        at += width;
    }
    numbers
}

/// The text with the numbers of these arrays, good or not. Its keys are those of another text, but for the memories'.
fn text_with(keys: &[u8], chip: &library::Chip) -> Vec<u8> {
    let mut made = String::new();
    let mut put = |key: &str, words: Vec<String>| made += &format!("{key}={}\n", words.join(","));
    let mut numbers = numbers_of(&chip.state).into_iter();
    for line in std::str::from_utf8(keys).expect("a saved text").lines() {
        let (key, words) = line.split_once('=').expect("a line");
        if key == "ee0" {
            for (key, memory) in [("ee", &chip.eeprom), ("id", &chip.id)] {
                for (k, bytes) in memory.chunks(8).enumerate() {
                    put(&format!("{key}{k}"), bytes.iter().map(u8::to_string).collect());
                }
            }
        } else if !key.starts_with("ee") && !key.starts_with("id") {
            let count = words.split(',').count();
            put(key, numbers.by_ref().take(count).map(|n| n.to_string()).collect());
        }
    }
    assert_eq!(numbers.len(), 0, "a state has the numbers of a text");
    made.into_bytes()
}

/// A byte that stands at or past a limit, near what was there, or anywhere.
fn odd_byte(random: &mut Random, was: u8) -> u8 {
    const EDGES: [u8; 26] = [
        0, 1, 2, 3, 4, 5, 6, 7, 8, 9, 15, 16, 17, 31, 32, 33, 63, 64, 127, 128, 129, 163, 164, 165, 254, 255,
    ];
    match random.below(6) {
        0 | 1 => random.pick(&EDGES),
        2 => was.wrapping_add(1),
        3 => was.wrapping_sub(1),
        4 => was ^ 1 << random.below(8),
        _ => random.byte(),
    }
}

/// The same for a count, of which the low three bytes are taken.
fn odd_count(random: &mut Random) -> u64 {
    const EDGES: [u64; 15] = [
        0, 32, 512, 1_024, 2_048, 4_096, 8_192, 16_384, 32_768, 65_536, 524_288, 1_048_576, 2_097_152, 1 << 22, 1 << 24,
    ];
    match random.below(3) {
        0 => random.pick(&EDGES).wrapping_add(random.below(3)).wrapping_sub(1),
        1 => random.next() >> random.below(64),
        _ => random.below(33),
    }
}

/// A place of a state from `first` on, or once in a while this other one.
fn place_from(random: &mut Random, first: usize, other: usize) -> usize {
    let place = random.below((STATE - first) as u64 + 1) as usize;
    if place == 0 {
        other
    } else {
        first + place - 1
    }
}

/// Changes a few bytes of a state: anywhere, or those that are not register or SRAM, or the event inputs', or a count as a whole; seldom
/// all of these.
fn spoil(random: &mut Random, state: &mut [u8]) {
    let all = random.once_in(50);
    for _ in 0..if all { 40 } else { 1 + random.below(3) } {
        let place = match random.below(5) {
            0 => {
                let place = random.pick(&COUNTS);
                state[place..place + 3].copy_from_slice(&odd_count(random).to_le_bytes()[..3]);
                continue;
            }
            1 | 2 => place_from(random, COUNTS[0], 0),
            3 => place_from(random, EVENTS, EVENT_DETECT),
            _ => random.below(STATE as u64) as usize,
        };
        state[place] = odd_byte(random, state[place]);
    }
}

/// A chip in range with a few bytes changed: the interface's verdict is the model's, and where it is a chip the next act is too. The
/// model judges the text that has the arrays' numbers.
fn spoiled_state(random: &mut Random, totals: &mut Totals) -> Result<(), String> {
    let whole = generate::chip(random);
    let text = generate::text_of(&whole);
    let mut library = library::Chip::blank(whole.eeprom.len(), whole.id.len());
    if library.load(&text) != (0, 0) {
        return Err("a text of a chip in range is refused".to_string());
    }
    if text_with(&text, &library) != text {
        return Err("a text is loaded as other numbers".to_string());
    }
    let good = library.state.clone();
    spoil(random, &mut library.state);
    let changed: Vec<(usize, u8)> = (0..STATE).filter(|&k| library.state[k] != good[k]).map(|k| (k, library.state[k])).collect();
    if random.once_in(10) {
        library.eeprom.resize(random.pick(&[0, 127, 128, 129, 255, 256, 257]), 0x5A);
    }
    if random.once_in(20) {
        library.state.resize(odd_size(random), 0);
    }
    let judged = match sizes_refused(&library) {
        0 => saved::read(&text_with(&text, &library)).map_err(|_| 6),
        refusal => Err(refusal),
    };
    // No long wait: the model goes tick by tick.
    let (act, number) = match random.below(4) {
        0 => (3, random.below(2_000)),
        1 => (random.below(3), random.below(8)),
        2 => (6 + random.below(2), random.below(3)),
        _ => odd_act(random),
    };
    let size = library.state.len();
    let told = |why: String| format!("state of {size} bytes with {changed:?}, act {act}, number {number}: {why}");
    match judged {
        Err(refusal) => {
            totals.bad_states += 1;
            let before = library.clone();
            let (answer, saved) = (library.act(act, number), library.text());
            if answer != [refusal, 0, 0, 0, 1, 1] || saved != Err(refusal) {
                return Err(told(format!("to be refused by {refusal}; answered {answer:?}, saved {saved:?}")));
            }
            if library != before {
                return Err(told("refused, and something changed".to_string()));
            }
        }
        Ok(model) => {
            let mut both = Both { library, model };
            both.same_state().map_err(told)?;
            both.act(act, number).map_err(told)?;
            both.same_state().map_err(told)?;
        }
    }
    Ok(())
}

/// A text, most often a bad one, for memories that are mostly its own.
fn spoiled_text(text: &[u8], random: &mut Random, totals: &mut Totals) -> Result<(), String> {
    let eeprom = random.pick(&[128, 256]);
    let id = random.pick(&[16, 16, 16, 15]);
    let before = library::Chip::blank(eeprom, id);
    let mut chip = before.clone();
    let shown = || String::from_utf8_lossy(text).into_owned();
    if random.once_in(10) {
        let mut chip = before.clone();
        chip.state.resize(odd_size(random), 0x5A);
        let (before, found) = (chip.clone(), chip.load(text));
        if found != (6, 0) || chip != before {
            let size = chip.state.len();
            return Err(format!("loading into a state of {size} bytes answers {found:?}, or something changed: {}", shown()));
        }
    }
    let found = chip.load(text);
    match saved::load(text, eeprom, id) {
        Err(refused) => {
            totals.bad_texts += 1;
            if found != (refused.number, refused.line) || chip != before {
                return Err(format!("loading answers {found:?}, the model {refused:?}, or something changed: {}", shown()));
            }
        }
        Ok(model) => {
            // An older text is written back with the lines that it lacks.
            let text = generate::text_of(&model);
            if found != (0, 0) || chip.text().as_ref() != Ok(&text) {
                return Err(format!("loading answers {found:?}, or it is saved as something else: {}", shown()));
            }
            let short = text.len() - 1 - random.below(text.len() as u64) as usize;
            let mut room = vec![0x5A; short];
            if chip.save(&mut room) != Err(8) || room.iter().any(|&b| b != 0x5A) {
                return Err(format!("{short} bytes of room are not refused by 8, or were written to"));
            }
        }
    }
    Ok(())
}

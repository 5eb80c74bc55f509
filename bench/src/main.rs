//! The proved chip beside the model: the same acts through both, answers compared, times as ratios.
mod library;

use model::chip::{perform, Chip, Device};
use model::generate::{chip, text_of, Random};
use model::Act;
use std::time::{Duration, Instant};

extern "C" {
    // A slice passes as a pointer and a length. crates/batch: `tekuravy_run`.
    fn tekuravy_run(
        part: u64,
        codes: *const u8,
        codes_len: usize,
        numbers: *const u64,
        numbers_len: usize,
        answers: *mut u8,
        answers_len: usize,
        used: *mut u64,
        used_len: usize,
        eeprom: *mut u8,
        eeprom_len: usize,
        id: *mut u8,
        id_len: usize,
    ) -> u64;
}

const ACTS: [Act; 8] = Act::ALL;

struct Answers {
    numbers: Vec<u8>,
    used: Vec<u64>,
    eeprom: Vec<u8>,
    id: Vec<u8>,
}

fn proved(part: u64, codes: &[u8], numbers: &[u64]) -> (Answers, Duration) {
    let size = if part % 2 == 1 { 128 } else { 256 };
    let mut a = Answers {
        numbers: vec![0; codes.len()],
        used: vec![0; codes.len()],
        eeprom: vec![0; size],
        id: vec![0; 16],
    };
    let start = Instant::now();
    let done = unsafe {
        tekuravy_run(
            part,
            codes.as_ptr(),
            codes.len(),
            numbers.as_ptr(),
            numbers.len(),
            a.numbers.as_mut_ptr(),
            a.numbers.len(),
            a.used.as_mut_ptr(),
            a.used.len(),
            a.eeprom.as_mut_ptr(),
            a.eeprom.len(),
            a.id.as_mut_ptr(),
            a.id.len(),
        )
    };
    let time = start.elapsed();
    assert_eq!(done as usize, codes.len(), "the proved chip performed another number of acts");
    (a, time)
}

fn modelled(part: u64, codes: &[u8], numbers: &[u64]) -> (Answers, Duration) {
    let size = if part % 2 == 1 { 128 } else { 256 };
    let mut a = Answers {
        numbers: vec![0; codes.len()],
        used: vec![0; codes.len()],
        eeprom: vec![0xff; size],
        id: vec![0xff; 16],
    };
    let mut device = Device::fresh();
    let start = Instant::now();
    for i in 0..codes.len() {
        let act = ACTS[codes[i] as usize];
        let answer = perform(part, act, numbers[i], &mut device, &mut a.eeprom, &mut a.id);
        a.numbers[i] = answer.number as u8;
        if codes[i] == 3 {
            a.used[i] = answer.count;
        }
    }
    (a, start.elapsed())
}

// An argument picks the cases whose name has it.
fn picked(name: &str) -> bool {
    std::env::args().nth(1).is_none_or(|word| name.contains(&word))
}

// The times of both for one of `per`, and their ratio.
fn tell(name: &str, per: usize, best: [Duration; 2]) {
    let [proved, model] = best.map(|time| time.as_nanos() as f64 / per as f64);
    println!("{name}: proved {proved:.2} ns, model {model:.2} ns, ratio {:.3}", proved / model);
}

fn compare(name: &str, per: usize, part: u64, acts: &[(u8, u64)]) {
    if !picked(name) {
        return;
    }
    let codes: Vec<u8> = acts.iter().map(|a| a.0).collect();
    let numbers: Vec<u64> = acts.iter().map(|a| a.1).collect();
    let mut best = [Duration::MAX; 2];
    for _ in 0..5 {
        let (p, tp) = proved(part, &codes, &numbers);
        let (m, tm) = modelled(part, &codes, &numbers);
        assert!(p.numbers == m.numbers && p.used == m.used && p.eeprom == m.eeprom && p.id == m.id, "{name}: the copies differ");
        best = [best[0].min(tp), best[1].min(tm)];
    }
    tell(name, per, best);
}

// The acts of `opening`, then a million bytes, each an act of its own: through the C interface, and through the model, a thousand at a time. The
// answers stay where they were written, and are compared while no clock runs.
fn interface(name: &str, part: u64, opening: &[(u64, u64)]) {
    const TURNS: usize = 1_000;
    const BYTES: usize = 1_000;
    if !picked(name) {
        return;
    }
    let mut best = [Duration::MAX; 2];
    for _ in 0..5 {
        let mut m = Chip::fresh(part);
        let mut p = library::Chip::blank(m.eeprom.len(), m.id.len());
        assert_eq!(p.renew(part), 0);
        for &(act, number) in opening {
            assert_eq!(p.act(act, number)[0], 0);
            assert_eq!(m.perform(ACTS[act as usize], number).number, 0);
        }
        let mut answers = vec![[1; library::ANSWER]; BYTES];
        let mut modelled = vec![None; BYTES];
        let mut took = [Duration::ZERO; 2];
        for _ in 0..TURNS {
            let start = Instant::now();
            for answer in &mut answers {
                p.act_into(1, 0, answer);
            }
            took[0] += start.elapsed();
            let start = Instant::now();
            for answer in &mut modelled {
                *answer = Some(m.perform(Act::Byte, 0));
            }
            took[1] += start.elapsed();
            let same = answers.iter().zip(&modelled).all(|(p, m)| {
                let m = m.expect("an answer");
                p[..4] == [m.number, m.reply.is_some().into(), m.reply.unwrap_or(0).into(), m.count]
            });
            assert!(same && p.eeprom == m.eeprom && p.id == m.id, "{name}: the copies differ");
        }
        best = [best[0].min(took[0]), best[1].min(took[1])];
    }
    tell(name, TURNS * BYTES, best);
}

// The best of five times of a thousand turns, for one turn.
fn timed(mut turn: impl FnMut()) -> Duration {
    let mut best = Duration::MAX;
    for _ in 0..5 {
        let start = Instant::now();
        for _ in 0..1000 {
            turn();
        }
        best = best.min(start.elapsed());
    }
    best / 1000
}

fn saved_chip() {
    let name = "load and save of a chip of 2 Kbit";
    if !picked(name) {
        return;
    }
    let mut random = Random::new(4);
    let chip = std::iter::repeat_with(|| chip(&mut random)).find(|c| c.part % 2 == 0).unwrap();
    let text = text_of(&chip);
    let mut proved = library::Chip::blank(256, 16);
    let mut room = vec![0u8; library::TEXT_MAX];
    assert_eq!(proved.load(&text), (0, 0), "{name}: the copies differ");
    assert_eq!(proved.text(), Ok(text.clone()), "{name}: the copies differ");
    let load = timed(|| assert_eq!(proved.load(&text), (0, 0)));
    let save = timed(|| assert_eq!(proved.save(&mut room), Ok(text.len())));
    let model_load = timed(|| assert!(model::saved::load(&text, 256, 16).is_ok()));
    let model_save = timed(|| {
        let saved = model::saved::save(chip.part, &chip.device, &chip.eeprom, &chip.id, library::TEXT_MAX);
        assert_eq!(saved.unwrap().len(), text.len());
    });
    let line = |what: &str, p: Duration, m: Duration| {
        println!("{what} of a chip of 2 Kbit: proved {:.2} us, model {:.2} us, ratio {:.3}", p.as_secs_f64() * 1e6, m.as_secs_f64() * 1e6, p.as_secs_f64() / m.as_secs_f64())
    };
    line("load", load, model_load);
    line("save", save, model_save);
}

fn frame(bytes: &[u64]) -> Vec<(u8, u64)> {
    let mut acts = vec![(0, 0)];
    acts.extend(bytes.iter().map(|b| (1, *b)));
    acts.push((2, 0));
    acts
}

fn main() {
    let start = frame(&[0x12, 0x01, 0x80]);
    let mut long = start.clone();
    long.extend([(3, 16_777_216u64); 4]);
    compare("a tick of a long wait, clock running", 4 * 16_777_216, 1, &long);
    let mut idle: Vec<(u8, u64)> = Vec::new();
    idle.extend([(3, 16_777_216u64); 4]);
    compare("a tick of a long wait, oscillator off", 4 * 16_777_216, 1, &idle);
    let mut short = start.clone();
    short.extend(vec![(3, 1u64); 1_000_000]);
    compare("a wait of one tick", 1_000_000, 1, &short);
    let mut read = vec![(0, 0), (1, 0x13), (1, 0x00)];
    read.extend(vec![(1, 0u64); 1_000_000]);
    compare("a byte of a READ", 1_000_000, 2, &read);
    let mut writes = Vec::new();
    for i in 0..20_000u64 {
        writes.extend(frame(&[0x06]));
        writes.extend(frame(&[0x02, i % 256, i % 251, i % 241]));
        writes.push((3, 200));
    }
    let n = writes.len();
    compare("an act of enabled page writes", n, 2, &writes);
    interface("a byte act of a READ through the C interface", 2, &[(0, 0), (1, 0x13), (1, 0x00)]);
    interface("a byte act of an EEREAD through the C interface", 2, &[(0, 0), (1, 0x03), (1, 0x00)]);
    saved_chip();
}

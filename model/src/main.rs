//! `model` answers the tape on standard input, `model FILE...` each file in turn, each starting
//! without a part. `model --load CHIP TAPE` goes on with a saved chip, `model --save CHIP TAPE` saves
//! the chip after the last line; both may stand, and standard input for the tape.
//! `model --generate SEED LINES` writes a random tape, and so do `model --generate-power SEED LINES`,
//! one whose power fails often, `model --generate-latch SEED LINES`, one with writes that come to
//! nothing, `model --generate-bits SEED LINES`, one with reads that CS breaks off in the middle of a
//! byte, `model --generate-events SEED LINES`, one with edges at the event inputs, and `model
//! --generate-lines SEED LINES`, one of bad lines. `model --texts FOLDER COUNT SEED` writes saved
//! texts, most of them spoiled, `model --judge FILE...` says of each which line is bad, and `model
//! --plain FILE` writes a saved chip without what no act can tell.
//! `model --diff A B` lists what differs between two saved chips; its exit status is 0 for none, 1
//! for some, 2 for anything else. `model --pairs FOLDER COUNT SEED` writes pairs of saved texts, and
//! `model --diff-pairs ROOM FIRST SECOND...` compares pair after pair: a line with the number, the
//! text that was refused, its line, how many numbers differ and how many bytes are listed, and then
//! what of the listing has room in so many bytes.

use std::ffi::{OsStr, OsString};
use std::fs::{self, File, OpenOptions};
use std::io::{self, Read, Write};
use std::path::Path;
use std::process::ExitCode;

use model::chip::Chip;
use model::differ;
use model::generate;
use model::saved;
use model::tape::Tape;

/// Makes a tape of seed and lines.
type Generator = fn(u64, u64) -> Vec<u8>;

const GENERATORS: [(&str, Generator); 6] = [
    ("--generate", generate::tape),
    ("--generate-power", generate::power_tape),
    ("--generate-latch", generate::latch_tape),
    ("--generate-bits", generate::bits_tape),
    ("--generate-events", generate::events_tape),
    ("--generate-lines", generate::lines_tape),
];

/// Answers all lines that have arrived before it reads on. Gives the tape at its end.
fn run(mut tape: Tape, mut input: impl Read, output: &mut impl Write) -> io::Result<Tape> {
    let mut chunk = vec![0; 1 << 16];
    let mut answers = Vec::new();
    loop {
        let count = input.read(&mut chunk)?;
        if count == 0 {
            tape.finish(&mut answers);
        } else {
            tape.feed(&chunk[..count], &mut answers);
        }
        output.write_all(&answers)?;
        output.flush()?;
        answers.clear();
        if count == 0 {
            return Ok(tape);
        }
    }
}

/// The numbers after an option.
fn numbers<const N: usize>(words: &[OsString]) -> Option<[u64; N]> {
    let words: &[OsString; N] = words.try_into().ok()?;
    let mut numbers = [0; N];
    for (number, word) in numbers.iter_mut().zip(words) {
        *number = word.to_str()?.parse().ok()?;
    }
    Some(numbers)
}

fn tell(name: &OsStr, what: impl std::fmt::Display) -> ExitCode {
    eprintln!("model: {}: {what}", name.to_string_lossy());
    ExitCode::FAILURE
}

fn wrong_use(of: &str) -> ExitCode {
    eprintln!("use: model {of}");
    ExitCode::FAILURE
}

fn print(bytes: &[u8]) -> ExitCode {
    match io::stdout().write_all(bytes) {
        Ok(()) => ExitCode::SUCCESS,
        Err(error) => tell(OsStr::new("standard output"), error),
    }
}

fn write_tape(option: &str, generator: Generator, words: &[OsString]) -> ExitCode {
    match numbers(words) {
        Some([seed, lines]) => print(&generator(seed, lines)),
        None => wrong_use(&format!("{option} SEED LINES")),
    }
}

/// The words of `--texts` and `--pairs`: a folder, how many, and a seed.
fn folder_of(words: &[OsString]) -> Option<(&Path, [u64; 2])> {
    let (folder, rest) = words.split_first()?;
    Some((Path::new(folder), numbers(rest)?))
}

/// `--texts FOLDER COUNT SEED`: 0001.txt and so on.
fn write_texts(words: &[OsString]) -> ExitCode {
    let Some((folder, [count, seed])) = folder_of(words) else {
        return wrong_use("--texts FOLDER COUNT SEED");
    };
    for k in 1..=count {
        let name = folder.join(format!("{k:04}.txt"));
        if let Err(error) = fs::write(&name, generate::saved_text(seed, k - 1)) {
            return tell(name.as_os_str(), error);
        }
    }
    ExitCode::SUCCESS
}

/// `--pairs FOLDER COUNT SEED`: 0001.a and 0001.b, and so on.
fn write_pairs(words: &[OsString]) -> ExitCode {
    let Some((folder, [count, seed])) = folder_of(words) else {
        return wrong_use("--pairs FOLDER COUNT SEED");
    };
    for k in 1..=count {
        for (letter, text) in ["a", "b"].iter().zip(generate::saved_pair(seed, k - 1)) {
            let name = folder.join(format!("{k:04}.{letter}"));
            if let Err(error) = fs::write(&name, text) {
                return tell(name.as_os_str(), error);
            }
        }
    }
    ExitCode::SUCCESS
}

/// `--judge FILE...`: a line for each, its name, 0 or 8, and the first bad line.
fn judge(words: &[OsString]) -> ExitCode {
    let mut status = ExitCode::SUCCESS;
    let mut verdicts = Vec::new();
    for name in words {
        let (number, line) = match fs::read(name).map(|text| saved::read(&text)) {
            Ok(Ok(_)) => (0, 0),
            Ok(Err(line)) => (8, line),
            Err(error) => {
                status = tell(name, error);
                continue;
            }
        };
        verdicts.extend(name.as_encoded_bytes());
        verdicts.extend(format!(" {number} {line}\n").bytes());
    }
    let printed = print(&verdicts);
    if printed == ExitCode::SUCCESS {
        status
    } else {
        printed
    }
}

/// `--plain FILE`.
fn plain(words: &[OsString]) -> ExitCode {
    let [name] = words else { return wrong_use("--plain FILE") };
    match load(name).and_then(|chip| text_of(&saved::plain(&chip))) {
        Ok(text) => print(&text),
        Err(why) => tell(name, why),
    }
}

fn refused(by: saved::Refused) -> String {
    match by.line {
        0 => format!("refused by {}", by.number),
        line => format!("refused by {}, line {line}", by.number),
    }
}

/// The memories are made as the file has them, so 4 cannot come.
fn load(name: &OsStr) -> Result<Chip, String> {
    let text = fs::read(name).map_err(|error| error.to_string())?;
    saved::read(&text).map_err(|line| refused(saved::Refused { number: 8, line }))
}

fn text_of(chip: &Chip) -> Result<Vec<u8>, String> {
    saved::save(chip.part, &chip.device, &chip.eeprom, &chip.id, usize::MAX).map_err(refused)
}

/// Writes a new file beside it, and gives that the name.
fn save(name: &OsStr, chip: &Chip) -> Result<(), String> {
    let text = text_of(chip)?;
    let mut beside = name.to_os_string();
    beside.push(format!(".{}.new", std::process::id()));
    let written = OpenOptions::new()
        .write(true)
        .create_new(true)
        .open(&beside)
        .and_then(|mut file| file.write_all(&text))
        .and_then(|()| fs::rename(&beside, name));
    written.map_err(|error| {
        let _ = fs::remove_file(&beside);
        error.to_string()
    })
}

/// `--diff A B`.
fn diff(words: &[OsString]) -> ExitCode {
    ExitCode::from(match list_differences(words) {
        Some(0) => 0,
        Some(_) => 1,
        None => 2,
    })
}

/// Gives how many there are, or none after it told what is wrong.
fn list_differences(words: &[OsString]) -> Option<usize> {
    let [first, second] = words else {
        wrong_use("--diff A B");
        return None;
    };
    let loaded = |name| load(name).map_err(|why| tell(name, why)).ok();
    let (first, second) = (loaded(first)?, loaded(second)?);
    let lines = differ::differences(&first, &second);
    if print(lines.concat().as_bytes()) != ExitCode::SUCCESS {
        return None;
    }
    eprintln!("model: {} differ, both files are good", lines.len());
    Some(lines.len())
}

/// `--diff-pairs ROOM FIRST SECOND...`.
fn diff_pairs(words: &[OsString]) -> ExitCode {
    let (room, names) = words.split_at(words.len().min(1));
    let (Some([room]), [_, _, ..], 0) = (numbers(room), names, names.len() % 2) else {
        return wrong_use("--diff-pairs ROOM FIRST SECOND...");
    };
    let room = usize::try_from(room).unwrap_or(usize::MAX);
    let read = |name: &OsString| fs::read(name).map_err(|error| tell(name, error));
    let texts: Vec<Vec<u8>> = match names.iter().map(read).collect() {
        Ok(texts) => texts,
        Err(status) => return status,
    };
    let mut output = Vec::new();
    for pair in texts.chunks(2) {
        let differ::Compared { number, text, line, count, listing } =
            differ::compare(&pair[0], &pair[1], room);
        output.extend(format!("{number} {text} {line} {count} {}\n", listing.len()).bytes());
        output.extend(listing);
    }
    print(&output)
}

const USE_OF_CHIPS: &str = "[--load CHIP] [--save CHIP] [TAPE]";

/// A tape that begins with a saved chip, or is saved at its end.
fn run_with_chips(words: &[OsString]) -> ExitCode {
    let (mut from, mut to, mut tape) = (None, None, None);
    let mut words = words.iter();
    while let Some(word) = words.next() {
        let (place, value) = match word.to_str() {
            Some("--load") => (&mut from, words.next()),
            Some("--save") => (&mut to, words.next()),
            _ => (&mut tape, Some(word)),
        };
        if value.is_none() || place.is_some() {
            return wrong_use(USE_OF_CHIPS);
        }
        *place = value;
    }
    let begun = match from {
        None => Tape::new(),
        Some(name) => match load(name) {
            Ok(chip) => Tape::with(chip),
            Err(why) => return tell(name, why),
        },
    };
    let mut output = io::stdout().lock();
    let ended = match tape {
        None => run(begun, io::stdin().lock(), &mut output),
        Some(name) => File::open(name).and_then(|file| run(begun, file, &mut output)),
    };
    let ended = match ended {
        Ok(ended) => ended,
        Err(error) => return tell(tape.map_or(OsStr::new("standard input"), |name| name), error),
    };
    let Some(name) = to else { return ExitCode::SUCCESS };
    let Some(chip) = ended.chip() else {
        return tell(name, "nothing to save: the tape names no part");
    };
    match save(name, chip) {
        Ok(()) => ExitCode::SUCCESS,
        Err(why) => tell(name, why),
    }
}

fn run_all(names: &[OsString]) -> ExitCode {
    let mut status = ExitCode::SUCCESS;
    let mut output = io::stdout().lock();
    for name in names {
        if let Err(error) = File::open(name).and_then(|file| run(Tape::new(), file, &mut output)) {
            status = tell(name, error);
        }
    }
    status
}

fn main() -> ExitCode {
    let words: Vec<OsString> = std::env::args_os().skip(1).collect();
    let first = words.first().and_then(|word| word.to_str());
    for (option, generator) in GENERATORS {
        if first == Some(option) {
            return write_tape(option, generator, &words[1..]);
        }
    }
    match first {
        Some("--texts") => write_texts(&words[1..]),
        Some("--judge") => judge(&words[1..]),
        Some("--plain") => plain(&words[1..]),
        Some("--diff") => diff(&words[1..]),
        Some("--pairs") => write_pairs(&words[1..]),
        Some("--diff-pairs") => diff_pairs(&words[1..]),
        _ if words.is_empty() || words.iter().any(|word| word == "--load" || word == "--save") => {
            run_with_chips(&words)
        }
        _ => run_all(&words),
    }
}

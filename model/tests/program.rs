//! The program: standard input, named files, a file that cannot be opened, random tapes, and chips
//! that are loaded and saved.

use std::fs;
use std::io::Write;
use std::path::PathBuf;
use std::process::{Command, Output, Stdio};

fn model(arguments: &[&str], input: &[u8]) -> Output {
    let mut child = Command::new(env!("CARGO_BIN_EXE_model"))
        .args(arguments)
        .stdin(Stdio::piped())
        .stdout(Stdio::piped())
        .stderr(Stdio::piped())
        .spawn()
        .unwrap();
    // A program that does not want its input may be gone.
    let _ = child.stdin.take().unwrap().write_all(input);
    child.wait_with_output().unwrap()
}

fn file(name: &str, bytes: &[u8]) -> String {
    let path = PathBuf::from(env!("CARGO_TARGET_TMPDIR")).join(name);
    fs::write(&path, bytes).unwrap();
    path.to_str().unwrap().to_string()
}

const DONE: &str = "no=0 out=z irq=1 wdo=1\n";
/// An act before the part, or a part after it.
const MISPLACED: &str = "no=74 out=0 irq=1 wdo=1\n";

#[test]
fn standard_input() {
    let output = model(&[], b"op=part arg=1\nop=select arg=0");
    assert_eq!(output.stdout, DONE.repeat(2).as_bytes());
    assert!(output.status.success() && output.stderr.is_empty());
    assert!(model(&[], b"").stdout.is_empty());
}

#[test]
fn each_file_starts_without_a_part() {
    let first = file("first.tape", b"op=part arg=1\nop=select arg=0");
    let second = file("second.tape", b"op=select arg=0\nop=part arg=1\n");
    let output = model(&[&first, &second, &first], b"");
    assert_eq!(output.stdout, [DONE, DONE, MISPLACED, DONE, DONE, DONE].concat().as_bytes());
    assert!(output.status.success());
}

#[test]
fn a_file_that_cannot_be_opened() {
    let good = file("good.tape", b"op=part arg=1\n");
    let output = model(&["no_such.tape", &good], b"");
    assert_eq!(output.stdout, DONE.as_bytes());
    assert!(String::from_utf8(output.stderr).unwrap().contains("no_such.tape"));
    assert!(!output.status.success());
}

#[test]
fn a_random_tape() {
    for (option, tape) in [
        ("--generate", model::generate::tape(3, 100)),
        ("--generate-power", model::generate::power_tape(3, 100)),
        ("--generate-latch", model::generate::latch_tape(3, 100)),
        ("--generate-bits", model::generate::bits_tape(3, 100)),
        ("--generate-events", model::generate::events_tape(3, 100)),
        ("--generate-lines", model::generate::lines_tape(3, 100)),
    ] {
        let output = model(&[option, "3", "100"], b"");
        assert_eq!(output.stdout, tape);
        assert!(output.status.success() && output.stderr.is_empty());
    }
}

#[test]
fn wrong_use_of_an_option() {
    for option in [
        "--generate",
        "--generate-power",
        "--generate-latch",
        "--generate-bits",
        "--generate-events",
        "--generate-lines",
    ] {
        for words in [&[][..], &["3"], &["3", "100", "1"], &["3", "many"], &["-1", "100"]] {
            let output = model(&[&[option], words].concat(), b"");
            let told = String::from_utf8(output.stderr).unwrap();
            assert_eq!(told, format!("use: model {option} SEED LINES\n"));
            assert!(!output.status.success() && output.stdout.is_empty());
        }
    }
}

/// A file that is not there.
fn no_file(name: &str) -> String {
    let path = file(name, b"");
    fs::remove_file(&path).unwrap();
    path
}

fn told(output: &Output) -> String {
    String::from_utf8(output.stderr.clone()).unwrap()
}

#[test]
fn a_chip_is_saved_and_loaded() {
    let (evening, night) = (no_file("evening.chip"), no_file("night.chip"));
    // A byte of a read, and the next one after the night.
    let tape =
        file("evening.tape", b"op=part arg=3\nop=select arg=0\nop=byte arg=19\nop=byte arg=4\n");
    let output = model(&["--save", &evening, &tape], b"");
    assert_eq!(output.stdout, DONE.repeat(4).as_bytes());
    assert!(output.status.success() && output.stderr.is_empty());
    let text = fs::read_to_string(&evening).unwrap();
    assert!(text.starts_with("part=3\n") && text.contains("\nstage=4,1,4\n"));
    let output = model(&["--load", &evening], b"op=byte arg=0\nop=part arg=3\nop=end arg=0");
    let read = DONE.replace("z", "1");
    assert_eq!(output.stdout, [&read, MISPLACED, DONE].concat().as_bytes());
    assert!(output.status.success() && output.stderr.is_empty());
    // What is loaded may be saved, there too; without a line it is the same.
    let morning = b"op=byte arg=0\n";
    let output = model(&["--save", &night, "--load", &evening], morning);
    assert_eq!(output.stdout, read.as_bytes());
    assert_eq!(fs::read_to_string(&evening).unwrap(), text);
    assert_eq!(fs::read_to_string(&night).unwrap(), text.replace("stage=4,1,4", "stage=4,1,5"));
    let output = model(&["--load", &evening, "--save", &evening], b"");
    assert!(output.stdout.is_empty() && output.status.success());
    assert_eq!(fs::read_to_string(&evening).unwrap(), text);
    model(&["--load", &evening, "--save", &evening], morning);
    assert_eq!(fs::read(&evening).unwrap(), fs::read(&night).unwrap());
}

#[test]
fn a_bad_file_is_not_run() {
    let good = no_file("bad_run.chip");
    model(&["--save", &good], b"op=part arg=1\n");
    let text = fs::read_to_string(&good).unwrap();
    let to = no_file("bad_run_to.chip");
    for (bad, line) in [
        (String::new(), 1),
        (text.replace("reg2=0", "reg2=128"), 4),
        (text.replace("next=0\n", ""), 55),
        (text.replace("evls=0", "evls=2"), 76),
        (text.replace("evhs=0\n", ""), 77),
        (text.replace("debounce=0\n", ""), 80),
        (format!("{text}\n"), 81),
        (text.trim_end().to_string(), 80),
    ] {
        let name = file("bad_run_bad.chip", bad.as_bytes());
        let output = model(&["--load", &name, "--save", &to], b"op=select arg=0\n");
        assert_eq!(told(&output), format!("model: {name}: refused by 8, line {line}\n"));
        assert!(!output.status.success() && output.stdout.is_empty());
        assert!(fs::metadata(&to).is_err());
        assert_eq!(fs::read(&name).unwrap(), bad.as_bytes());
    }
    let none = no_file("bad_run_none.chip");
    let output = model(&["--load", &none], b"op=select arg=0\n");
    assert!(told(&output).starts_with(&format!("model: {none}: ")));
    assert!(!output.status.success() && output.stdout.is_empty());
}

#[test]
fn a_chip_from_before_the_event_inputs() {
    // It is loaded, goes on, and is saved with their lines.
    let (old, new) = (no_file("old_form.chip"), no_file("new_form.chip"));
    model(&["--save", &new], b"op=part arg=1\n");
    let text = fs::read_to_string(&new).unwrap();
    let (before, lines) = text.split_at(text.find("evls=").unwrap());
    assert_eq!(lines, "evls=0\nevhs=0\nedges=0\nsince=0\ndebounce=0\n");
    fs::write(&old, before).unwrap();
    let output = model(&["--load", &old, "--save", &new], b"op=evhs arg=1\n");
    assert_eq!(output.stdout, DONE.as_bytes());
    assert!(output.status.success() && output.stderr.is_empty());
    assert_eq!(fs::read_to_string(&new).unwrap(), text.replace("evhs=0", "evhs=1"));
    let output = model(&["--load", &old, "--save", &old], b"");
    assert!(output.status.success());
    assert_eq!(fs::read_to_string(&old).unwrap(), text);
}

#[test]
fn nothing_to_save() {
    let kept = file("nothing_kept.chip", b"as it was");
    let none = no_file("nothing_none.chip");
    for name in [&kept, &none] {
        let output = model(&["--save", name], b"op=select arg=0\nop=part arg=5\n");
        assert_eq!(output.stdout, [MISPLACED, "no=3 out=z irq=1 wdo=1\n"].concat().as_bytes());
        let expected = format!("model: {name}: nothing to save: the tape names no part\n");
        assert_eq!(told(&output), expected);
        assert!(!output.status.success());
    }
    assert_eq!(fs::read(&kept).unwrap(), b"as it was");
    assert!(fs::metadata(&none).is_err());
    // A tape that cannot be read saves nothing either.
    let output = model(&["--save", &kept, "no_such.tape"], b"");
    assert!(told(&output).starts_with("model: no_such.tape: ") && !output.status.success());
    assert_eq!(fs::read(&kept).unwrap(), b"as it was");
    // Where the file cannot be made the answers are still there.
    let nowhere = format!("{none}/chip");
    let output = model(&["--save", &nowhere], b"op=part arg=1\n");
    assert!(told(&output).starts_with(&format!("model: {nowhere}: ")) && !output.status.success());
    assert_eq!(output.stdout, DONE.as_bytes());
}

#[test]
fn texts_and_their_judgement() {
    let folder = PathBuf::from(env!("CARGO_TARGET_TMPDIR")).join("texts");
    let _ = fs::remove_dir_all(&folder);
    fs::create_dir(&folder).unwrap();
    let output = model(&["--texts", folder.to_str().unwrap(), "60", "3"], b"");
    assert!(output.status.success() && output.stdout.is_empty() && output.stderr.is_empty());
    let names: Vec<String> = (1..=60)
        .map(|k| folder.join(format!("{k:04}.txt")).to_str().unwrap().to_string())
        .collect();
    let mut expected = String::new();
    for (index, name) in (0..).zip(&names) {
        let text = fs::read(name).unwrap();
        assert_eq!(text, model::generate::saved_text(3, index));
        match model::saved::read(&text) {
            Ok(_) => expected += &format!("{name} 0 0\n"),
            Err(line) => expected += &format!("{name} 8 {line}\n"),
        }
    }
    assert_eq!(fs::read_dir(&folder).unwrap().count(), 60);
    let words: Vec<&str> = ["--judge"].into_iter().chain(names.iter().map(|n| &n[..])).collect();
    let output = model(&words, b"");
    assert_eq!(String::from_utf8(output.stdout).unwrap(), expected);
    assert!(output.status.success());
    let output = model(&["--judge", "no_such.txt", &names[0]], b"");
    assert!(told(&output).starts_with("model: no_such.txt: ") && !output.status.success());
    assert!(expected.starts_with(std::str::from_utf8(&output.stdout).unwrap()));
}

#[test]
fn a_plain_text() {
    let name = no_file("plain.chip");
    model(&["--save", &name], b"op=part arg=1\n");
    let text = fs::read_to_string(&name).unwrap();
    let loaded = text.replace("next=0", "next=3").replace("target=0,0", "target=1,9");
    fs::write(&name, &loaded).unwrap();
    assert_eq!(model(&["--plain", &name], b"").stdout, text.as_bytes());
    fs::write(&name, "part=7\n").unwrap();
    let output = model(&["--plain", &name], b"");
    assert_eq!(told(&output), format!("model: {name}: refused by 8, line 1\n"));
    assert!(!output.status.success() && output.stdout.is_empty());
}

#[test]
fn wrong_use_of_chips() {
    let tape = file("use.tape", b"op=part arg=1\n");
    for (words, told_use) in [
        (&["--load"][..], "[--load CHIP] [--save CHIP] [TAPE]"),
        (&["--save"], "[--load CHIP] [--save CHIP] [TAPE]"),
        (&["--save", "a", "--save", "b"], "[--load CHIP] [--save CHIP] [TAPE]"),
        (&["--load", "a", "--load", "b"], "[--load CHIP] [--save CHIP] [TAPE]"),
        (&["--save", "a", &tape, &tape], "[--load CHIP] [--save CHIP] [TAPE]"),
        (&["--texts"], "--texts FOLDER COUNT SEED"),
        (&["--texts", "a", "1"], "--texts FOLDER COUNT SEED"),
        (&["--texts", "a", "1", "b"], "--texts FOLDER COUNT SEED"),
        (&["--plain"], "--plain FILE"),
        (&["--plain", "a", "b"], "--plain FILE"),
    ] {
        let output = model(words, b"");
        assert_eq!(told(&output), format!("use: model {told_use}\n"));
        assert!(!output.status.success() && output.stdout.is_empty());
    }
}

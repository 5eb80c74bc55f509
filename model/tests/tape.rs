//! 01 Tape: which lines are of the form, the part rule, and what is printed.

use model::generate::tape;
use model::tape::{answers, parse, Fault, Op, Tape};
use model::Act;

fn answered(tape: &[u8]) -> Vec<String> {
    String::from_utf8(answers(tape)).unwrap().lines().map(String::from).collect()
}

#[test]
fn lines_of_the_form() {
    // Each name once, and the largest number.
    assert_eq!(parse(b"op=part arg=2"), Ok((Op::Part, 2)));
    assert_eq!(parse(b"op=select arg=0"), Ok((Op::Do(Act::Select), 0)));
    assert_eq!(parse(b"op=byte arg=255"), Ok((Op::Do(Act::Byte), 255)));
    assert_eq!(parse(b"op=end arg=7"), Ok((Op::Do(Act::End), 7)));
    assert_eq!(parse(b"op=wait arg=16777216"), Ok((Op::Do(Act::Wait), 16_777_216)));
    assert_eq!(parse(b"op=cut arg=128"), Ok((Op::Do(Act::Cut), 128)));
    assert_eq!(parse(b"op=up arg=0"), Ok((Op::Do(Act::Up), 0)));
    assert_eq!(parse(b"op=evls arg=1"), Ok((Op::Do(Act::Evls), 1)));
    assert_eq!(parse(b"op=evhs arg=0"), Ok((Op::Do(Act::Evhs), 0)));
    assert_eq!(parse(b"op=wait arg=99999999"), Ok((Op::Do(Act::Wait), 99_999_999)));
}

#[test]
fn lines_that_are_bad() {
    // 02 Bad lines: the number and the column of each, by hand.
    for (line, number, column) in [
        (&b""[..], 72, 1),
        (b" ", 72, 1),
        (b"op", 72, 3),
        (b"op=", 72, 4),
        (b"op=byte", 72, 8),
        (b"op=byte ", 72, 9),
        (b"op=byte arg", 72, 12),
        (b"op=byte arg=", 72, 13),
        (b"op=bytearg=1", 72, 11),
        // a blank too few, too many, or out of place
        (b"op=byte  arg=1", 72, 9),
        (b"op=byte\targ=1", 72, 8),
        (b" op=byte arg=1", 72, 1),
        (b"op =byte arg=1", 72, 3),
        (b"op= byte arg=1", 72, 4),
        (b"op=byte arg =1", 72, 12),
        (b"op=byte arg= 1", 72, 13),
        // something after the number
        (b"op=byte arg=1 ", 72, 14),
        (b"op=byte arg=1\r", 72, 14),
        (b"op=byte arg=1x", 72, 14),
        (b"op=byte arg=1 op=byte arg=1", 72, 14),
        // a zero in front
        (b"op=byte arg=00", 75, 13),
        (b"op=byte arg=01", 75, 13),
        (b"op=byte arg=00000000", 75, 13),
        // nine digits, or what is no digit
        (b"op=wait arg=100000000", 75, 21),
        (b"op=wait arg=123456789", 75, 21),
        (b"op=wait arg=000000001", 75, 13),
        (b"op=byte arg=-1", 72, 13),
        (b"op=byte arg=+1", 72, 13),
        (b"op=byte arg=0x1", 72, 14),
        (b"op=byte arg=1.", 72, 14),
        (b"op=byte arg=\xB1", 72, 13),
        // another name
        (b"op=Byte arg=1", 72, 4),
        (b"OP=byte arg=1", 72, 1),
        (b"op=bytes arg=1", 73, 4),
        (b"op=byt arg=1", 73, 4),
        (b"op= arg=1", 72, 4),
        (b"op=read arg=1", 73, 4),
        (b"op=byte\0arg=1", 72, 8),
        (b"\xFF\xFE", 72, 1),
    ] {
        let fault = Fault { number, column };
        assert_eq!(parse(line), Err(fault), "{:?}", String::from_utf8_lossy(line));
    }
}

#[test]
fn every_line_is_answered() {
    // A last line without a newline is a line too; an empty line is a line; no input, no answer.
    assert_eq!(answered(b""), Vec::<String>::new());
    assert_eq!(answered(b"\n"), ["no=72 out=1 irq=1 wdo=1"]);
    assert_eq!(answered(b"\n\n\n").len(), 3);
    assert_eq!(answered(b"op=part arg=1").len(), 1);
    assert_eq!(answered(b"op=part arg=1\n").len(), 1);
    assert_eq!(answered(b"op=part arg=1\nx").len(), 2);
    assert_eq!(answered(&[b'x'; 100_000]).len(), 1);
    assert_eq!(
        answered(b"op=part arg=1\n\nop=select arg=0\n")[1..],
        ["no=72 out=1 irq=1 wdo=1", "no=0 out=z irq=1 wdo=1"]
    );
}

#[test]
fn the_part_comes_first_and_once() {
    // 01 Tape: acts wait for a part that is accepted; a second one is bad too.
    let numbers: Vec<String> = answered(
        b"op=select arg=0\nop=part arg=0\nop=select arg=0\nop=part arg=5\nop=part arg=99999999\n\
          bad\nop=part arg=04\nop=part arg=4\nop=part arg=4\nop=part arg=5\nop=select arg=0\n",
    )
    .iter()
    .map(|line| line[3..line.find(" out").unwrap()].to_string())
    .collect();
    assert_eq!(numbers, ["74", "3", "74", "3", "3", "72", "75", "0", "74", "74", "0"]);
}

#[test]
fn what_out_shows() {
    let got = answered(
        b"op=part arg=1\nop=wait arg=0\nop=wait arg=7\nop=wait arg=16777217\nop=byte arg=5\n\
          op=select arg=0\nop=select arg=0\nop=byte arg=5\nop=byte arg=0\nop=end arg=8\nop=end arg=0\n\
          op=cut arg=255\nop=cut arg=255\nop=up arg=0\nop=up arg=0\n",
    );
    assert_eq!(
        got,
        [
            "no=0 out=z irq=1 wdo=1",
            "no=0 out=0 irq=1 wdo=1",
            "no=0 out=7 irq=1 wdo=1",
            "no=3 out=z irq=1 wdo=1",
            "no=2 out=z irq=1 wdo=1",
            "no=0 out=z irq=1 wdo=1",
            "no=1 out=z irq=1 wdo=1",
            "no=0 out=z irq=1 wdo=1",
            "no=0 out=0 irq=1 wdo=1",
            "no=3 out=z irq=1 wdo=1",
            "no=0 out=z irq=1 wdo=1",
            "no=0 out=0 irq=1 wdo=1",
            "no=5 out=z irq=1 wdo=1",
            "no=0 out=z irq=1 wdo=1",
            "no=5 out=z irq=1 wdo=1",
        ]
    );
}

#[test]
fn levels_are_shown_for_refused_and_bad_lines_too() {
    // Alarm 0 active with its flag written: IRQ low; then alarm 1 on WDO.
    let got = answered(
        b"op=part arg=1\nop=select arg=0\nop=byte arg=18\nop=byte arg=8\nop=byte arg=48\n\
          op=end arg=0\nop=select arg=0\nop=byte arg=18\nop=byte arg=15\nop=byte arg=8\nbad\n\
          op=select arg=0\nop=end arg=0\nop=select arg=0\nop=byte arg=18\nop=byte arg=22\n\
          op=byte arg=136\n",
    );
    assert_eq!(
        got[9..],
        [
            "no=0 out=z irq=0 wdo=1",
            "no=72 out=1 irq=0 wdo=1",
            "no=1 out=z irq=0 wdo=1",
            "no=0 out=z irq=0 wdo=1",
            "no=0 out=z irq=0 wdo=1",
            "no=0 out=z irq=0 wdo=1",
            "no=0 out=z irq=0 wdo=1",
            "no=0 out=z irq=0 wdo=0",
        ]
    );
}

#[test]
fn chunks_answer_as_their_join() {
    let tape = tape(5, 300);
    let whole = answers(&tape);
    for size in [1, 2, 3, 7, 64, 1_000] {
        let mut out = Vec::new();
        let mut state = Tape::new();
        for chunk in tape.chunks(size) {
            state.feed(chunk, &mut out);
        }
        state.finish(&mut out);
        assert_eq!(out, whole);
    }
}

//! 02 Bad lines: the number and the column of every line that is no request at its place. What is
//! expected comes from tables by hand, from a walk byte by byte, and from sets of beginnings.

use std::collections::BTreeSet;

use model::generate::{events_tape, tape, Random};
use model::tape::{answers, parse, Fault, Tape};

const NAMES: [&str; 9] = ["part", "select", "byte", "end", "wait", "cut", "up", "evls", "evhs"];

/// Bytes that are wrong at most places: of the form at others, near them, and far off.
const WRONG: [u8; 17] = [
    b'A', b'Z', b' ', b'0', b'1', b'a', b'z', b'=', b'\t', b'\r', 0x00, 0x7F, 0x80, 0xE1, 0xFF,
    b'@', b'{',
];

// ---------------------------------------------------------------------------------------------
// A second opinion

/// Where a line of the form stands after a byte; none where no such line can go on with it.
fn walk(at: u8, byte: u8) -> Option<u8> {
    match (at, byte) {
        (0, b'o') | (1, b'p') | (2, b'=') => Some(at + 1),
        (3 | 4, b'a'..=b'z') => Some(4),
        (4, b' ') | (5, b'a') | (6, b'r') | (7, b'g') | (8, b'=') => Some(at + 1),
        (9 | 10, b'0'..=b'9') => Some(10),
        _ => None,
    }
}

/// Number and column of what is wrong with the line by itself.
fn fault(line: &[u8]) -> Option<(u64, usize)> {
    if line.len() >= 65 {
        return Some((71, 65));
    }
    let mut at = 0;
    for (before, &byte) in line.iter().enumerate() {
        match walk(at, byte) {
            Some(next) => at = next,
            None => return Some((72, before + 1)),
        }
    }
    if at != 10 {
        return Some((72, line.len() + 1));
    }
    // A line of the form is text.
    let text = std::str::from_utf8(line).unwrap();
    let (left, digits) = text.rsplit_once('=').unwrap();
    let name = left.strip_prefix("op=").unwrap().strip_suffix(" arg").unwrap();
    let first = left.len() + 2;
    if !NAMES.contains(&name) {
        Some((73, 4))
    } else if digits != "0" && digits.starts_with('0') {
        Some((75, first))
    } else if digits.len() >= 9 {
        Some((75, first + 8))
    } else {
        None
    }
}

/// What a tape shows for a line that is bad at its place.
fn bad(line: &[u8], part_came: bool) -> Option<(u64, usize)> {
    let part = line.starts_with(b"op=part ");
    fault(line).or_else(|| (part == part_came).then_some((74, 0)))
}

fn shown(line: &[u8]) -> String {
    line.escape_ascii().to_string()
}

/// `no` and `out` of an answer, and its levels.
fn fields(answer: &str) -> (u64, &str, &str) {
    let (number, rest) = answer.strip_prefix("no=").unwrap().split_once(" out=").unwrap();
    let (out, levels) = rest.split_once(' ').unwrap();
    (number.parse().unwrap(), out, levels)
}

fn last_answer(tape: &[u8]) -> String {
    let answers = String::from_utf8(answers(tape)).unwrap();
    answers.lines().next_back().unwrap().to_string()
}

/// The line by itself, before a part and after one, against the second opinion.
fn check(line: &[u8]) {
    assert!(!line.contains(&b'\n'));
    let found = parse(line).err().map(|Fault { number, column }| (number, column));
    assert_eq!(found, fault(line), "{}", shown(line));
    for (before, part_came) in [(&b""[..], false), (b"op=part arg=2\n", true)] {
        let answer = last_answer(&[before, line, b"\n"].concat());
        match bad(line, part_came) {
            Some((number, column)) => {
                assert_eq!(
                    answer,
                    format!("no={number} out={column} irq=1 wdo=1"),
                    "{}",
                    shown(line)
                )
            }
            None => assert!(fields(&answer).0 <= 5, "{}: {answer}", shown(line)),
        }
    }
}

/// The expected number and column, before a part and after one.
fn by_hand(line: &[u8], before: (u64, usize), after: (u64, usize)) {
    for (first, (number, column)) in [(&b""[..], before), (b"op=part arg=3\n", after)] {
        let answer = last_answer(&[first, line, b"\n"].concat());
        assert_eq!(answer, format!("no={number} out={column} irq=1 wdo=1"), "{}", shown(line));
    }
    check(line);
}

fn always(line: &[u8], number: u64, column: usize) {
    by_hand(line, (number, column), (number, column));
}

/// A line that `start` begins, with `fill` up to a length.
fn filled(start: &[u8], fill: u8, length: usize) -> Vec<u8> {
    let mut line = start.to_vec();
    line.resize(length, fill);
    line
}

// ---------------------------------------------------------------------------------------------
// 72: the form

#[test]
fn beginnings_of_good_lines() {
    for name in NAMES {
        let line = format!("op={name} arg=12345678");
        let digits = line.len() - 8;
        for length in 0..=digits {
            always(&line.as_bytes()[..length], 72, length + 1);
        }
        // From the first digit on it is good.
        for length in digits + 1..=line.len() {
            assert!(parse(&line.as_bytes()[..length]).is_ok());
            check(&line.as_bytes()[..length]);
        }
    }
}

#[test]
fn one_wrong_byte_at_every_column() {
    // By hand, for `op=cut arg=12`.
    for (column, byte, expected) in [
        (1, b'O', (72, 1)),
        (1, b'p', (72, 1)),
        (2, b'o', (72, 2)),
        (2, 0xF0, (72, 2)),
        (3, b' ', (72, 3)),
        (3, b':', (72, 3)),
        (4, b'C', (72, 4)),
        (4, b' ', (72, 4)),
        (4, b'=', (72, 4)),
        (4, b'd', (73, 4)),
        (5, b'1', (72, 5)),
        (5, b' ', (72, 6)), // `op=c`, a blank, and no `a` after it
        (6, b's', (73, 4)),
        (6, b' ', (72, 7)),  // two blanks
        (7, b'x', (72, 11)), // the name goes on up to the second `=`
        (7, b'_', (72, 7)),
        (8, b'A', (72, 8)),
        (9, b'a', (72, 9)),
        (10, b'q', (72, 10)),
        (11, b'-', (72, 11)),
        (12, b'=', (72, 12)),
        (12, b'0', (75, 12)),
        (12, 0x00, (72, 12)),
        (13, b' ', (72, 13)),
        (13, b'\r', (72, 13)),
        (13, 0xB2, (72, 13)),
    ] {
        let mut line = b"op=cut arg=12".to_vec();
        line[column - 1] = byte;
        always(&line, expected.0, expected.1);
    }
    for name in NAMES {
        for number in ["0", "10", "12345678"] {
            let good = format!("op={name} arg={number}").into_bytes();
            for place in 0..good.len() {
                let mut line = good.clone();
                for byte in WRONG {
                    line[place] = byte;
                    check(&line);
                }
                for byte in (0..=255).filter(|&byte| byte != b'\n') {
                    line[place] = byte;
                    let found = parse(&line).err().map(|fault| (fault.number, fault.column));
                    assert_eq!(found, fault(&line), "{}", shown(&line));
                }
            }
        }
    }
}

#[test]
fn a_byte_more_or_less_at_every_column() {
    for name in NAMES {
        for number in ["0", "31", "87654321"] {
            let good = format!("op={name} arg={number}").into_bytes();
            for place in 0..=good.len() {
                for byte in WRONG {
                    let mut line = good.clone();
                    line.insert(place, byte);
                    check(&line);
                }
                if place < good.len() {
                    let mut line = good.clone();
                    line.remove(place);
                    check(&line);
                }
            }
        }
    }
}

#[test]
fn lines_of_other_forms() {
    always(b"", 72, 1);
    always(b"\r", 72, 1);
    always(b"\0", 72, 1);
    always(b"o", 72, 2);
    always(b"ope=byte arg=1", 72, 3);
    always(b"op==byte arg=1", 72, 4);
    always(b"op=by te arg=1", 72, 7);
    always(b"op=by-te arg=1", 72, 6);
    always(b"op=byte1 arg=1", 72, 8);
    always(b"op=byte arg==1", 72, 13);
    always(b"op=byte  arg=1", 72, 9);
    always(b"op=byte args=1", 72, 12);
    always(b"op=byte ar=1", 72, 11);
    always(b"op=byte a", 72, 10);
    always(b"op=byte=1", 72, 8);
    always(b"op=byte arg=1,2", 72, 14);
    always(b"op=byte arg=12 34", 72, 15);
    always(b"arg=1 op=byte", 72, 1);
    always(b"byte 1", 72, 1);
    // The form knows neither names nor how many digits a number may have.
    always(b"op=foo", 72, 7);
    always(b"op=foo arg=", 72, 12);
    always(b"op=foo arg=123456789x", 72, 21);
    always(b"op=byte arg=00x", 72, 15);
    always(b"op=byte arg=123456789 ", 72, 22);
}

#[test]
fn carriage_returns() {
    for name in NAMES {
        let good = format!("op={name} arg=1");
        always(format!("{good}\r").as_bytes(), 72, good.len() + 1);
        always(format!("{good}\r\r").as_bytes(), 72, good.len() + 1);
        always(format!("\r{good}").as_bytes(), 72, 1);
    }
    always(b"op=foo arg=1\r", 72, 13);
    always(b"op=up arg=01\r", 72, 13);
    always(b"op=up arg=123456789\r", 72, 20);
}

#[test]
fn bytes_from_80h_up() {
    for byte in 0x80..=0xFF {
        always(&[byte], 72, 1);
        always(&[b"op=byte arg=5", &[byte][..]].concat(), 72, 14);
        always(&[b"op=b", &[byte][..], b"te arg=5"].concat(), 72, 5);
        always(&[b"op=byte arg=", &[byte][..]].concat(), 72, 13);
        // A good line with bit 7 of one byte set.
        for place in 0..13 {
            let mut line = b"op=wait arg=9".to_vec();
            line[place] = byte;
            always(&line, 72, place + 1);
        }
    }
    // A column is a byte, whatever the bytes spell.
    always("op=ünd arg=0".as_bytes(), 72, 4);
    always("op=end arg=0ü".as_bytes(), 72, 13);
    always("\u{FEFF}op=end arg=0".as_bytes(), 72, 1);
}

// ---------------------------------------------------------------------------------------------
// 71: the length

#[test]
fn lines_of_64_and_more() {
    for length in [63, 64, 65, 66, 100, 1_000, 70_000] {
        let long = length > 64;
        let expect = |line: &[u8], number, column| match long {
            true => always(line, 71, 65),
            false => always(line, number, column),
        };
        // Letters only: it stops short. At 64 bytes that is column 65 too.
        expect(&filled(b"op=", b'a', length), 72, length + 1);
        expect(&filled(b"op=byte", b'y', length), 72, length + 1);
        // Digits only, behind a name that is known or not.
        expect(&filled(b"op=byte arg=", b'1', length), 75, 21);
        expect(&filled(b"op=byte arg=", b'0', length), 75, 13);
        expect(&filled(b"op=foo arg=", b'1', length), 73, 4);
        expect(&filled(b"op=foo arg=", b'0', length), 73, 4);
        // A bad byte long before column 65, and at the end.
        expect(&filled(b"x", b'x', length), 72, 1);
        expect(&filled(b"op=byte arg=1", b' ', length), 72, 14);
        expect(&filled(b"op=byte", b' ', length), 72, 9);
        expect(&filled(b"", 0xFF, length), 72, 1);
        let mut line = filled(b"op=byte arg=", b'5', length);
        line[length - 1] = b'x';
        expect(&line, 72, length);
        // A long name with all that the form asks for.
        let mut line = filled(b"op=", b'n', length - 6);
        line.extend(b" arg=0");
        expect(&line, 73, 4);
        line[length - 1] = b'\r';
        expect(&line, 72, length);
    }
}

#[test]
fn long_lines_in_pieces() {
    // What follows a long line is a line of its own.
    let mut bytes = filled(b"op=byte arg=", b'0', 1_000_000);
    bytes.extend(b"\nop=part arg=1\n");
    bytes.extend(filled(b"op=wait arg=", b'1', 64));
    bytes.push(b'\n');
    bytes.extend(filled(b"op=wait arg=", b'1', 65));
    let expected = "no=71 out=65 irq=1 wdo=1\nno=0 out=z irq=1 wdo=1\n\
                    no=75 out=21 irq=1 wdo=1\nno=71 out=65 irq=1 wdo=1\n";
    for size in [1, 63, 64, 65, 66, 4_096, bytes.len()] {
        let (mut state, mut out) = (Tape::new(), Vec::new());
        bytes.chunks(size).for_each(|chunk| state.feed(chunk, &mut out));
        state.finish(&mut out);
        assert_eq!(String::from_utf8(out).unwrap(), expected, "{size}");
    }
}

// ---------------------------------------------------------------------------------------------
// 73 and 75: the name and the digits

#[test]
fn names_that_are_not_known() {
    for name in
        "a z par parts art selec selects byt bytes bite en ends wai waits cu cuts u ups evl \
                 evh evlss ev evlh op arg opbyte tape partpart abcdefghijklmnopqrstuvwxyz"
            .split_ascii_whitespace()
    {
        // The name goes first, whatever the digits are.
        for digits in ["0", "1", "00", "01", "12345678", "123456789", "000000000", "0123456789"] {
            always(format!("op={name} arg={digits}").as_bytes(), 73, 4);
        }
        // The form goes before the name.
        always(format!("op={name}").as_bytes(), 72, 4 + name.len());
        always(format!("op={name} arg=").as_bytes(), 72, 9 + name.len());
        always(format!("op={name} arg=1.").as_bytes(), 72, 10 + name.len());
    }
}

#[test]
fn digits() {
    for name in NAMES {
        let first = 9 + name.len();
        let line = |digits: &str| format!("op={name} arg={digits}").into_bytes();
        for count in 1..=8 {
            for digits in ["9".repeat(count), format!("1{}", "0".repeat(count - 1))] {
                let line = line(&digits);
                assert_eq!(parse(&line).unwrap().1, digits.parse::<u64>().unwrap());
                check(&line);
            }
        }
        assert_eq!(parse(&line("0")).unwrap().1, 0);
        // From nine digits on the ninth is to blame, up to what 64 bytes hold.
        for count in 9..=64 - (first - 1) {
            always(&line(&"9".repeat(count)), 75, first + 8);
            always(&line(&format!("1{}", "0".repeat(count - 1))), 75, first + 8);
        }
        // With a zero in front it is the first, with nine digits and more too.
        for count in 2..=64 - (first - 1) {
            always(&line(&"0".repeat(count)), 75, first);
            always(&line(&format!("0{}", "1".repeat(count - 1))), 75, first);
        }
    }
}

// ---------------------------------------------------------------------------------------------
// 74, and the order

#[test]
fn a_part_that_is_missing_or_repeated() {
    for name in &NAMES[1..] {
        for number in ["0", "1", "8", "255", "256", "99999999"] {
            let line = format!("op={name} arg={number}");
            assert_eq!(last_answer(line.as_bytes()), "no=74 out=0 irq=1 wdo=1");
            check(line.as_bytes());
        }
    }
    for part in 0..=9 {
        let line = format!("op=part arg={part}");
        assert_eq!(
            last_answer(format!("op=part arg=1\n{line}").as_bytes()),
            "no=74 out=0 irq=1 wdo=1"
        );
        // Before an accepted part it is no part line too many, and 3 if there is no such part.
        let number = if (1..=4).contains(&part) { 0 } else { 3 };
        let expected = format!("no={number} out=z irq=1 wdo=1");
        assert_eq!(last_answer(line.as_bytes()), expected);
        assert_eq!(last_answer(format!("op=part arg=9\n{line}").as_bytes()), expected);
    }
    // A part that was refused or bad does not count.
    for first in ["op=part arg=0", "op=part arg=01", "op=part arg=1 ", "op=parts arg=1", "op=part"]
    {
        let line = format!("{first}\nop=up arg=0");
        assert_eq!(last_answer(line.as_bytes()), "no=74 out=0 irq=1 wdo=1");
    }
}

#[test]
fn which_number_goes_first() {
    // Acts before the part, and a second part: 74 comes after all others.
    for line in ["op=select arg=0", "op=wait arg=16777217", "op=evhs arg=2"] {
        by_hand_before(line, 74, 0);
    }
    by_hand_before("op=select arg=00", 75, 15);
    by_hand_before("op=wait arg=123456789", 75, 21);
    by_hand_before("op=selected arg=0", 73, 4);
    by_hand_before("op=select arg=", 72, 15);
    by_hand_before(&format!("op=select arg={}", "0".repeat(51)), 71, 65);
    by_hand_before(&format!("op=select arg={}", "0".repeat(50)), 75, 15);
    let second = |line: &str, number, column| {
        let answer = last_answer(format!("op=part arg=4\n{line}").as_bytes());
        assert_eq!(answer, format!("no={number} out={column} irq=1 wdo=1"), "{line}");
    };
    second("op=part arg=4", 74, 0);
    second("op=part arg=9", 74, 0); // and not 3
    second("op=part arg=99999999", 74, 0);
    second("op=part arg=04", 75, 13);
    second("op=part arg=100000000", 75, 21);
    second("op=parts arg=4", 73, 4);
    second("op=part arg=4;", 72, 14);
    second(&format!("op=part arg={}", "4".repeat(53)), 71, 65);
    // Two and more faults in a line.
    always(&filled(b"op=foo arg=0", b'0', 64), 73, 4);
    always(&filled(b"op=foo arg=0", b'x', 64), 72, 13);
    always(&filled(b"op=foo arg=0", b'x', 65), 71, 65);
    always(b"op=byte arg=0123456789", 75, 13);
    always(b"op=byte arg=0123456789 ", 72, 23);
    // What the table of acts refuses comes after: 3, 5, 1 and 2, and they show z.
    for (line, number) in [
        ("op=byte arg=256", 3),
        ("op=wait arg=99999999", 3),
        ("op=up arg=0", 5),
        ("op=byte arg=255", 2),
        ("op=end arg=7", 2),
    ] {
        second_z(line, number);
    }
    second("op=byte arg=0256", 75, 13);
    second("op=up arg=00", 75, 11);
    second("op=end arg=8 ", 72, 13);
}

fn by_hand_before(line: &str, number: u64, column: usize) {
    assert_eq!(
        last_answer(line.as_bytes()),
        format!("no={number} out={column} irq=1 wdo=1"),
        "{line}"
    );
}

fn second_z(line: &str, number: u64) {
    let answer = last_answer(format!("op=part arg=4\n{line}").as_bytes());
    assert_eq!(answer, format!("no={number} out=z irq=1 wdo=1"), "{line}");
}

// ---------------------------------------------------------------------------------------------
// All lines of a kind

/// Calls `f` with every line of at most `most` bytes of the alphabet, behind a start.
fn each(start: &[u8], alphabet: &[u8], most: usize, f: &mut impl FnMut(&[u8])) {
    f(start);
    if most > 0 {
        for &byte in alphabet {
            each(&[start, &[byte]].concat(), alphabet, most - 1, f);
        }
    }
}

#[test]
fn all_short_lines() {
    // With four bytes no line is whole, so those that some line begins with are these.
    let mut good = BTreeSet::from([b"".to_vec(), b"o".to_vec(), b"op".to_vec(), b"op=".to_vec()]);
    good.extend((b'a'..=b'z').map(|letter| [b"op=", &[letter][..]].concat()));
    let mut lines = 0;
    let alphabet = b"op=a AO0\r\0\x80\xFF";
    each(b"", alphabet, 4, &mut |line| {
        let length = (0..=line.len()).rev().find(|&n| good.contains(&line[..n])).unwrap();
        let fault = Fault { number: 72, column: length + 1 };
        assert_eq!(parse(line), Err(fault), "{}", shown(line));
        lines += 1;
    });
    assert_eq!(lines, 1 + 12 + 144 + 1_728 + 20_736);
    each(b"", alphabet, 3, &mut check);
}

#[test]
fn the_longest_beginning_of_all_lines_of_a_small_alphabet() {
    // Lines of the form of these letters and digits, as long as the lines below and longer, and
    // all that they begin with.
    let mut beginnings = BTreeSet::new();
    each(b"op=", b"arg", 7, &mut |start| {
        each(&[start, b" arg="].concat(), b"0", 6, &mut |line| {
            if start.len() > 3 && line.ends_with(b"0") {
                beginnings.extend((0..=line.len()).map(|n| line[..n].to_vec()));
            }
        });
    });
    let mut lines = 0;
    for start in [&b"op="[..], b"op=a", b"op=ga a", b"op=g ar", b"op=rag arg"] {
        each(start, b"arg =0", 5, &mut |line| {
            let expected =
                (0..=line.len()).rev().find(|&n| beginnings.contains(&line[..n])).unwrap();
            match parse(line) {
                Err(Fault { number: 72, column }) => {
                    assert_eq!(column, expected + 1, "{}", shown(line))
                }
                // Of the form: of these letters no name is known.
                other => {
                    assert_eq!(other, Err(Fault { number: 73, column: 4 }), "{}", shown(line));
                    assert!(expected == line.len() && line.ends_with(b"0"), "{}", shown(line));
                }
            }
            lines += 1;
        });
    }
    assert_eq!(lines, 5 * (1 + 6 + 36 + 216 + 1_296 + 7_776));
}

#[test]
fn good_lines_changed_at_random() {
    let mut random = Random::new(71);
    let mut met = BTreeSet::new();
    for _ in 0..30_000 {
        let name = random.pick(&NAMES);
        let most = random.pick(&[10, 1_000, 100_000_000, 10_000_000_000]);
        let mut line = format!("op={name} arg={}", random.below(most)).into_bytes();
        if random.once_in(8) {
            let length = 60 + random.below(8) as usize;
            line.resize(length.max(line.len()), random.pick(b"0x "));
        }
        for _ in 0..random.below(4) {
            let place = random.below(line.len() as u64) as usize;
            let byte = match random.below(3) {
                0 => random.pick(&WRONG),
                1 => random.pick(b"op=arg 0123456789bytewaitselectcutendup"),
                _ => random.byte(),
            };
            match (byte, random.below(4)) {
                (b'\n', _) => {}
                (_, 0) => line.insert(place, byte),
                (_, 1) if line.len() > 1 => drop(line.remove(place)),
                (_, 2) => line.truncate(place + 1),
                _ => line[place] = byte,
            }
        }
        met.insert(fault(&line));
        check(&line);
    }
    assert!(met.len() > 40, "{met:?}");
}

// ---------------------------------------------------------------------------------------------
// What a bad line leaves

#[test]
fn bad_lines_change_nothing() {
    let mut random = Random::new(72);
    let (mut low, mut bad_lines) = (0, 0);
    for seed in 0..12 {
        let plain = if seed % 2 == 0 { tape(seed, 300) } else { events_tape(seed, 300) };
        let (mut alone, mut among) = (Tape::new(), Tape::new());
        for line in plain.split_inclusive(|&b| b == b'\n') {
            let (mut expected, mut found) = (Vec::new(), Vec::new());
            alone.feed(line, &mut expected);
            among.feed(line, &mut found);
            assert_eq!(found, expected);
            if !line.ends_with(b"\n") {
                break;
            }
            let levels = fields(std::str::from_utf8(&found).unwrap().trim_end()).2.to_string();
            for _ in 0..3 {
                let name = random.pick(&NAMES);
                let mut line = format!("op={name} arg={}", random.below(300)).into_bytes();
                match random.below(5) {
                    0 => line.truncate(random.below(9) as usize),
                    1 => line.resize(65, b'1'),
                    2 => line.insert(3, b'x'),
                    3 => drop(line.splice(8 + name.len().., *b"00")),
                    _ if among.chip().is_some() => line = b"op=part arg=1".to_vec(),
                    _ => line = b"op=byte arg=1".to_vec(),
                }
                let (number, column) = bad(&line, among.chip().is_some()).unwrap();
                line.push(b'\n');
                let mut out = Vec::new();
                among.feed(&line, &mut out);
                let answer = format!("no={number} out={column} {levels}\n");
                assert_eq!(String::from_utf8(out).unwrap(), answer, "{}", shown(&line));
                assert_eq!(among.chip(), alone.chip(), "{}", shown(&line));
                low += u64::from(levels != "irq=1 wdo=1");
                bad_lines += 1;
            }
        }
    }
    assert!(bad_lines > 10_000 && low > 100, "{bad_lines} bad lines, {low} with a level low");
}

#[test]
fn tapes_that_are_kept() {
    let folder = concat!(env!("CARGO_MANIFEST_DIR"), "/../crates/mcp795/data");
    let mut met = [0; 6];
    for entry in std::fs::read_dir(folder).unwrap() {
        let path = entry.unwrap().path();
        let tape = std::fs::read(&path).unwrap();
        let answers = String::from_utf8(answers(&tape)).unwrap();
        let mut part_came = false;
        let lines = tape.strip_suffix(b"\n").unwrap_or(&tape).split(|&b| b == b'\n');
        let lines: Vec<&[u8]> = if tape.is_empty() { Vec::new() } else { lines.collect() };
        assert_eq!(lines.len(), answers.lines().count(), "{path:?}");
        for (line, answer) in lines.into_iter().zip(answers.lines()) {
            let (number, out, _) = fields(answer);
            match bad(line, part_came) {
                Some((expected, column)) => {
                    assert_eq!(
                        (number, out),
                        (expected, &*column.to_string()),
                        "{path:?} {}",
                        shown(line)
                    );
                    met[number as usize - 70] += 1;
                }
                None => {
                    assert!(number <= 5 && (number == 0 || out == "z"), "{path:?} {}", shown(line));
                    part_came |= number == 0;
                }
            }
        }
    }
    assert!(met[1..].iter().all(|&count| count > 15), "{met:?}");
}

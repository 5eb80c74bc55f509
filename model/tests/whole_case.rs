//! 01 Tape: the whole case, sixteen answers.

use model::tape::answers;

const WHOLE_CASE: &str = "\
op=part arg=2
op=select arg=0
op=byte arg=6
op=end arg=0
op=select arg=0
op=byte arg=2
op=byte arg=7
op=byte arg=18
op=byte arg=52
op=end arg=0
op=wait arg=200
op=select arg=0
op=byte arg=3
op=byte arg=0
op=byte arg=0
op=end arg=0
";

#[test]
fn sixteen_answers() {
    // The wait and the byte that is read show a number.
    let mut expected = vec!["no=0 out=z irq=1 wdo=1"; 16];
    expected[10] = "no=0 out=164 irq=1 wdo=1";
    expected[14] = "no=0 out=52 irq=1 wdo=1";
    let got = String::from_utf8(answers(WHOLE_CASE.as_bytes())).unwrap();
    assert_eq!(got.lines().collect::<Vec<_>>(), expected);
}

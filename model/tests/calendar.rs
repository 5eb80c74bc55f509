//! 01 Calendar and ticks, the calendar alone.

use model::calendar::*;

#[test]
fn plain_fields() {
    // 01 Calendar (bench): one on, or back to the first with a carry; every byte has its case.
    for (first, last) in [(0, 99), (0, 59), (0, 23), (1, 7), (1, 31), (1, 28), (1, 12)] {
        for value in 0..=255 {
            let (tens, ones) = (value / 16, value % 16);
            let n = 10 * tens + ones;
            let below_last = tens <= 9 && ones <= 9 && first <= n && n < last;
            let expected = if below_last {
                if ones == 9 {
                    ((tens + 1) * 16, false)
                } else {
                    (value + 1, false)
                }
            } else {
                (first, true)
            };
            let got = next_field(value as u8, first as u8, last as u8);
            assert_eq!(got, (expected.0 as u8, expected.1), "{value:02X}h of {first} to {last}");
        }
    }
    assert_eq!(next_field(0x09, 0, 59), (0x10, false));
    assert_eq!(next_field(0x59, 0, 59), (0x00, true));
    assert_eq!(next_field(0x60, 0, 59), (0x00, true));
    assert_eq!(next_field(0x00, 1, 7), (0x01, true));
}

#[test]
fn hours_in_24_hour_form() {
    let mut hour = 0x00;
    let mut seen = vec![hour];
    for _ in 0..24 {
        hour = next_hours(hour).0;
        seen.push(hour);
    }
    assert_eq!(
        seen,
        [
            0x00, 0x01, 0x02, 0x03, 0x04, 0x05, 0x06, 0x07, 0x08, 0x09, 0x10, 0x11, 0x12, 0x13,
            0x14, 0x15, 0x16, 0x17, 0x18, 0x19, 0x20, 0x21, 0x22, 0x23, 0x00
        ]
    );
    assert_eq!(next_hours(0x23), (0x00, true));
    assert_eq!(next_hours(0x22), (0x23, false));
    // Not valid: 24 to 3F, and digits above 9.
    for hour in [0x24, 0x29, 0x30, 0x3F, 0x0A, 0x1F] {
        assert_eq!(next_hours(hour), (0x00, true));
        assert_eq!(next_hours(0x80 | hour), (0x80, true));
    }
}

#[test]
fn hours_in_12_hour_form() {
    // 01 Calendar: 03h with bit 6 set, and in the afternoon bit 5; the day begins with 12 AM.
    let day = [
        0x52, 0x41, 0x42, 0x43, 0x44, 0x45, 0x46, 0x47, 0x48, 0x49, 0x50, 0x51, 0x72, 0x61, 0x62,
        0x63, 0x64, 0x65, 0x66, 0x67, 0x68, 0x69, 0x70, 0x71, 0x52,
    ];
    for pair in day.windows(2) {
        assert_eq!(next_hours(pair[0]), (pair[1], pair[0] == 0x71));
        assert_eq!(next_hours(0x80 | pair[0]), (0x80 | pair[1], pair[0] == 0x71));
        // CALSGN
    }
    // Not valid: 12 AM, with carry.
    for hour in [0x40, 0x60, 0x53, 0x59, 0x73, 0x4A, 0x5F, 0x7F] {
        assert_eq!(next_hours(hour), (0x52, true));
        assert_eq!(next_hours(0x80 | hour), (0xD2, true));
    }
}

#[test]
fn month_lengths() {
    let common = [31, 28, 31, 30, 31, 30, 31, 31, 30, 31, 30, 31];
    for (month, length) in (1..).zip(common) {
        let bcd = to_bcd(month);
        assert_eq!(month_length(bcd, 0x01), length);
        assert_eq!(month_length(bcd, 0x04), if month == 2 { 29 } else { length });
    }
    // 01 Calendar: what is no month has 31.
    for month in [0x00, 0x0A, 0x0F, 0x13, 0x19, 0x1F] {
        assert_eq!(month_length(month, 0x00), 31);
    }
}

#[test]
fn leap_years() {
    // 01 Calendar: by the year's value, not its byte.
    for year in 0..=255 {
        let (tens, ones) = (year / 16, year % 16);
        let expected = tens < 10 && ones < 10 && (10 * tens + ones) % 4 == 0;
        assert_eq!(leap(year as u8), expected, "{year:02X}h");
    }
    assert!(leap(0x00) && leap(0x96) && !leap(0x99) && !leap(0x0C) && !leap(0xA0));
}

fn stepped(mut time: [u8; 8]) -> ([u8; 8], Reach) {
    let reach = step(&mut time);
    (time, reach)
}

#[test]
fn how_far_a_carry_goes() {
    assert_eq!(
        stepped([0x98, 0, 0, 0, 1, 1, 1, 0]),
        ([0x99, 0, 0, 0, 1, 1, 1, 0], Reach::Hundredths)
    );
    assert_eq!(
        stepped([0x99, 0x09, 0, 0, 1, 1, 1, 0]),
        ([0x00, 0x10, 0, 0, 1, 1, 1, 0], Reach::Seconds)
    );
    assert_eq!(
        stepped([0x99, 0x59, 0x08, 0, 1, 1, 1, 0]),
        ([0x00, 0x00, 0x09, 0, 1, 1, 1, 0], Reach::Minutes)
    );
    assert_eq!(
        stepped([0x99, 0x59, 0x59, 0x19, 1, 1, 1, 0]),
        ([0x00, 0x00, 0x00, 0x20, 1, 1, 1, 0], Reach::Hours)
    );
    assert_eq!(
        stepped([0x99, 0x59, 0x59, 0x23, 1, 1, 1, 0]),
        ([0x00, 0x00, 0x00, 0x00, 2, 2, 1, 0], Reach::Date)
    );
    assert_eq!(
        stepped([0x99, 0x59, 0x59, 0x23, 1, 0x30, 0x04, 0]),
        ([0x00, 0x00, 0x00, 0x00, 2, 0x01, 0x05, 0], Reach::Month)
    );
    assert_eq!(
        stepped([0x99, 0x59, 0x59, 0x23, 1, 0x31, 0x12, 0x09]),
        ([0x00, 0x00, 0x00, 0x00, 2, 0x01, 0x01, 0x10], Reach::Year)
    );
}

#[test]
fn the_end_of_a_week_moves_no_other_field() {
    // 01 Calendar: day and date step at the same time, each for itself.
    assert_eq!(
        stepped([0x99, 0x59, 0x59, 0x23, 7, 0x10, 1, 0]).0,
        [0x00, 0x00, 0x00, 0x00, 1, 0x11, 1, 0]
    );
    assert_eq!(
        stepped([0x99, 0x59, 0x59, 0x23, 0, 0x10, 1, 0]).0,
        [0x00, 0x00, 0x00, 0x00, 1, 0x11, 1, 0]
    );
}

#[test]
fn a_step_leaves_the_control_bits() {
    // 01 Calendar: ST, CALSGN and 12/24, VBAT and VBATEN.
    assert_eq!(
        stepped([0x99, 0xD9, 0x59, 0xF1, 0x1F, 0x31, 0x12, 0x99]).0,
        [0x00, 0x80, 0x00, 0xD2, 0x19, 0x01, 0x01, 0x00]
    );
}

#[test]
fn dates_that_are_not_valid() {
    // A date past its month's length takes the first and carries.
    for (date, month, year, then) in [
        (0x31, 0x02, 0x01, [0x01, 0x03, 0x01]),
        (0x29, 0x02, 0x01, [0x01, 0x03, 0x01]),
        (0x29, 0x02, 0x00, [0x01, 0x03, 0x00]),
        (0x31, 0x04, 0x00, [0x01, 0x05, 0x00]),
        (0x00, 0x04, 0x00, [0x01, 0x05, 0x00]),
        (0x3F, 0x12, 0x00, [0x01, 0x01, 0x01]),
        // The month is not valid: up to 31, then the first month and the next year.
        (0x30, 0x13, 0x00, [0x31, 0x13, 0x00]),
        (0x31, 0x13, 0x00, [0x01, 0x01, 0x01]),
        (0x28, 0x00, 0x00, [0x29, 0x00, 0x00]),
        // The year is not valid: not a leap year; at the year's end its first.
        (0x28, 0x02, 0x0C, [0x01, 0x03, 0x0C]),
        (0x31, 0x12, 0x9A, [0x01, 0x01, 0x00]),
    ] {
        let time = [0x99, 0x59, 0x59, 0x23, 1, date, month, year];
        assert_eq!(stepped(time).0[5..], then, "{date:02X} {month:02X} {year:02X}");
    }
}

#[test]
fn a_hundred_years_of_days() {
    // By a count of days of its own: 36,525 days bring 1 Jan 00 round again, six days on.
    let mut time = [0, 0, 0, 0, 1, 0x01, 0x01, 0x00];
    for year in 0..100u32 {
        for month in 1..=12u8 {
            let days = match month {
                4 | 6 | 9 | 11 => 30,
                2 => 28 + u32::from(year % 4 == 0),
                _ => 31,
            };
            for date in 1..=days {
                assert_eq!(time[5..], [to_bcd(date as u8), to_bcd(month), to_bcd(year as u8)]);
                (time[0], time[1], time[2], time[3]) = (0x99, 0x59, 0x59, 0x23);
                step(&mut time);
            }
        }
    }
    assert_eq!(time, [0, 0, 0, 0, 7, 0x01, 0x01, 0x00]);
}

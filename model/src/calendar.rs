//! BCD fields and their succession (01 Calendar and ticks). Knows no chip: the time is the
//! eight bytes 00h to 07h of 000's register map, control bits beside the fields stay.

/// The last field that a step reached: every field up to it took a value.
/// Day and date advance together.
#[derive(Clone, Copy, Debug, PartialEq, Eq, PartialOrd, Ord)]
pub enum Reach {
    Hundredths,
    Seconds,
    Minutes,
    Hours,
    Date,
    Month,
    Year,
}

/// The number that a BCD byte means, if both its digits are digits.
pub fn from_bcd(byte: u8) -> Option<u8> {
    let (tens, ones) = (byte >> 4, byte & 0x0F);
    (tens <= 9 && ones <= 9).then_some(10 * tens + ones)
}

pub fn to_bcd(n: u8) -> u8 {
    (n / 10) << 4 | n % 10
}

/// 01 Calendar (bench): the value after a valid one, short of the last; after the last, and after
/// one that is not valid, the first, with a carry. Gives the value and whether it carries.
pub fn next_field(value: u8, first: u8, last: u8) -> (u8, bool) {
    match from_bcd(value) {
        Some(n) if first <= n && n < last => (to_bcd(n + 1), false),
        _ => (to_bcd(first), true),
    }
}

/// The hours register: bit 6 picks 12-hour, then bit 5 is PM and 12 AM the first hour.
/// Bits 7 (CALSGN) and 6 stay.
pub fn next_hours(byte: u8) -> (u8, bool) {
    let kept = byte & 0xC0;
    if byte & 0x40 == 0 {
        let (hours, carry) = next_field(byte & 0x3F, 0, 23);
        return (kept | hours, carry);
    }
    let afternoon = byte & 0x20 != 0;
    // Hours since 12 AM, 0 to 23.
    let since = match from_bcd(byte & 0x1F) {
        Some(n) if (1..=12).contains(&n) => n % 12 + if afternoon { 12 } else { 0 },
        _ => 23, // not valid: as the last hour
    };
    let next = (since + 1) % 24;
    let shown = if next % 12 == 0 { 12 } else { next % 12 };
    let pm = if next >= 12 { 0x20 } else { 0 };
    (kept | pm | to_bcd(shown), next == 0)
}

/// 01 Calendar: a year is a leap year if it is valid and 4 divides it.
pub fn leap(year: u8) -> bool {
    matches!(from_bcd(year), Some(n) if n % 4 == 0)
}

/// 01 Calendar: the last date of a month (bits 4:0 of 06h); one that is not valid has 31.
pub fn month_length(month: u8, year: u8) -> u8 {
    match from_bcd(month) {
        Some(2) if leap(year) => 29,
        Some(2) => 28,
        Some(4 | 6 | 9 | 11) => 30,
        _ => 31,
    }
}

/// One step of the hundredths, with every carry it causes. 01 Calendar: seconds, minutes and hours
/// pass it on; the hours' carry moves day and date, the date's the month, the month's the year. A
/// carry of the day is lost.
pub fn step(time: &mut [u8; 8]) -> Reach {
    // Takes the bits of `mask` at `place` on; the others stay.
    fn advance(time: &mut [u8; 8], place: usize, mask: u8, first: u8, last: u8) -> bool {
        let (value, carry) = next_field(time[place] & mask, first, last);
        time[place] = time[place] & !mask | value;
        carry
    }
    if !advance(time, 0, 0xFF, 0, 99) {
        return Reach::Hundredths;
    }
    if !advance(time, 1, 0x7F, 0, 59) {
        return Reach::Seconds;
    }
    if !advance(time, 2, 0x7F, 0, 59) {
        return Reach::Minutes;
    }
    let (hours, carry) = next_hours(time[3]);
    time[3] = hours;
    if !carry {
        return Reach::Hours;
    }
    advance(time, 4, 0x07, 1, 7);
    let last = month_length(time[6] & 0x1F, time[7]);
    if !advance(time, 5, 0x3F, 1, last) {
        return Reach::Date;
    }
    if !advance(time, 6, 0x1F, 1, 12) {
        return Reach::Month;
    }
    advance(time, 7, 0xFF, 0, 99);
    Reach::Year
}

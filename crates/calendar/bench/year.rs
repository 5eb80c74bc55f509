//! A year of midnights by the proved calendar that is linked and by the model: dates compared, then the least time of each, in nanoseconds a midnight.
use model::calendar::step;
use std::hint::black_box;
use std::time::Instant;

extern "C" {
    // Day, date, month and year, a byte each from the lowest, one midnight on.
    fn midnight(date: u64) -> u64;
}

const YEAR: u32 = 365;
const TURNS: u32 = 2_000;

fn proved(date: u32) -> u32 {
    unsafe { midnight(date.into()) as u32 }
}

fn modelled(date: u32) -> u32 {
    let [day, date, month, year] = date.to_le_bytes();
    let mut time = [0x99, 0xd9, 0x59, 0x23, day, date, month, year];
    step(&mut time);
    u32::from_le_bytes([time[4], time[5], time[6], time[7]])
}

// The least time of a midnight in five walks through a year, each of many turns.
fn timed(first: u32, next: fn(u32) -> u32) -> f64 {
    let mut least = f64::MAX;
    for _ in 0..5 {
        let start = Instant::now();
        for _ in 0..TURNS {
            let mut date = black_box(first);
            for _ in 0..YEAR {
                date = next(date);
            }
            black_box(date);
        }
        least = least.min(start.elapsed().as_nanos() as f64 / f64::from(TURNS * YEAR));
    }
    least
}

fn alike(date: u32) {
    assert_eq!(proved(date), modelled(date), "the copies differ after {:02x?}", date.to_le_bytes());
}

fn main() {
    // every date of the years 00 to 99
    let mut date = u32::from_le_bytes([1, 0x01, 0x01, 0x00]);
    for _ in 0..36_525 {
        alike(date);
        date = modelled(date);
    }
    // the end of every month's byte, in a common year, a leap year and a year that is not valid
    for month in 0..=255 {
        for year in [0x26, 0x28, 0xa0] {
            for date in [0x27, 0x28, 0x29, 0x30, 0x31, 0x32] {
                alike(u32::from_le_bytes([1, date, month, year]));
            }
        }
    }
    let first = u32::from_le_bytes([4, 0x01, 0x01, 0x26]);
    println!("{:.3} {:.3}", timed(first, proved), timed(first, modelled));
}

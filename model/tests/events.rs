//! 02 Events: the inputs EVHS and EVLS, register 0Bh, and where their flags come. Expected numbers
//! are the paper's: 1, 4, 16 or 32 rises, 8,192 ticks, 1,024 or 16,384 ticks.

mod common;
use common::*;
use model::chip::{Device, Frame, Place};
use model::generate::Random;
use model::tape;
use model::Act;

const EVHIF: u8 = 0x80;
const EVLIF: u8 = 0x40;
const EVEN1: u8 = 0x20;
const EVEN0: u8 = 0x10;
const EVWDT: u8 = 0x08;
const EVLDB: u8 = 0x04;

const PARTS: [u64; 4] = [W1K, W2K, B1K, B2K];

/// A chip whose ticks count, with this byte in 0Bh.
fn running(part: u64, byte: u8) -> Rig {
    let mut rig = Rig::new(part);
    rig.start_at([0, 0, 0, 0, 1, 1, 1, 0]);
    rig.write(0x0B, &[byte]);
    rig
}

impl Rig {
    fn rise(&mut self) {
        self.evhs(0);
        self.evhs(1);
    }

    fn flags(&self) -> u8 {
        self.device.registers[0x0B] & 0xC0
    }

    /// Edges, ticks since the first, debounce ticks.
    fn counts(&self) -> (u64, u64, u64) {
        (self.device.edges, self.device.since, self.device.debounce)
    }

    fn levels(&self) -> (u64, u64) {
        (self.device.evls, self.device.evhs)
    }
}

fn number_of(byte: u8) -> u64 {
    [1, 4, 16, 32][usize::from(byte % 4)]
}

fn debounce_of(byte: u8) -> u64 {
    if byte & EVLDB == 0 {
        1_024
    } else {
        16_384
    }
}

// ---------------------------------------------------------------------------------------------
// Levels and edges

#[test]
fn levels_are_set() {
    for part in PARTS {
        let mut rig = Rig::new(part);
        assert_eq!(rig.levels(), (0, 0));
        rig.evls(1);
        assert_eq!(rig.levels(), (1, 0));
        rig.evhs(1);
        assert_eq!(rig.levels(), (1, 1));
        rig.evls(0);
        assert_eq!(rig.levels(), (0, 1));
        rig.evhs(0);
        assert_eq!(rig, Rig::new(part));
    }
}

#[test]
fn a_level_that_is_there_is_no_edge() {
    // 0Bh with all enabled, with and without EVWDT.
    for byte in [0x33, 0x3B, 0x37] {
        for (evls, evhs) in [(0, 0), (0, 1), (1, 0), (1, 1)] {
            let mut rig = running(W2K, byte);
            rig.write(0x0A, &[0x80]);
            rig.evls(evls);
            rig.evhs(evhs);
            rig.wait(20);
            let before = rig.clone();
            for _ in 0..40 {
                rig.evls(evls);
                rig.evhs(evhs);
            }
            assert_eq!(rig, before);
        }
    }
}

// ---------------------------------------------------------------------------------------------
// EVHS

#[test]
fn each_number_of_edges() {
    for part in PARTS {
        for (setting, number) in [(0, 1), (1, 4), (2, 16), (3, 32)] {
            let mut rig = running(part, EVEN1 | setting);
            for edge in 1..number {
                rig.rise();
                rig.wait(3);
                let since = 3 * edge;
                assert_eq!((rig.flags(), rig.counts(), rig.lines()), (0, (edge, since, 0), (1, 1)));
            }
            // The flag is there when the act is over; a fall before it was none of the edges.
            rig.evhs(0);
            assert_eq!((rig.flags(), rig.lines()), (0, (1, 1)));
            rig.evhs(1);
            assert_eq!((rig.flags(), rig.counts(), rig.lines()), (EVHIF, (0, 0, 0), (0, 1)));
            assert_eq!(rig.read(0x0B), EVHIF | EVEN1 | setting);
        }
    }
}

#[test]
fn falls_are_not_counted() {
    let mut rig = running(W2K, EVEN1);
    rig.device.evhs = 1;
    let before = rig.clone();
    rig.evhs(0);
    assert_eq!(rig.counts(), (0, 0, 0));
    assert_eq!(rig.device, Device { evhs: 0, ..before.device });
}

#[test]
fn what_a_rise_of_evhs_needs() {
    // All bytes of 0Bh: EVEN1 and OSCON set, EVHIF and EVWDT clear, whatever the others are.
    for byte in 0..=255_u8 {
        for start_up in [32, 31, 0] {
            let mut rig = running(B1K, byte);
            rig.device.start_up = start_up;
            let before = rig.device.clone();
            rig.evhs(1);
            let counts = byte & (EVEN1 | EVHIF | EVWDT) == EVEN1 && start_up == 32;
            let mut after = Device { evhs: 1, ..before };
            if counts && number_of(byte) == 1 {
                after.registers[0x0B] |= EVHIF;
            } else if counts {
                after.edges = 1;
            }
            assert_eq!(rig.device, after, "{byte:02X}h, start-up {start_up}");
        }
    }
}

#[test]
fn the_window_at_its_last_tick() {
    for setting in 1..=3 {
        let number = number_of(setting);
        // All but one edge at the first tick, the last at the 8,192nd: inside.
        let mut rig = running(W2K, EVEN1 | setting);
        for _ in 1..number {
            rig.rise();
        }
        assert_eq!(rig.wait(8_192), 8_192);
        assert_eq!(rig.counts(), (number - 1, 8_192, 0));
        rig.rise();
        assert_eq!((rig.flags(), rig.counts()), (EVHIF, (0, 0, 0)));
        // A tick more, and the last is the first of its own.
        let mut rig = running(W2K, EVEN1 | setting);
        for _ in 1..number {
            rig.rise();
        }
        assert_eq!(rig.wait(8_193), 8_193);
        assert_eq!(rig.counts(), (0, 0, 0));
        rig.rise();
        assert_eq!((rig.flags(), rig.counts()), (0, (1, 0, 0)));
        // From there the others have their 8,192 ticks again.
        assert_eq!(rig.wait(8_192), 8_192);
        for _ in 2..number {
            rig.rise();
            assert_eq!(rig.flags(), 0);
        }
        rig.rise();
        assert_eq!(rig.flags(), EVHIF);
    }
}

#[test]
fn ticks_run_from_the_first_edge() {
    // Four edges 2,731 ticks apart: the fourth comes at 8,193, though each is close to the one
    // before it. At 2,730 it comes at 8,190.
    for (apart, flags, counts) in [(2_731, 0, (1, 0, 0)), (2_730, EVHIF, (0, 0, 0))] {
        let mut rig = running(W2K, EVEN1 | 1);
        rig.rise();
        for _ in 0..3 {
            assert_eq!(rig.flags(), 0);
            rig.wait(apart);
            rig.rise();
        }
        assert_eq!((rig.flags(), rig.counts()), (flags, counts));
    }
}

#[test]
fn a_lone_edge_is_forgotten() {
    // No more ticks are counted then, and IRQ never moves.
    let mut rig = running(B2K, EVEN1 | 3);
    rig.wait(5_000);
    assert_eq!(rig.counts(), (0, 0, 0));
    rig.rise();
    for since in 1..=8_192 {
        rig.wait(1);
        assert_eq!(rig.counts(), (1, since, 0));
    }
    rig.wait(1);
    assert_eq!(rig.counts(), (0, 0, 0));
    assert_eq!((rig.wait(20_000), rig.counts()), (20_000, (0, 0, 0)));
}

#[test]
fn edges_while_the_flag_is_set() {
    let mut rig = running(W2K, EVEN1 | 1);
    for _ in 0..4 {
        rig.rise();
    }
    let before = rig.device.clone();
    for _ in 0..40 {
        rig.rise();
        assert_eq!(rig.device, before);
    }
    // Cleared by a write, the count starts anew.
    rig.write(0x0B, &[EVEN1 | 1]);
    assert_eq!(rig.lines(), (1, 1));
    for _ in 0..3 {
        rig.rise();
    }
    assert_eq!((rig.flags(), rig.device.edges), (0, 3));
    rig.rise();
    assert_eq!(rig.flags(), EVHIF);
}

// ---------------------------------------------------------------------------------------------
// EVLS

#[test]
fn both_debounce_times() {
    for part in PARTS {
        for (byte, ticks) in [(EVEN0, 1_024), (EVEN0 | EVLDB, 16_384)] {
            let mut rig = running(part, byte);
            rig.evls(1);
            assert_eq!(rig.counts(), (0, 0, ticks));
            // One before the last: nothing yet.
            assert_eq!(rig.wait(ticks - 1), ticks - 1);
            assert_eq!((rig.flags(), rig.counts(), rig.lines()), (0, (0, 0, 1), (1, 1)));
            // The last one, at which a longer wait stops.
            assert_eq!(rig.wait(50), 1);
            assert_eq!((rig.flags(), rig.counts(), rig.lines()), (EVLIF, (0, 0, 0), (0, 1)));
            assert_eq!(rig.read(0x0B), byte | EVLIF);
            // It is said once.
            assert_eq!(rig.wait(50_000), 50_000);
            assert_eq!(rig.read(0x0B), byte | EVLIF);
        }
    }
}

#[test]
fn what_a_rise_of_evls_needs() {
    // All bytes of 0Bh: EVEN0 and OSCON set, EVLIF clear. A rise that starts nothing starts
    // nothing later either.
    for byte in 0..=255_u8 {
        for start_up in [32, 31, 0] {
            let mut rig = running(B1K, byte);
            rig.device.start_up = start_up;
            let before = rig.device.clone();
            rig.evls(1);
            let starts = byte & (EVEN0 | EVLIF) == EVEN0 && start_up == 32;
            let debounce = if starts { debounce_of(byte) } else { 0 };
            assert_eq!(rig.device, Device { evls: 1, debounce, ..before }, "{byte:02X}h");
            if !starts {
                assert_eq!(rig.wait(17_000), 17_000);
                assert_eq!(rig.flags(), byte & 0xC0);
            }
        }
    }
}

#[test]
fn a_level_high_before_the_enable() {
    // The level stands, 0Bh enables the input, and nothing comes until it falls and rises.
    let mut rig = running(W2K, 0x00);
    rig.evls(1);
    rig.write(0x0B, &[EVEN0]);
    assert_eq!((rig.wait(20_000), rig.flags()), (20_000, 0));
    rig.evls(1);
    assert_eq!((rig.wait(20_000), rig.flags()), (20_000, 0));
    rig.evls(0);
    rig.evls(1);
    assert_eq!((rig.wait(20_000), rig.flags()), (1_024, EVLIF));
}

#[test]
fn bounce() {
    for (byte, ticks) in [(EVEN0, 1_024), (EVEN0 | EVLDB, 16_384)] {
        let mut rig = running(B2K, byte);
        for held in [0, 1, 500, ticks - 1] {
            rig.evls(1);
            assert_eq!(rig.counts().2, ticks);
            rig.wait(held);
            assert_eq!(rig.counts().2, ticks - held);
            rig.evls(0);
            assert_eq!(rig.counts().2, 0);
            assert_eq!((rig.wait(2 * ticks), rig.flags()), (2 * ticks, 0));
        }
        // After the last rise the whole time runs.
        rig.evls(1);
        assert_eq!((rig.wait(50_000), rig.flags()), (ticks, EVLIF));
    }
}

#[test]
fn the_same_level_does_not_start_anew() {
    let mut rig = running(W1K, EVEN0);
    rig.evls(1);
    rig.wait(1_000);
    rig.evls(1);
    assert_eq!((rig.wait(50_000), rig.flags()), (24, EVLIF));
}

#[test]
fn the_flag_of_evls_stays() {
    let mut rig = running(W2K, EVEN0);
    rig.evls(1);
    rig.wait(1_024);
    // A fall, a new rise and time leave it, and start nothing.
    for level in [0, 1, 0, 1] {
        rig.evls(level);
        assert_eq!((rig.flags(), rig.counts(), rig.lines()), (EVLIF, (0, 0, 0), (0, 1)));
    }
    assert_eq!(rig.wait(20_000), 20_000);
    rig.write(0x0B, &[EVEN0]);
    assert_eq!((rig.flags(), rig.lines()), (0, (1, 1)));
    assert_eq!((rig.wait(20_000), rig.flags()), (20_000, 0));
    rig.evls(0);
    rig.evls(1);
    assert_eq!((rig.wait(20_000), rig.flags()), (1_024, EVLIF));
}

#[test]
fn the_inputs_do_not_mix() {
    // EVHS sets EVHIF alone, EVLS EVLIF alone, whichever else is enabled.
    let mut rig = running(W2K, EVEN1 | EVEN0);
    rig.evhs(1);
    assert_eq!((rig.flags(), rig.counts()), (EVHIF, (0, 0, 0)));
    let mut rig = running(W2K, EVEN1 | EVEN0 | 1);
    rig.evls(1);
    assert_eq!((rig.flags(), rig.counts()), (0, (0, 0, 1_024)));
    rig.rise();
    rig.wait(1_024);
    assert_eq!((rig.flags(), rig.counts()), (EVLIF, (1, 1_024, 0)));
    // EVLIF set does not hold the edges, nor EVHIF the debounce.
    for _ in 0..3 {
        rig.rise();
    }
    assert_eq!(rig.flags(), EVHIF | EVLIF);
    let mut rig = running(W2K, EVHIF | EVEN1 | EVEN0);
    rig.evls(1);
    assert_eq!((rig.wait(5_000), rig.flags()), (1_024, EVHIF | EVLIF));
}

// ---------------------------------------------------------------------------------------------
// 0Bh

#[test]
fn every_byte_of_0bh_is_stored() {
    for part in PARTS {
        for byte in 0..=255 {
            let mut rig = Rig::new(part);
            rig.write(0x0B, &[byte]);
            assert_eq!(rig.read(0x0B), byte);
            assert_eq!(rig.lines(), (u8::from(byte < 0x40), 1));
        }
    }
}

/// Edges, ticks since the first and debounce ticks, all above 0, both levels high.
fn at_work(part: u64) -> Rig {
    let mut rig = running(part, EVEN1 | EVEN0 | 2);
    rig.evls(1);
    rig.rise();
    rig.rise();
    rig.wait(100);
    assert_eq!((rig.counts(), rig.levels()), ((2, 100, 924), (1, 1)));
    rig
}

#[test]
fn a_write_of_0bh_zeroes_the_counts() {
    for byte in 0..=255 {
        let mut rig = at_work(W2K);
        // With that byte, before the end, and the levels stay.
        rig.select();
        rig.byte(0x12);
        rig.byte(0x0B);
        assert_eq!(rig.counts(), (2, 100, 924));
        rig.byte(byte);
        assert_eq!((rig.counts(), rig.levels()), ((0, 0, 0), (1, 1)));
        rig.end(0);
        // The level is high and stays high: no event comes.
        assert_eq!((rig.wait(17_000), rig.flags()), (17_000, byte & 0xC0));
    }
    // In a longer write.
    let mut rig = at_work(W2K);
    rig.write(0x0A, &[0x00, EVEN1 | EVEN0 | 2, 0x00]);
    assert_eq!(rig.counts(), (0, 0, 0));
}

#[test]
fn other_writes_leave_the_counts() {
    for address in (0x00..=0xFF).filter(|&address| address != 0x0B && address != 0x01) {
        let mut rig = at_work(W2K);
        rig.write(address, &[0x5A]);
        assert_eq!((rig.counts(), rig.levels()), ((2, 100, 924), (1, 1)), "{address:02X}h");
        assert_eq!(rig.read(0x0B), EVEN1 | EVEN0 | 2);
    }
    // The write ends before 0Bh; a read; an address alone; a frame that does not write.
    let mut rig = at_work(W2K);
    rig.write(0x08, &[0, 0, 0]);
    rig.write(0x0B, &[]);
    assert_eq!(rig.read(0x0B), 0x32);
    for bytes in [&[0x44][..], &[0x54], &[0x13, 0x0B, 0, 0], &[0x02, 0x0B, 0], &[0x06]] {
        rig.frame(bytes);
    }
    assert_eq!(rig.counts(), (2, 100, 924));
}

#[test]
fn flags_set_by_a_write() {
    // They pull IRQ low at that byte, enabled or not, running or not.
    for oscon in [true, false] {
        for (byte, irq) in [(0x80, 0), (0x40, 0), (0xC0, 0), (0xF0, 0), (0x8B, 0), (0x3F, 1)] {
            let mut rig = if oscon { running(W2K, 0) } else { Rig::new(W2K) };
            rig.select();
            rig.byte(0x12);
            rig.byte(0x0B);
            assert_eq!(rig.lines(), (1, 1));
            rig.byte(byte);
            assert_eq!(rig.lines(), (irq, 1), "{byte:02X}h");
            rig.end(0);
            // Nothing changes in a wait, so it does not stop.
            assert_eq!(rig.wait(10_000), 10_000);
            assert_eq!(rig.lines(), (irq, 1));
            rig.write(0x0B, &[byte & 0x3F]);
            assert_eq!(rig.lines(), (1, 1));
        }
    }
}

#[test]
fn one_flag_cleared_leaves_the_other() {
    let mut rig = running(W2K, EVHIF | EVLIF);
    rig.write(0x0B, &[EVHIF]);
    assert_eq!(rig.lines(), (0, 1));
    rig.write(0x0B, &[EVLIF]);
    assert_eq!(rig.lines(), (0, 1));
    rig.write(0x0B, &[0]);
    assert_eq!(rig.lines(), (1, 1));
}

#[test]
fn flags_beside_alarms() {
    // IRQ is low while either holds it; an alarm on WDO has its own line.
    for (flags, alarm, lines) in [
        (0x00, 0x00, (1, 1)),
        (0x00, 0x08, (0, 1)),
        (EVHIF, 0x00, (0, 1)),
        (EVLIF, 0x08, (0, 1)),
        (EVHIF, 0x88, (0, 0)),
        (0x00, 0x88, (1, 0)),
    ] {
        let mut rig = Rig::new(W2K);
        rig.write(0x08, &[0x10]);
        rig.write(0x0B, &[flags]);
        rig.write(0x0F, &[alarm]);
        assert_eq!(rig.lines(), lines);
    }
}

// ---------------------------------------------------------------------------------------------
// Waits

#[test]
fn a_flag_stops_a_wait_where_irq_is_low() {
    // By the other flag, or high before.
    for (byte, irq) in [(EVHIF | EVEN0, 0), (EVEN0, 1)] {
        let mut rig = running(W2K, byte);
        rig.evls(1);
        assert_eq!(rig.lines(), (irq, 1));
        assert_eq!((rig.wait(9_000), rig.read(0x0B)), (1_024, byte | EVLIF));
        assert_eq!(rig.lines(), (0, 1));
        assert_eq!(rig.wait(9_000), 9_000);
    }
    // By an alarm: seconds of alarm 0 match after 32,768 ticks.
    let mut rig = running(W2K, EVEN0 | EVLDB);
    rig.write(0x08, &[0x10]);
    rig.write(0x0C, &[0x01]);
    assert_eq!(rig.wait(30_000), 30_000);
    rig.evls(1);
    assert_eq!((rig.wait(100_000), rig.lines()), (2_768, (0, 1)));
    assert_eq!((rig.wait(100_000), rig.lines()), (16_384 - 2_768, (0, 1)));
    assert_eq!(rig.flags(), EVLIF);
    // With the flag set, the next alarm does not stop one: only lines and event flags do.
    rig.write(0x0F, &[0x00]);
    rig.write(0x0C, &[0x02]);
    assert_eq!((rig.wait(40_000), rig.read(0x0F)), (40_000, 0x08));
}

#[test]
fn waits_go_on_where_nothing_changes() {
    // Edges counted and forgotten, a debounce that runs, are no reason to stop.
    let mut rig = at_work(B2K);
    assert_eq!(rig.wait(923), 923);
    assert_eq!(rig.wait(1), 1);
    assert_eq!(rig.wait(20_000), 20_000);
    assert_eq!(rig.counts(), (0, 0, 0));
}

#[test]
fn a_wait_in_pieces() {
    // Tick by tick, or at once: the same chip.
    let mut whole = at_work(W2K);
    let mut pieces = whole.clone();
    assert_eq!(whole.wait(5_000), 924);
    let used: u64 = (0..924).map(|_| pieces.wait(1)).sum();
    assert_eq!(used, 924);
    assert_eq!(whole, pieces);
    assert_eq!(whole.wait(0), 0);
    assert_eq!(whole, pieces);
}

#[test]
fn a_long_wait_over_a_debounce() {
    let mut rig = running(W2K, EVEN0 | EVLDB);
    rig.evls(1);
    assert_eq!(rig.wait(16_777_216), 16_384);
    assert_eq!(rig.wait(16_777_216), 16_777_216);
}

#[test]
fn the_watchdog_at_the_same_tick() {
    // Time-out and debounce end together; both are there after the one tick.
    let mut rig = running(W2K, EVEN0);
    rig.evls(1);
    rig.wait(512);
    rig.write(0x0A, &[0x81]);
    assert_eq!(rig.wait(10_000), 512);
    assert_eq!((rig.lines(), rig.flags(), rig.read(0x0A)), ((0, 0), EVLIF, 0xC1));
}

// ---------------------------------------------------------------------------------------------
// EVWDT

#[test]
fn either_edge_keeps_the_watchdog() {
    for (code, period) in [(0x80, 32), (0x81, 512)] {
        let mut rig = running(W2K, EVWDT);
        rig.write(0x0A, &[code]);
        for k in 0..20 {
            assert_eq!(rig.wait(period - 1), period - 1);
            assert_eq!(rig.device.watchdog, period - 1);
            rig.evhs((k + 1) % 2);
            assert_eq!(rig.device.watchdog, 0);
        }
        // The same level again is no edge: the time-out comes.
        rig.wait(period - 1);
        rig.evhs(0);
        assert_eq!((rig.wait(1), rig.lines()), (1, (1, 0)));
        assert_eq!(rig.read(0x0A), code | 0x40);
    }
}

#[test]
fn without_evwdt_the_watchdog_runs_on() {
    for byte in [0x00, 0x20, 0x30, 0x37] {
        let mut rig = running(W2K, byte);
        rig.write(0x0A, &[0x80]);
        rig.wait(31);
        rig.rise();
        rig.evhs(0);
        assert_eq!(rig.device.watchdog, 31);
        assert_eq!((rig.wait(100), rig.lines().1), (1, 0));
    }
    // EVLS is not the drum.
    let mut rig = running(W2K, EVWDT | EVEN0);
    rig.write(0x0A, &[0x80]);
    rig.wait(31);
    rig.evls(1);
    rig.evls(0);
    assert_eq!(rig.device.watchdog, 31);
}

#[test]
fn evwdt_edges_are_no_events() {
    for setting in 0..=3 {
        let mut rig = running(W2K, EVWDT | EVEN1 | EVEN0 | setting);
        for _ in 0..40 {
            rig.rise();
        }
        assert_eq!((rig.flags(), rig.counts()), (0, (0, 0, 0)));
    }
}

#[test]
fn evwdt_needs_nothing_else() {
    // Any byte of 0Bh with it, OSCON or not, power or not, the watchdog on, off or timed out. The
    // delay and the pulse stay.
    for byte in (0..=255_u8).filter(|byte| byte & EVWDT != 0) {
        for (start_up, power, code) in [
            (32, true, 0x81),
            (0, true, 0x81),
            (32, false, 0x81),
            (32, true, 0x01),
            (7, false, 0xF1),
        ] {
            for level in [0, 1] {
                let mut rig = Rig::new(B2K);
                let d = &mut rig.device;
                (d.registers[0x0A], d.registers[0x0B]) = (code, byte);
                (d.start_up, d.power, d.evhs) = (start_up, power, 1 - level);
                (d.watchdog, d.delay, d.pulse) = (100, 2_000, 3);
                let before = rig.device.clone();
                rig.evhs(level);
                assert_eq!(rig.device, Device { watchdog: 0, evhs: level, ..before });
            }
        }
    }
}

#[test]
fn evwdt_in_the_delay() {
    // The count stands at 0 while the delay runs, and edges do not make the delay longer.
    let mut rig = running(W2K, EVWDT);
    rig.write(0x0A, &[0xA0]);
    rig.wait(1_000);
    rig.rise();
    assert_eq!(rig.device.delay, 2_097_152 - 1_000);
    assert_eq!(rig.wait(3_000_000), 2_097_152 - 1_000 + 32);
}

#[test]
fn evwdt_in_the_pulse() {
    let mut rig = running(W2K, EVWDT);
    rig.write(0x0A, &[0x90]);
    assert_eq!(rig.wait(100), 32);
    rig.wait(96);
    rig.rise();
    assert_eq!((rig.device.pulse, rig.lines()), (4_000, (1, 0)));
    assert_eq!(rig.wait(9_000), 4_000);
}

// ---------------------------------------------------------------------------------------------
// The oscillator

#[test]
fn oscon_clear() {
    // A W part with ST clear: edges count nothing, and time does nothing.
    let mut rig = Rig::new(W2K);
    rig.write(0x0B, &[EVEN1 | EVEN0]);
    rig.rise();
    rig.evls(1);
    assert_eq!((rig.wait(20_000), rig.counts(), rig.flags()), (20_000, (0, 0, 0), 0));
    // With OSCON the levels are there already: new edges are wanted.
    rig.write(0x01, &[0x80]);
    assert_eq!((rig.wait(20_000), rig.counts(), rig.flags()), (20_000, (0, 0, 0), 0));
    rig.evls(0);
    rig.evls(1);
    rig.rise();
    assert_eq!((rig.flags(), rig.wait(20_000)), (EVHIF, 1_024));
}

#[test]
fn oscon_comes() {
    // At 31 ticks an edge counts for nothing; the 32nd brings OSCON and is no counted tick.
    for part in PARTS {
        let mut rig = Rig::new(part);
        rig.write(0x01, &[0x80]);
        rig.write(0x0B, &[EVEN1 | EVEN0 | 1]);
        rig.wait(31);
        rig.evls(1);
        rig.rise();
        assert_eq!(rig.counts(), (0, 0, 0));
        rig.wait(1);
        assert_eq!(rig.counts(), (0, 0, 0));
        rig.evls(0);
        rig.evls(1);
        rig.rise();
        assert_eq!(rig.counts(), (1, 0, 1_024));
        rig.wait(1);
        assert_eq!(rig.counts(), (1, 1, 1_023));
    }
}

#[test]
fn st_cleared_in_the_middle() {
    // A W part: OSCON goes with ST. The counts stand until it is back, 32 ticks after ST.
    for part in [W1K, W2K] {
        let mut rig = at_work(part);
        rig.write(0x01, &[0x00]);
        assert_eq!(rig.wait(50_000), 50_000);
        assert_eq!(rig.counts(), (2, 100, 924));
        // A rise in between counts for nothing; a fall of EVLS still ends the debounce.
        rig.rise();
        assert_eq!(rig.counts(), (2, 100, 924));
        rig.write(0x01, &[0x80]);
        rig.wait(32);
        assert_eq!(rig.counts(), (2, 100, 924));
        assert_eq!((rig.wait(50_000), rig.flags()), (924, EVLIF));
        assert_eq!(rig.counts(), (2, 1_024, 0));
        // 8,192 counted ticks in all are still inside.
        rig.wait(8_192 - 1_024);
        assert_eq!(rig.counts(), (2, 8_192, 0));
        rig.wait(1);
        assert_eq!(rig.counts(), (0, 0, 0));
    }
    let mut rig = at_work(W2K);
    rig.write(0x01, &[0x00]);
    rig.evls(0);
    assert_eq!(rig.counts(), (2, 100, 0));
    rig.evls(1);
    assert_eq!(rig.counts(), (2, 100, 0));
    // A B part: its oscillator runs on, and so do the counts; only the calendar stands.
    for part in [B1K, B2K] {
        let mut rig = at_work(part);
        let divider = rig.device.divider;
        rig.write(0x01, &[0x00]);
        assert_eq!((rig.wait(50_000), rig.flags()), (924, EVLIF));
        assert_eq!((rig.counts(), rig.device.divider), ((2, 1_024, 0), divider));
        for _ in 0..14 {
            rig.rise();
        }
        assert_eq!(rig.flags(), EVHIF | EVLIF);
    }
}

// ---------------------------------------------------------------------------------------------
// Power

#[test]
fn a_cut_with_the_battery() {
    for part in PARTS {
        let mut rig = at_work(part);
        rig.write(0x04, &[0x09]);
        rig.cut(0xFF);
        assert_eq!((rig.counts(), rig.levels(), rig.flags()), ((2, 100, 924), (1, 1), 0));
        // Time and edges count as before; the flag stops a wait and pulls IRQ low.
        rig.rise();
        assert_eq!(rig.counts(), (3, 100, 924));
        assert_eq!((rig.wait(50_000), rig.lines()), (924, (0, 1)));
        assert_eq!((rig.counts(), rig.flags()), ((3, 1_024, 0), EVLIF));
        for _ in 0..13 {
            rig.rise();
        }
        assert_eq!(rig.flags(), EVHIF | EVLIF);
        rig.up();
        assert_eq!((rig.levels(), rig.lines()), ((1, 1), (0, 1)));
        assert_eq!(rig.read(0x0B), 0xF2);
    }
}

#[test]
fn a_cut_without_the_battery() {
    for part in PARTS {
        for flags in [0x00, EVHIF, EVLIF] {
            let mut rig = at_work(part);
            rig.device.registers[0x0B] |= flags;
            rig.cut(0xFF);
            // The counts and 0Bh are gone, IRQ is high; the levels are the world's.
            assert_eq!((rig.counts(), rig.levels(), rig.lines()), ((0, 0, 0), (1, 1), (1, 1)));
            assert_eq!(rig.device.registers[0x0B], 0);
            let off = rig.clone();
            assert_eq!(rig.wait(50_000), 50_000);
            assert_eq!(rig, off);
            rig.rise();
            rig.evls(0);
            rig.evls(1);
            assert_eq!(rig, off);
            rig.up();
            assert_eq!((rig.read(0x0B), rig.levels()), (0x00, (1, 1)));
        }
    }
}

#[test]
fn levels_over_an_outage() {
    // What was high before the cut, or became so while power was off, is no rise after it.
    for day in [0x01, 0x09] {
        for set_before in [true, false] {
            let mut rig = running(B2K, 0x00);
            rig.write(0x04, &[day]);
            if set_before {
                rig.evls(1);
                rig.evhs(1);
            }
            rig.cut(0);
            rig.evls(1);
            rig.evhs(1);
            assert_eq!(rig.levels(), (1, 1));
            rig.up();
            assert_eq!(rig.levels(), (1, 1));
            rig.wait(33);
            rig.write(0x0B, &[EVEN1 | EVEN0]);
            rig.evls(1);
            rig.evhs(1);
            assert_eq!((rig.counts(), rig.flags()), ((0, 0, 0), 0));
            rig.evhs(0);
            rig.evhs(1);
            assert_eq!(rig.flags(), EVHIF);
        }
    }
}

#[test]
fn a_record_off_without_the_battery() {
    // 0Bh may stand in such a record. Edges go by it; no tick passes.
    let mut rig = running(B2K, EVEN1 | EVEN0 | 1);
    rig.device.power = false;
    rig.evls(1);
    rig.rise();
    assert_eq!(rig.counts(), (1, 0, 1_024));
    assert_eq!((rig.wait(50_000), rig.counts()), (50_000, (1, 0, 1_024)));
    for _ in 0..3 {
        rig.rise();
    }
    assert_eq!((rig.flags(), rig.lines()), (EVHIF, (0, 1)));
}

#[test]
fn a_cut_leaves_a_flag_with_the_battery() {
    let mut rig = running(W2K, EVHIF);
    rig.write(0x04, &[0x09]);
    rig.cut(0);
    assert_eq!(rig.lines(), (0, 1));
    rig.up();
    assert_eq!((rig.lines(), rig.read(0x0B)), ((0, 1), EVHIF));
}

// ---------------------------------------------------------------------------------------------
// Pins beside frames, and refusals

#[test]
fn pins_leave_a_frame() {
    // READ answers 0Bh of the moment; the frame goes on where it was.
    let mut rig = running(W2K, EVEN1);
    rig.select();
    rig.evls(1);
    rig.byte(0x13);
    rig.evls(0);
    rig.byte(0x0B);
    rig.evhs(1);
    assert_eq!(rig.device.frame, Frame::Reading(Place::Clock(0x0B)));
    assert_eq!(rig.byte(0), Some(EVHIF | EVEN1));
    rig.evhs(0);
    assert_eq!(rig.end(3), Some(0)); // of 0Ch
                                     // A write cycle goes on too.
    rig.eeprom_write(0x10, &[0x55]);
    rig.evls(1);
    rig.evhs(1);
    assert_eq!(rig.wait(500), 164);
    assert_eq!(rig.eeprom[0x10], 0x55);
}

#[test]
fn an_end_shows_a_flag_of_the_moment() {
    let mut rig = running(W2K, EVEN1);
    rig.select();
    rig.byte(0x13);
    rig.byte(0x0B);
    rig.evhs(1);
    assert_eq!(rig.end(3), Some(0b101));
}

#[test]
fn refused_by_3() {
    for part in PARTS {
        for act in [Act::Evls, Act::Evhs] {
            for number in [2, 3, 255, 256, 257, 1 << 32, (1 << 32) + 1, u64::MAX] {
                let mut rig = Rig::new(part);
                rig.refused(act, number, 3);
                rig.select();
                rig.refused(act, number, 3);
                rig.byte(0x06);
                rig.refused(act, number, 3);
                rig.cut(0);
                rig.refused(act, number, 3);
                rig.up();
                rig.refused(act, number, 3);
            }
        }
    }
}

#[test]
fn never_refused_by_5_1_or_2() {
    for act in [Act::Evls, Act::Evhs] {
        for level in [0, 1, 1, 0] {
            let mut rig = Rig::new(W2K);
            rig.done(act, level); // not selected
            rig.select();
            rig.done(act, level); // selected
            rig.byte(0x05);
            rig.done(act, level);
            rig.cut(0);
            rig.done(act, level); // off
            rig.up();
            rig.done(act, level);
            rig.eeprom_write(0, &[0]);
            rig.done(act, level); // in a cycle
        }
    }
}

#[test]
fn which_refusal_goes_first() {
    for act in [Act::Evls, Act::Evhs] {
        let mut rig = Rig::new(W2K);
        rig.part = 5;
        rig.id.pop();
        rig.device.evls = 2;
        rig.device.power = false;
        rig.refused(act, 2, 3);
        rig.part = W2K;
        rig.refused(act, 2, 4);
        rig.id.push(0xFF);
        rig.refused(act, 2, 6);
        rig.refused(act, 0, 6);
        rig.device.evls = 1;
        rig.refused(act, 2, 3);
        rig.done(act, 1);
    }
}

// ---------------------------------------------------------------------------------------------
// Number 6

/// Whether a record is in range, by all acts.
fn in_range(rig: &Rig) -> bool {
    let all = [
        (Act::Select, 0),
        (Act::Byte, 0),
        (Act::End, 0),
        (Act::Wait, 0),
        (Act::Cut, 0),
        (Act::Up, 0),
        (Act::Evls, 0),
        (Act::Evhs, 1),
    ];
    let verdicts = all.map(|(act, number)| rig.clone().act(act, number).number == 6);
    assert!(verdicts.iter().all(|&six| six == verdicts[0]), "{:?}", rig.device);
    !verdicts[0]
}

/// A record with this byte in 0Bh and these levels, edges, ticks since and debounce ticks.
fn record(byte: u8, [evls, evhs, edges, since, debounce]: [u64; 5]) -> Rig {
    let mut rig = Rig::new(W2K);
    rig.device.registers[0x0B] = byte;
    rig.device = Device { evls, evhs, edges, since, debounce, ..rig.device };
    rig
}

#[test]
fn row_levels() {
    for byte in [0x00, 0x3F, 0xFF] {
        for level in [0, 1, 2, 3, 256, u64::MAX] {
            assert_eq!(in_range(&record(byte, [level, 0, 0, 0, 0])), level <= 1);
            assert_eq!(in_range(&record(byte, [0, level, 0, 0, 0])), level <= 1);
        }
    }
}

#[test]
fn row_edges_below_the_number() {
    for byte in (0..=255_u8).filter(|byte| byte & EVEN1 != 0) {
        for edges in [0, 1, 2, 3, 4, 5, 15, 16, 17, 31, 32, 33, u64::MAX] {
            assert_eq!(in_range(&record(byte, [0, 0, edges, 0, 0])), edges < number_of(byte));
        }
    }
}

#[test]
fn row_ticks_since_the_first() {
    for byte in [EVEN1 | 1, EVEN1 | 2, EVEN1 | 3, EVHIF | EVEN1 | 3, EVEN1 | EVWDT | 2] {
        for since in [0, 1, 8_191, 8_192, 8_193, 8_194, u64::MAX] {
            assert_eq!(in_range(&record(byte, [0, 0, 1, since, 0])), since <= 8_192);
            // With no edge there is no first.
            assert_eq!(in_range(&record(byte, [0, 0, 0, since, 0])), since == 0);
        }
    }
}

#[test]
fn row_debounce_ticks() {
    for byte in (0..=255_u8).filter(|byte| byte & EVEN0 != 0) {
        for ticks in [0, 1, 1_023, 1_024, 1_025, 16_383, 16_384, 16_385, u64::MAX] {
            let most = debounce_of(byte);
            assert_eq!(in_range(&record(byte, [1, 0, 0, 0, ticks])), ticks <= most);
            // With EVLS low none can be left.
            assert_eq!(in_range(&record(byte, [0, 0, 0, 0, ticks])), ticks == 0);
            assert_eq!(in_range(&record(byte, [0, 1, 0, 0, ticks])), ticks == 0);
        }
    }
}

#[test]
fn row_not_enabled() {
    for byte in 0..=255_u8 {
        let (high_speed, low_speed) = (byte & EVEN1 != 0, byte & EVEN0 != 0);
        if number_of(byte) > 1 {
            assert_eq!(in_range(&record(byte, [1, 1, 1, 0, 0])), high_speed);
            assert_eq!(in_range(&record(byte, [1, 1, 1, 1, 0])), high_speed);
        }
        assert!(!in_range(&record(byte, [1, 1, 0, 1, 0])));
        assert_eq!(in_range(&record(byte, [1, 1, 0, 0, 1])), low_speed);
        assert!(in_range(&record(byte, [1, 1, 0, 0, 0])));
    }
}

#[test]
fn all_rows_together() {
    // The list of 02 Events, row by row, on random records near the limits.
    let mut random = Random::new(63);
    let mut goods = 0;
    for _ in 0..200_000 {
        let byte = random.byte();
        let [evls, evhs] = [random.pick(&[0, 1, 1, 2]), random.pick(&[0, 1, 1, 2])];
        let edges = random.pick(&[0, 0, 0, 1, 3, 4, 15, 16, 31, 32]);
        let since = random.pick(&[0, 0, 0, 1, 8_192, 8_193]);
        let debounce = random.pick(&[0, 0, 1, 1_024, 1_025, 16_384, 16_385]);
        let rows = [
            evls > 1,
            evhs > 1,
            edges >= number_of(byte),
            since > 8_192,
            edges == 0 && since > 0,
            debounce > debounce_of(byte),
            evls == 0 && debounce > 0,
            byte & EVEN1 == 0 && edges > 0,
            byte & EVEN1 == 0 && since > 0,
            byte & EVEN0 == 0 && debounce > 0,
        ];
        let mut rig = record(byte, [evls, evhs, edges, since, debounce]);
        rig.part = random.pick(&[W2K, B2K]);
        rig.device.power = !random.once_in(3);
        let good = !rows.contains(&true);
        assert_eq!(rig.act(Act::Wait, 0).number, if good { 0 } else { 6 }, "{:?}", rig.device);
        goods += u64::from(good);
    }
    assert!(goods > 5_000, "{goods}");
}

#[test]
fn what_the_list_does_not_name_works() {
    // Counts beside their set flags stand, and go with a write of 0Bh.
    let mut rig = record(EVHIF | EVLIF | EVEN1 | EVEN0 | 2, [1, 0, 3, 50, 70]);
    rig.start_at([0, 0, 0, 0, 1, 1, 1, 0]);
    rig.rise();
    assert_eq!((rig.wait(20_000), rig.counts()), (20_000, (3, 50, 70)));
    rig.write(0x0B, &[EVEN1 | EVEN0 | 2]);
    assert_eq!(rig.counts(), (0, 0, 0));
    // A fall ends such a debounce.
    let mut rig = record(EVLIF | EVEN0, [1, 0, 0, 0, 70]);
    rig.evls(0);
    assert_eq!(rig.counts(), (0, 0, 0));
    // Edges with EVWDT set: no more come, and their ticks run until they are forgotten.
    let mut rig = record(EVEN1 | EVWDT | 2, [0, 0, 3, 8_190, 0]);
    rig.start_at([0, 0, 0, 0, 1, 1, 1, 0]);
    rig.rise();
    assert_eq!(rig.counts(), (3, 8_190, 0));
    rig.wait(2);
    assert_eq!(rig.counts(), (3, 8_192, 0));
    rig.wait(1);
    assert_eq!(rig.counts(), (0, 0, 0));
}

#[test]
fn acts_keep_the_record_in_range() {
    let mut random = Random::new(64);
    for _ in 0..3_000 {
        let mut chip = model::generate::chip(&mut random);
        for _ in 0..20 {
            let level = random.below(2);
            let (act, number) = random.pick(&[
                (Act::Evls, level),
                (Act::Evhs, level),
                (Act::Wait, 40),
                (Act::Wait, 1_100),
                (Act::Select, 0),
                (Act::Byte, 0x12),
                (Act::Byte, 0x0B),
                (Act::Byte, 0x35),
                (Act::End, 0),
                (Act::Cut, 0),
                (Act::Up, 0),
            ]);
            assert_ne!(chip.perform(act, number).number, 6, "{act:?} {number}: {chip:?}");
        }
    }
}

// ---------------------------------------------------------------------------------------------
// The tape

#[test]
fn lines_of_a_tape() {
    let answers = |lines: &str| String::from_utf8(tape::answers(lines.as_bytes())).unwrap();
    let done = "no=0 out=z irq=1 wdo=1\n";
    for name in ["evls", "evhs"] {
        for level in [0, 1] {
            let line = format!("op={name} arg={level}\n");
            assert_eq!(answers(&format!("op=part arg=1\n{line}{line}")), done.repeat(3));
            // Before a part.
            assert_eq!(answers(&line), "no=74 out=0 irq=1 wdo=1\n");
        }
        for number in ["2", "9", "10", "256", "99999999"] {
            let line = format!("op=part arg=1\nop={name} arg={number}\n");
            assert_eq!(answers(&line), format!("{done}no=3 out=z irq=1 wdo=1\n"));
        }
        // The first digit is at column 13.
        for (bad, number, column) in [
            ("01", 75, 13),
            ("00", 75, 13),
            ("", 72, 13),
            ("-1", 72, 13),
            ("1 ", 72, 14),
            ("100000000", 75, 21),
            ("x", 72, 13),
        ] {
            let line = format!("op=part arg=1\nop={name} arg={bad}\n");
            let expected = format!("{done}no={number} out={column} irq=1 wdo=1\n");
            assert_eq!(answers(&line), expected, "{bad:?}");
        }
    }
    for (name, number, column) in [
        ("ev", 73, 4),
        ("evl", 73, 4),
        ("evh", 73, 4),
        ("EVLS", 72, 4),
        ("Evhs", 72, 4),
        ("evlss", 73, 4),
        ("evhs0", 72, 8),
        ("evls ", 72, 9),
        ("pin", 73, 4),
    ] {
        let line = format!("op=part arg=1\nop={name} arg=1\n");
        let expected = format!("{done}no={number} out={column} irq=1 wdo=1\n");
        assert_eq!(answers(&line), expected, "{name:?}");
    }
    // IRQ goes low in the answer of the edge.
    let tape = "op=part arg=3\nop=wait arg=32\nop=select arg=0\nop=byte arg=18\nop=byte arg=11\n\
                op=byte arg=32\nop=end arg=0\nop=evhs arg=1\nop=evhs arg=0\n";
    let wait = "no=0 out=32 irq=1 wdo=1\n";
    let low = "no=0 out=z irq=0 wdo=1\n";
    assert_eq!(answers(tape), [done, wait, &done.repeat(5), low, low].concat());
}

// ---------------------------------------------------------------------------------------------
// Random runs beside a history

/// What happened since 0Bh was last written, each with the counted ticks until then. It keeps no
/// count: each question is answered by a look through the whole of it.
#[derive(Clone, Default)]
struct History {
    byte: u8,
    now: u64,
    /// Rises of EVHS that 0Bh lets count.
    rises: Vec<u64>,
    /// Edges of EVLS, and whether they start something.
    door: Vec<(u64, bool)>,
}

impl History {
    /// Where the windows end: the rises are cut into groups, each within 8,192 ticks of its first.
    fn fills_a_window(&self) -> bool {
        let mut group: Vec<u64> = Vec::new();
        for &at in &self.rises {
            if group.first().is_some_and(|&first| at - first > 8_192) {
                group.clear();
            }
            group.push(at);
        }
        group.len() as u64 == number_of(self.byte)
    }

    fn evhs(&mut self, rises: bool, oscon: bool) {
        if rises && oscon && self.byte & (EVEN1 | EVHIF | EVWDT) == EVEN1 {
            self.rises.push(self.now);
            if self.fills_a_window() {
                self.byte |= EVHIF;
            }
        }
    }

    fn evls(&mut self, edge: bool, rises: bool, oscon: bool) {
        if edge {
            let starts = rises && oscon && self.byte & (EVEN0 | EVLIF) == EVEN0;
            self.door.push((self.now, starts));
        }
    }

    fn counted_tick(&mut self) {
        self.now += 1;
        let due =
            matches!(self.door.last(), Some((at, true)) if self.now - at == debounce_of(self.byte));
        if due {
            self.byte |= EVLIF;
        }
    }

    fn written(&mut self, byte: u8) {
        *self = History { byte, ..History::default() };
    }
}

#[test]
fn random_runs_beside_a_history() {
    let mut random = Random::new(65);
    let mut met = [0; 4];
    for run in 0..400 {
        let part = 1 + run % 4;
        let mut rig = running(part, 0);
        rig.write(0x04, &[0x09]);
        let mut history = History::default();
        for _ in 0..120 {
            let oscon = rig.device.start_up == 32;
            let (evls, evhs) = rig.levels();
            let before = history.byte;
            match random.below(22) {
                0..=9 => {
                    let level = random.below(2);
                    rig.evhs(level);
                    history.evhs(level > evhs, oscon);
                }
                10..=12 => {
                    let level = random.below(2);
                    rig.evls(level);
                    history.evls(level != evls, level > evls, oscon);
                }
                13..=17 => {
                    let any = random.below(3_000);
                    let n = random.pick(&[1, 30, 1_023, 1_024, 8_192, 16_384, any]);
                    // Tick by tick: does the wait stop where the history says?
                    let mut used = 0;
                    let flags = history.byte;
                    while used < n && history.byte == flags {
                        let counted = rig.device.start_up == 32;
                        assert_eq!(rig.wait(1), 1);
                        used += 1;
                        if counted {
                            history.counted_tick();
                        }
                    }
                }
                18 if rig.device.power => {
                    let setting = random.pick(&[0x30, 0x31, 0x31, 0x32, 0x35, 0x20, 0x10, 0x39]);
                    let byte = if random.once_in(6) { random.byte() } else { setting };
                    rig.write(0x0B, &[byte]);
                    history.written(byte);
                }
                19 if rig.device.power => {
                    let seconds = random.pick(&[0x00, 0x80]);
                    rig.write(0x01, &[seconds]);
                }
                20 if rig.device.power => drop(rig.cut(0)),
                21 if !rig.device.power => rig.up(),
                _ => {}
            }
            assert_eq!(rig.device.registers[0x0B], history.byte, "run {run}");
            let set = history.byte & !before;
            met[0] += u64::from(set & EVHIF != 0);
            met[1] += u64::from(set & EVLIF != 0);
            met[2] += u64::from(set & EVHIF != 0 && number_of(before) > 1);
            met[3] += u64::from(set & EVLIF != 0 && !rig.device.power);
        }
    }
    assert!(met.iter().all(|&count| count > 40), "{met:?}");
}

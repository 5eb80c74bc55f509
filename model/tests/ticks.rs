//! 01 Calendar and ticks: oscillator, divider, alarms, watchdog, and where a wait stops.

mod common;
use common::*;

#[test]
fn start_up_of_a_w_part() {
    // 01 Calendar: a W part starts with ST, a B part by itself. 32 ticks bring OSCON, and the
    // divider moves from the 33rd on.
    for part in [W1K, W2K] {
        let mut rig = Rig::new(part);
        rig.wait(1_000);
        assert_eq!(rig.device.start_up, 0);
        rig.write(0x01, &[0x80]);
        rig.wait(31);
        assert_eq!((rig.read(0x04), rig.device.divider), (0x01, 0));
        rig.wait(1);
        assert_eq!((rig.read(0x04), rig.device.divider), (0x21, 0));
        rig.wait(1);
        assert_eq!(rig.device.divider, 1);
    }
    for part in [B1K, B2K] {
        let mut rig = Rig::new(part);
        rig.wait(31);
        assert_eq!(rig.read(0x04), 0x01);
        rig.wait(1);
        assert_eq!(rig.read(0x04), 0x21);
        rig.wait(1_000);
        assert_eq!(rig.device.divider, 0);
        rig.write(0x01, &[0x80]);
        rig.wait(5);
        assert_eq!(rig.device.divider, 5);
    }
}

#[test]
fn a_second_has_a_hundred_hundredths() {
    // 01 Calendar: after s ticks from 0 they show 100 s / 32,768, rounded down; then all anew.
    let mut rig = Rig::new(W2K);
    rig.start_at([0, 0, 0, 0, 1, 1, 1, 0]);
    for s in 1..=32_768u64 {
        rig.wait(1);
        let hundredths = (100 * s / 32_768 % 100) as u8;
        assert_eq!(rig.device.registers[0], hundredths / 10 * 16 + hundredths % 10, "s {s}");
        assert_eq!(rig.device.divider, s % 32_768);
    }
    assert_eq!(rig.time(), [0x00, 0x81, 0, 0, 1, 1, 1, 0]);
    rig.wait(59 * 32_768 - 1);
    assert_eq!(rig.time(), [0x99, 0xD9, 0, 0, 1, 1, 1, 0]);
    rig.wait(1);
    assert_eq!(rig.time(), [0x00, 0x80, 1, 0, 1, 1, 1, 0]);
}

#[test]
fn writing_a_time_register_keeps_the_divider() {
    let mut rig = Rig::new(W2K);
    rig.start_at([0, 0, 0, 0, 1, 1, 1, 0]);
    rig.wait(300);
    rig.write(0x00, &[0x50, 0x80, 0x30]);
    assert_eq!(rig.device.divider, 300);
    rig.wait(28);
    assert_eq!(rig.read(0x00), 0x51);
}

/// A chip at a time, both alarms off, their registers as given.
fn with_alarm(time: [u8; 8], registers: &[(u8, u8)]) -> Rig {
    let mut rig = Rig::new(W2K);
    rig.start_at(time);
    for &(address, byte) in registers {
        rig.write(address, &[byte]);
    }
    rig
}

const NINE: [u8; 8] = [0x99, 0x59, 0x59, 0x23, 0x03, 0x30, 0x04, 0x20];

/// One step from a time where every field carries: 30 Apr 20 23:59:59.99 to 1 May, day 4.
fn flags_after_midnight(registers: &[(u8, u8)]) -> (u8, u8) {
    let mut rig = with_alarm(NINE, registers);
    rig.device.divider = 32_767;
    rig.wait(1);
    assert_eq!(rig.time(), [0x00, 0x80, 0x00, 0x00, 0x04, 0x01, 0x05, 0x20]);
    (rig.read(0x0F) >> 3 & 1, rig.read(0x16) >> 3 & 1)
}

#[test]
fn each_code_matches_its_field() {
    // 01 Calendar: codes 0 to 4 have one field each, from seconds to date. 7 has these together,
    // on alarm 0 with the month; 5 has the hundredths, on alarm 1. The others have none.
    // Alarm registers that match after midnight, and the bytes that do not.
    let good0 = [(0x0C, 0x00), (0x0D, 0x00), (0x0E, 0x00), (0x10, 0x01), (0x11, 0x05)];
    let good1 = [(0x12, 0x00), (0x13, 0x00), (0x14, 0x00), (0x15, 0x00), (0x17, 0x01)];
    // Which registers a code compares; the day stands in 0Fh and 16h.
    let compares = |code: u8| -> (Vec<u8>, Vec<u8>) {
        match code {
            0 => (vec![0x0C], vec![0x13]),
            1 => (vec![0x0D], vec![0x14]),
            2 => (vec![0x0E], vec![0x15]),
            3 => (vec![0x0F], vec![0x16]),
            4 => (vec![0x10], vec![0x17]),
            5 => (vec![], vec![0x12]),
            7 => (vec![0x0C, 0x0D, 0x0E, 0x0F, 0x10, 0x11], vec![0x13, 0x14, 0x15, 0x16, 0x17]),
            _ => (vec![], vec![]),
        }
    };
    for code in 0..8 {
        let (fields0, fields1) = compares(code);
        let mut all = vec![(0x08, 0x30), (0x0F, code << 4 | 4), (0x16, code << 4 | 4)];
        all.extend(good0);
        all.extend(good1);
        let expected = (u8::from(!fields0.is_empty()), u8::from(!fields1.is_empty()));
        assert_eq!(flags_after_midnight(&all), expected, "code {code}");
        for place in 0..all.len() {
            let (address, byte) = all[place];
            if address == 0x08 {
                continue;
            }
            let mut wrong = all.clone();
            wrong[place].1 = byte ^ 0x02;
            let expected = (
                expected.0 & u8::from(!fields0.contains(&address)),
                expected.1 & u8::from(!fields1.contains(&address)),
            );
            assert_eq!(flags_after_midnight(&wrong), expected, "code {code}, {address:02X}h");
        }
    }
}

#[test]
fn tested_when_the_finest_field_advances() {
    // 01 Calendar (bench): from 22:59:58 the alarm of 23:00:59 matches by its seconds after one
    // second, by its minutes or hours after two, when they take the value.
    for (code, until) in [(0, 32_768), (1, 2 * 32_768), (2, 2 * 32_768)] {
        let mut rig = with_alarm(
            [0x00, 0x58, 0x59, 0x22, 0x01, 0x01, 0x01, 0x00],
            &[(0x08, 0x10), (0x0C, 0x59), (0x0D, 0x00), (0x0E, 0x23), (0x0F, code << 4)],
        );
        assert_eq!(rig.wait(200_000), until);
        assert_eq!(rig.lines(), (0, 1));
        // Cleared, it stays clear while the field only keeps its value.
        rig.write(0x0F, &[code << 4]);
        assert_eq!(rig.wait(32_768), 32_768);
        assert_eq!(rig.read(0x0F), code << 4);
    }
}

#[test]
fn a_value_that_is_there_already_does_not_match() {
    // Seconds 00, alarm seconds 00: the first match is when they come to 00 again.
    let mut rig = with_alarm([0, 0, 0, 0, 1, 1, 1, 0], &[(0x08, 0x10), (0x0C, 0x00)]);
    assert_eq!(rig.wait(16_777_216), 60 * 32_768);
}

#[test]
fn alarm_1_by_hundredths() {
    let mut rig = with_alarm([0, 0, 0, 0, 1, 1, 1, 0], &[(0x08, 0x20), (0x12, 0x02), (0x16, 0x50)]);
    // floor(100 * 656 / 32768) is the first 2.
    assert_eq!(rig.wait(10_000), 656);
    assert_eq!(rig.read(0x16), 0x58);
    // Alarm 0 has no code 5.
    let mut rig = with_alarm([0, 0, 0, 0, 1, 1, 1, 0], &[(0x08, 0x10), (0x0C, 0x02), (0x0F, 0x50)]);
    assert_eq!(rig.wait(200_000), 200_000);
}

#[test]
fn hours_are_compared_by_bits_5_to_0() {
    // 12-hour 1 PM, 61h: bits 5:0 are 21h. CALSGN and 12/24 are not compared.
    let mut rig = with_alarm(
        [0x99, 0x59, 0x59, 0xF2, 1, 1, 1, 0],
        &[(0x08, 0x30), (0x0E, 0x21), (0x0F, 0x20), (0x15, 0x01), (0x16, 0x20)],
    );
    rig.wait(500);
    assert_eq!(rig.read(0x03), 0xE1);
    assert_eq!((rig.read(0x0F), rig.read(0x16)), (0x28, 0x20));
}

#[test]
fn st_and_vbaten_are_not_compared() {
    let mut rig = with_alarm(
        [0x99, 0x59, 0x59, 0x23, 0x1B, 0x30, 0x04, 0x20],
        &[(0x08, 0x30), (0x0C, 0x00), (0x0F, 0x00), (0x16, 0x34)],
    );
    rig.wait(500);
    assert_eq!((rig.read(0x0F), rig.read(0x16)), (0x08, 0x3C));
}

#[test]
fn an_alarm_that_is_not_active() {
    // 01 Calendar: bit 4 of 08h is for alarm 0, bit 5 for alarm 1.
    for (control, flags) in [(0x00, (0, 0)), (0x10, (1, 0)), (0x20, (0, 1)), (0x30, (1, 1))] {
        assert_eq!(flags_after_midnight(&[(0x08, control)]), flags);
        assert_eq!(flags_after_midnight(&[(0x08, control | 0xCF)]), flags);
    }
}

#[test]
fn lines_of_an_alarm() {
    // 01 Calendar: active and flag, and IRQ goes low; with bit 7 it is WDO instead.
    for day in [0x0F, 0x16] {
        let active = if day == 0x0F { 0x10 } else { 0x20 };
        for (control, byte, lines) in [
            (0x00, 0x08, (1, 1)),
            (active, 0x00, (1, 1)),
            (active, 0x80, (1, 1)),
            (active, 0x08, (0, 1)),
            (active, 0x88, (1, 0)),
            (active ^ 0x30, 0x08, (1, 1)),
        ] {
            let mut rig = Rig::new(W2K);
            rig.write(day, &[byte]);
            rig.write(0x08, &[control]);
            assert_eq!(rig.lines(), lines, "{day:02X}h {byte:02X}h under {control:02X}h");
        }
    }
}

#[test]
fn a_wait_stops_at_lines_not_at_flags() {
    // Both alarms on IRQ: the second flag does not change the line.
    let mut rig = with_alarm([0, 0, 0, 0, 1, 1, 1, 0], &[(0x08, 0x30), (0x0C, 0x01), (0x13, 0x02)]);
    assert_eq!(rig.wait(200_000), 32_768);
    assert_eq!(rig.wait(100_000), 100_000);
    assert_eq!((rig.read(0x0F), rig.read(0x16)), (0x08, 0x08));
    // One clears, the line stays; the other clears, it goes high.
    rig.write(0x0F, &[0x00]);
    assert_eq!(rig.lines(), (0, 1));
    rig.write(0x16, &[0x00]);
    assert_eq!(rig.lines(), (1, 1));
}

#[test]
fn alarms_are_asked_only_when_the_calendar_runs() {
    // On B with bit 7 of 01h clear the calendar is held.
    let mut rig = Rig::new(B2K);
    rig.write(0x08, &[0x30]);
    assert_eq!(rig.wait(200_000), 200_000);
    assert_eq!(rig.device.registers[0x0F], 0);
}

#[test]
fn watchdog_periods() {
    // 000, register 5-11: 977 us, 15.6 ms, 62.5 ms, 125 ms, 1 s, 16 s, 32 s, 64 s. The ticks are
    // those of 01 Calendar, which does not look at bit 3.
    let periods = [32, 512, 2_048, 4_096, 32_768, 524_288, 1_048_576, 2_097_152];
    for (bits, period) in (0..).zip(periods) {
        for bit3 in [0x00, 0x08] {
            let mut rig = Rig::new(B2K);
            rig.wait(32);
            rig.write(0x0A, &[0x80 | bit3 | bits]);
            assert_eq!(rig.wait(period - 1), period - 1);
            assert_eq!((rig.read(0x0A), rig.lines()), (0x80 | bit3 | bits, (1, 1)));
            assert_eq!(rig.wait(period), 1);
            // Timed out: the flag is set, WDO is low, and it begins at 0.
            assert_eq!((rig.read(0x0A), rig.lines()), (0xC0 | bit3 | bits, (1, 0)));
            assert_eq!(rig.device.watchdog, 0);
        }
    }
}

#[test]
fn watchdog_pulses() {
    // 01 Calendar: 4 ticks long, or 4,096 by bit 4, and WDO is high again after the last.
    for (byte, pulse) in [(0x80, 4), (0x90, 4_096)] {
        let mut rig = Rig::new(B2K);
        rig.wait(32);
        rig.write(0x0A, &[byte]);
        assert_eq!(rig.wait(100), 32);
        assert_eq!((rig.device.pulse, rig.lines()), (pulse, (1, 0)));
        assert_eq!(rig.wait(pulse - 1), pulse - 1);
        assert_eq!(rig.lines(), (1, 0));
        assert_eq!(rig.wait(10_000), 1);
        assert_eq!(rig.lines(), (1, 1));
        // Bit 6 stays set and the count stands.
        assert_eq!(rig.wait(10_000), 10_000);
        assert_eq!((rig.read(0x0A), rig.device.watchdog), (byte | 0x40, 0));
    }
}

#[test]
fn the_pulse_runs_without_the_oscillator() {
    let mut rig = Rig::new(W2K);
    rig.write(0x01, &[0x80]);
    rig.write(0x0A, &[0x90]);
    assert_eq!(rig.wait(100), 64);
    rig.write(0x01, &[0x00]);
    assert_eq!(rig.wait(10_000), 4_096);
}

#[test]
fn a_time_out_sets_a_running_pulse_anew() {
    let mut rig = Rig::new(B2K);
    rig.wait(32);
    rig.write(0x0A, &[0x90]);
    rig.wait(32);
    // A write to 0Ah does not touch the pulse; a shorter one replaces it.
    rig.write(0x0A, &[0x80]);
    assert_eq!(rig.device.pulse, 4_096);
    assert_eq!(rig.wait(32), 32);
    assert_eq!(rig.device.pulse, 4);
    assert_eq!(rig.wait(100), 4);
}

#[test]
fn watchdog_counts_while() {
    // 01 Calendar: enabled, not timed out, and with the oscillator on.
    for (byte, counts) in [(0x80, true), (0x00, false), (0xC0, false), (0x40, false)] {
        let mut rig = Rig::new(B2K);
        rig.wait(32);
        rig.write(0x0A, &[byte]);
        rig.wait(10);
        assert_eq!(rig.device.watchdog, if counts { 10 } else { 0 });
    }
    // Before OSCON the ticks do not count for it: 32 to start up, then 32.
    let mut rig = Rig::new(B2K);
    rig.write(0x0A, &[0x80]);
    assert_eq!(rig.wait(100), 64);
    // Writing bit 6 set stops the count and does not lower WDO.
    let mut rig = Rig::new(B2K);
    rig.write(0x0A, &[0xC0]);
    assert_eq!((rig.lines(), rig.wait(1_000)), ((1, 1), 1_000));
    // On W the oscillator must run.
    let mut rig = Rig::new(W2K);
    rig.write(0x0A, &[0x80]);
    assert_eq!(rig.wait(1_000), 1_000);
}

#[test]
fn writing_0ah() {
    // 01 Calendar: the count begins anew; a delay of 2,097,152 comes with bits 7 and 5, but not
    // with 6, and every other byte ends it.
    let mut rig = Rig::new(B2K);
    rig.wait(32);
    for byte in 0..=255u8 {
        rig.device.watchdog = 7;
        rig.device.delay = 9;
        rig.device.pulse = 3;
        rig.device.registers[0x0A] = 0;
        rig.write(0x0A, &[byte]);
        let delayed = byte & 0x80 != 0 && byte & 0x20 != 0 && byte & 0x40 == 0;
        assert_eq!(
            (rig.device.watchdog, rig.device.delay, rig.device.pulse),
            (0, if delayed { 2_097_152 } else { 0 }, 3)
        );
    }
}

#[test]
fn the_count_waits_for_the_delay() {
    // 01 Calendar: until the delay is used up the count stands, and both want the same bits.
    let mut rig = Rig::new(B2K);
    rig.wait(32);
    rig.write(0x0A, &[0xA0]);
    // CLRWDT is for the count; the delay goes on.
    rig.wait(10);
    rig.frame(&[0x44]);
    assert_eq!(rig.device.delay, 2_097_142);
    assert_eq!(rig.wait(16_777_216), 2_097_142 + 32);
    assert_eq!(rig.lines(), (1, 0));
    // Before OSCON it stands.
    let mut rig = Rig::new(W2K);
    rig.write(0x0A, &[0xA0]);
    rig.wait(100);
    assert_eq!(rig.device.delay, 2_097_152);
    rig.write(0x01, &[0x80]);
    rig.wait(33);
    assert_eq!(rig.device.delay, 2_097_151);
}

#[test]
fn clrwdt_keeps_the_watchdog_quiet() {
    let mut rig = Rig::new(B2K);
    rig.wait(32);
    rig.write(0x0A, &[0x80]);
    for _ in 0..10 {
        assert_eq!(rig.wait(31), 31);
        rig.frame(&[0x44]);
    }
    assert_eq!(rig.wait(100), 32);
    // It clears neither the flag nor the pulse.
    rig.frame(&[0x44]);
    assert_eq!((rig.read(0x0A), rig.device.pulse, rig.lines()), (0xC0, 4, (1, 0)));
}

#[test]
fn an_alarm_keeps_wdo_low_after_the_pulse() {
    // 01 Calendar: the pulse is over, the alarm's level is not.
    let mut rig = Rig::new(B2K);
    rig.wait(32);
    rig.write(0x08, &[0x10]);
    rig.write(0x0F, &[0x80]);
    rig.write(0x0A, &[0x80]);
    rig.wait(32);
    rig.write(0x0F, &[0x88]);
    assert_eq!(rig.wait(1_000), 1_000);
    assert_eq!((rig.device.pulse, rig.lines()), (0, (1, 0)));
    rig.write(0x0F, &[0x80]);
    assert_eq!(rig.lines(), (1, 1));
}

#[test]
fn a_wait_stops_at_wip() {
    let mut rig = Rig::new(W2K);
    rig.eeprom_write(0, &[1]);
    assert_eq!(rig.wait(10), 10);
    assert_eq!(rig.wait(16_777_216), 154);
    assert_eq!(rig.wait(16_777_216), 16_777_216);
}

#[test]
fn all_three_lines_in_one_tick() {
    // A cycle's last tick, a watchdog's time-out and an alarm's match, all at once: one stop.
    let mut rig =
        with_alarm([0x99, 0x59, 0, 0, 1, 1, 1, 0], &[(0x08, 0x10), (0x0C, 0x00), (0x0A, 0x81)]);
    rig.device.divider = 32_768 - 164;
    rig.device.watchdog = 512 - 164;
    rig.eeprom_write(0, &[1]);
    assert_eq!(rig.wait(1_000), 164);
    assert_eq!((rig.lines(), rig.device.countdown, rig.eeprom[0]), ((0, 0), 0, 1));
}

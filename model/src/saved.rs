//! The saved form (02 Save): a chip as lines of a key and its numbers, and back. Keys, their order
//! and the numbers of stage and target are those of D154; the last five lines are those of D194.

use crate::chip::*;
use crate::events::{self, EVEN0, EVEN1, EVENTS};

/// Why nothing was saved or loaded. `line` is 0 but for 8 on loading.
#[derive(Clone, Copy, Debug, PartialEq, Eq)]
pub struct Refused {
    pub number: u64,
    pub line: u64,
}

/// 02 Save: the text of a chip. Refused by what refuses an act, then by 8 if the text is longer
/// than the room.
pub fn save(
    part: u64,
    device: &Device,
    eeprom: &[u8],
    id: &[u8],
    room: usize,
) -> Result<Vec<u8>, Refused> {
    let number = setup_refusal(part, device, eeprom, id);
    if number != 0 {
        return Err(Refused { number, line: 0 });
    }
    let text = write(part, device, eeprom, id);
    if text.len() > room {
        return Err(Refused { number: 8, line: 0 });
    }
    Ok(text)
}

/// 02 Save: the chip of a text, for memories of these lengths. 8 goes before 4.
pub fn load(text: &[u8], eeprom: usize, id: usize) -> Result<Chip, Refused> {
    let chip = read(text).map_err(|line| Refused { number: 8, line })?;
    if !lengths_fit(chip.part, eeprom, id) {
        return Err(Refused { number: 4, line: 0 });
    }
    Ok(chip)
}

// ---------------------------------------------------------------------------------------------
// Writing

/// A key and its numbers.
pub type Line = (String, Vec<u64>);

fn write(part: u64, device: &Device, eeprom: &[u8], id: &[u8]) -> Vec<u8> {
    let mut text = Vec::new();
    for (key, numbers) in form(part, device, eeprom, id) {
        let numbers: Vec<String> = numbers.iter().map(u64::to_string).collect();
        text.extend(format!("{key}={}\n", numbers.join(",")).bytes());
    }
    text
}

/// The lines of a chip in range, in their order.
pub fn form(part: u64, device: &Device, eeprom: &[u8], id: &[u8]) -> Vec<Line> {
    let d = device;
    let mut lines = Vec::new();
    let mut line = |key: &str, numbers: &[u64]| lines.push((key.to_string(), numbers.to_vec()));
    let wide = |bytes: &[u8]| bytes.iter().map(|&b| u64::from(b)).collect::<Vec<_>>();
    line("part", &[part]);
    for (r, &byte) in d.registers.iter().enumerate() {
        line(&format!("reg{r}"), &[byte.into()]);
    }
    for (k, bytes) in d.sram.chunks(8).enumerate() {
        line(&format!("sram{k}"), &wide(bytes));
    }
    line("divider", &[d.divider]);
    line("startup", &[d.start_up]);
    line("watchdog", &[d.watchdog]);
    line("delay", &[d.delay]);
    line("pulse", &[d.pulse]);
    line("power", &[d.power.into()]);
    line("mark", &[d.stamp_due.into()]);
    line("wel", &[d.wel.into()]);
    line("bp", &[d.protection.bits().into()]);
    line("lock", &[lock_number(d.lock)]);
    line("stage", &stage_numbers(d.frame));
    line("offsets", &[d.loaded.into()]);
    line("load", &wide(&d.load));
    line("next", &[d.offset]);
    line("target", &target_numbers(d.target));
    line("left", &[d.countdown]);
    for (k, bytes) in eeprom.chunks(8).enumerate() {
        line(&format!("ee{k}"), &wide(bytes));
    }
    for (k, bytes) in id.chunks(8).enumerate() {
        line(&format!("id{k}"), &wide(bytes));
    }
    line("evls", &[d.evls]);
    line("evhs", &[d.evhs]);
    line("edges", &[d.edges]);
    line("since", &[d.since]);
    line("debounce", &[d.debounce]);
    lines
}

fn lock_number(lock: Lock) -> u64 {
    match lock {
        Lock::Closed => 0,
        Lock::FirstStep => 1,
        Lock::Open => 2,
    }
}

fn stage_numbers(frame: Frame) -> [u64; 3] {
    let place = |kind, place| match place {
        Place::Eeprom(p) => [kind, 0, p],
        Place::Clock(address) => [kind, 1, address.into()],
        Place::Id(p) => [kind, 2, p],
    };
    match frame {
        Frame::Idle => [0, 0, 0],
        Frame::Empty => [1, 0, 0],
        Frame::Unheard => [2, 0, 0],
        Frame::Heard(code) => [3, code.byte().into(), 0],
        Frame::Reading(at) => place(4, at),
        Frame::Writing(at) => place(5, at),
        Frame::Second(Two::Srwrite(byte)) => [6, 0, byte.into()],
        Frame::Second(Two::Unlock(byte)) => [6, 1, byte.into()],
        Frame::Second(Two::Clrwdt) => [6, 2, 0],
        Frame::Second(Two::Clrram) => [6, 3, 0],
        Frame::Over(TooLong::Srwrite) => [7, 0, 0],
        Frame::Over(TooLong::Unlock) => [7, 1, 0],
        Frame::Over(TooLong::Clrwdt) => [7, 2, 0],
        Frame::Over(TooLong::Clrram) => [7, 3, 0],
        Frame::Over(TooLong::Eewren) => [7, 4, 0],
        Frame::Over(TooLong::Eewrdi) => [7, 5, 0],
    }
}

fn target_numbers(target: Target) -> [u64; 2] {
    match target {
        Target::Eeprom(p) => [0, p],
        Target::Id(p) => [1, p],
        Target::Status(protection) => [2, protection.bits().into()],
    }
}

// ---------------------------------------------------------------------------------------------
// Reading

/// A text that is read line by line; `number` is that of the line last taken.
struct Lines<'a> {
    rest: &'a [u8],
    number: u64,
}

impl<'a> Lines<'a> {
    /// The next line if it ends, has the key and as many numbers, and `judge` makes something of
    /// them; else its number.
    fn take<const N: usize, T>(
        &mut self,
        key: &str,
        judge: impl FnOnce([u64; N]) -> Option<T>,
    ) -> Result<T, u64> {
        self.number += 1;
        self.numbers(key).and_then(judge).ok_or(self.number)
    }

    fn numbers<const N: usize>(&mut self, key: &str) -> Option<[u64; N]> {
        let end = self.rest.iter().position(|&b| b == b'\n')?;
        let line = &self.rest[..end];
        self.rest = &self.rest[end + 1..];
        let joined = line.strip_prefix(key.as_bytes())?.strip_prefix(b"=")?;
        let mut numbers = [0; N];
        let mut pieces = joined.split(|&b| b == b',');
        for place in &mut numbers {
            *place = decimal(pieces.next()?)?;
        }
        match pieces.next() {
            None => Some(numbers),
            Some(_) => None,
        }
    }

    /// A line of one number.
    fn one(&mut self, key: &str, good: impl FnOnce(u64) -> bool) -> Result<u64, u64> {
        self.take(key, |[n]| good(n).then_some(n))
    }

    fn bit(&mut self, key: &str) -> Result<bool, u64> {
        Ok(self.one(key, |n| n <= 1)? == 1)
    }

    /// A line of eight bytes.
    fn bytes(&mut self, key: &str) -> Result<[u8; 8], u64> {
        self.take(key, |numbers: [u64; 8]| {
            let mut bytes = [0; 8];
            for (byte, n) in bytes.iter_mut().zip(numbers) {
                *byte = u8::try_from(n).ok()?;
            }
            Some(bytes)
        })
    }

    fn at_end(&self) -> bool {
        self.rest.is_empty()
    }

    /// Nothing may follow the last line.
    fn end(self) -> Result<(), u64> {
        if self.at_end() {
            Ok(())
        } else {
            Err(self.number + 1)
        }
    }
}

/// Digits without a needless zero. No number of the form comes near 64 bits: one that does not fit
/// is bad on every line.
fn decimal(digits: &[u8]) -> Option<u64> {
    if digits.is_empty() || digits.len() > 1 && digits[0] == b'0' {
        return None;
    }
    digits.iter().try_fold(0u64, |n, &d| match d {
        b'0'..=b'9' => n.checked_mul(10)?.checked_add(u64::from(d - b'0')),
        _ => None,
    })
}

/// The chip of a text, or the number of the first bad line: one that no chip in range has after the
/// lines before it. 0 is good on every line but the first, so what is good so far can go on.
pub fn read(text: &[u8]) -> Result<Chip, u64> {
    let mut lines = Lines { rest: text, number: 0 };
    let part = lines.one("part", part_exists)?;
    let mut chip = Chip::fresh(part);
    let d = &mut chip.device;
    for r in 0..32 {
        let kept = |n| n <= 255 && n & !u64::from(holds(r)) == 0;
        d.registers[r] = lines.one(&format!("reg{r}"), kept)? as u8;
    }
    for k in 0..8 {
        d.sram[8 * k..][..8].copy_from_slice(&lines.bytes(&format!("sram{k}"))?);
    }
    let held_back = !is_b_part(part) && d.registers[SECONDS] & 0x80 == 0;
    let period = PERIODS[usize::from(d.registers[WATCHDOG] & 7)];
    d.divider = lines.one("divider", |n| n < DIVIDER)?;
    d.start_up = lines.one("startup", |n| n <= if held_back { 0 } else { START_UP })?;
    d.watchdog = lines.one("watchdog", |n| n < period)?;
    d.delay = lines.one("delay", |n| n <= DELAY)?;
    d.pulse = lines.one("pulse", |n| n <= LONG_PULSE)?;
    d.power = lines.bit("power")?;
    let power = d.power;
    d.stamp_due = lines.one("mark", |n| n <= u64::from(!power))? == 1;
    d.wel = lines.bit("wel")?;
    d.protection = lines.take("bp", |[n]| protection(n))?;
    d.lock = lines.take("lock", |[n]| lock(n))?;
    d.frame = lines.take("stage", |numbers| {
        stage(part, numbers).filter(|&frame| power || frame == Frame::Idle)
    })?;
    d.loaded = lines.take("offsets", |[n]| u8::try_from(n).ok())?;
    d.load = lines.bytes("load")?;
    d.offset = lines.one("next", |n| n <= 7)?;
    d.target = lines.take("target", |numbers| target(part, numbers))?;
    let no_cycle = !power || d.frame.code().is_some_and(|code| !heard_under_wip(code));
    d.countdown = lines.one("left", |n| n <= if no_cycle { 0 } else { WRITE_CYCLE })?;
    for k in 0..eeprom_length(part) / 8 {
        chip.eeprom[8 * k..][..8].copy_from_slice(&lines.bytes(&format!("ee{k}"))?);
    }
    for k in 0..ID_LENGTH / 8 {
        chip.id[8 * k..][..8].copy_from_slice(&lines.bytes(&format!("id{k}"))?);
    }
    // A text from before there were event inputs ends here, and has 0 for all of theirs.
    if !lines.at_end() {
        read_events(&mut lines, &mut chip.device)?;
    }
    lines.end()?;
    Ok(chip)
}

fn read_events(lines: &mut Lines, d: &mut Device) -> Result<(), u64> {
    let byte = d.registers[EVENTS];
    let number = if byte & EVEN1 != 0 { events::number_of_edges(byte) } else { 1 };
    d.evls = lines.one("evls", |n| n <= 1)?;
    d.evhs = lines.one("evhs", |n| n <= 1)?;
    d.edges = lines.one("edges", |n| n < number)?;
    let window = if d.edges > 0 { events::WINDOW } else { 0 };
    d.since = lines.one("since", |n| n <= window)?;
    let runs = byte & EVEN0 != 0 && d.evls == 1;
    let ticks = if runs { events::debounce_ticks(byte) } else { 0 };
    d.debounce = lines.one("debounce", |n| n <= ticks)?;
    Ok(())
}

fn protection(n: u64) -> Option<Protection> {
    (n <= 3).then(|| Protection::from_bits(n as u8))
}

fn lock(n: u64) -> Option<Lock> {
    match n {
        0 => Some(Lock::Closed),
        1 => Some(Lock::FirstStep),
        2 => Some(Lock::Open),
        _ => None,
    }
}

fn eeprom_address(part: u64, n: u64) -> Option<u64> {
    (n < eeprom_length(part) as u64).then_some(n)
}

fn id_address(n: u64) -> Option<u64> {
    (n < ID_LENGTH as u64).then_some(n)
}

fn place(part: u64, case: u64, value: u64) -> Option<Place> {
    match case {
        0 => eeprom_address(part, value).map(Place::Eeprom),
        1 => u8::try_from(value).ok().map(Place::Clock),
        2 => id_address(value).map(Place::Id),
        _ => None,
    }
}

fn target(part: u64, numbers: [u64; 2]) -> Option<Target> {
    match numbers {
        [0, p] => eeprom_address(part, p).map(Target::Eeprom),
        [1, p] => id_address(p).map(Target::Id),
        [2, bits] => protection(bits).map(Target::Status),
        _ => None,
    }
}

fn stage(part: u64, numbers: [u64; 3]) -> Option<Frame> {
    let byte = |n| u8::try_from(n).ok();
    Some(match numbers {
        [0, 0, 0] => Frame::Idle,
        [1, 0, 0] => Frame::Empty,
        [2, 0, 0] => Frame::Unheard,
        [3, case, 0] => {
            // A code is named by its own byte, and every unknown one by 0.
            let code = Code::of(byte(case)?);
            if u64::from(code.byte()) != case {
                return None;
            }
            Frame::Heard(code)
        }
        [4, case, value] => Frame::Reading(place(part, case, value)?),
        [5, case, value] => Frame::Writing(place(part, case, value)?),
        [6, 0, value] => Frame::Second(Two::Srwrite(byte(value)?)),
        [6, 1, value] => Frame::Second(Two::Unlock(byte(value)?)),
        [6, 2, 0] => Frame::Second(Two::Clrwdt),
        [6, 3, 0] => Frame::Second(Two::Clrram),
        [7, 0, 0] => Frame::Over(TooLong::Srwrite),
        [7, 1, 0] => Frame::Over(TooLong::Unlock),
        [7, 2, 0] => Frame::Over(TooLong::Clrwdt),
        [7, 3, 0] => Frame::Over(TooLong::Clrram),
        [7, 4, 0] => Frame::Over(TooLong::Eewren),
        [7, 5, 0] => Frame::Over(TooLong::Eewrdi),
        _ => return None,
    })
}

// ---------------------------------------------------------------------------------------------
// For the comparison of two copies

/// The chip with 0 where no act can tell what stands there: a load, its next offset or a target
/// that nothing will use, bytes that were not loaded, the low bits of an address that only picks a
/// page. Two copies may keep these as they like.
pub fn plain(chip: &Chip) -> Chip {
    let mut chip = chip.clone();
    let d = &mut chip.device;
    let writes_a_page = match &mut d.frame {
        Frame::Writing(Place::Eeprom(p) | Place::Id(p)) => {
            *p -= *p % 8;
            true
        }
        _ => false,
    };
    let stores_a_page = match &mut d.target {
        _ if d.countdown == 0 => {
            d.target = Target::Eeprom(0);
            false
        }
        Target::Eeprom(p) | Target::Id(p) => {
            *p -= *p % 8;
            true
        }
        Target::Status(_) => false,
    };
    if !writes_a_page {
        d.offset = 0;
    }
    if !writes_a_page && !stores_a_page {
        d.loaded = 0;
    }
    for (k, byte) in d.load.iter_mut().enumerate() {
        if d.loaded >> k & 1 == 0 {
            *byte = 0;
        }
    }
    chip
}

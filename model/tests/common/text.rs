//! Saved texts by hand, to be changed line by line.

/// A fresh part 1: registers 0 but day, date and month, power on, memories erased.
pub const FRESH: &str = "\
part=1
reg0=0
reg1=0
reg2=0
reg3=0
reg4=1
reg5=1
reg6=1
reg7=0
reg8=0
reg9=0
reg10=0
reg11=0
reg12=0
reg13=0
reg14=0
reg15=0
reg16=0
reg17=0
reg18=0
reg19=0
reg20=0
reg21=0
reg22=0
reg23=0
reg24=0
reg25=0
reg26=0
reg27=0
reg28=0
reg29=0
reg30=0
reg31=0
sram0=0,0,0,0,0,0,0,0
sram1=0,0,0,0,0,0,0,0
sram2=0,0,0,0,0,0,0,0
sram3=0,0,0,0,0,0,0,0
sram4=0,0,0,0,0,0,0,0
sram5=0,0,0,0,0,0,0,0
sram6=0,0,0,0,0,0,0,0
sram7=0,0,0,0,0,0,0,0
divider=0
startup=0
watchdog=0
delay=0
pulse=0
power=1
mark=0
wel=0
bp=0
lock=0
stage=0,0,0
offsets=0
load=0,0,0,0,0,0,0,0
next=0
target=0,0
left=0
ee0=255,255,255,255,255,255,255,255
ee1=255,255,255,255,255,255,255,255
ee2=255,255,255,255,255,255,255,255
ee3=255,255,255,255,255,255,255,255
ee4=255,255,255,255,255,255,255,255
ee5=255,255,255,255,255,255,255,255
ee6=255,255,255,255,255,255,255,255
ee7=255,255,255,255,255,255,255,255
ee8=255,255,255,255,255,255,255,255
ee9=255,255,255,255,255,255,255,255
ee10=255,255,255,255,255,255,255,255
ee11=255,255,255,255,255,255,255,255
ee12=255,255,255,255,255,255,255,255
ee13=255,255,255,255,255,255,255,255
ee14=255,255,255,255,255,255,255,255
ee15=255,255,255,255,255,255,255,255
id0=255,255,255,255,255,255,255,255
id1=255,255,255,255,255,255,255,255
evls=0
evhs=0
edges=0
since=0
debounce=0
";

/// The lines behind `id`, of which a text may have none.
pub const EVENT_LINES: usize = 5;
pub const NO_EVENTS: &str = "evls=0\nevhs=0\nedges=0\nsince=0\ndebounce=0\n";

/// A text as lines without their newlines.
#[derive(Clone)]
pub struct Text(pub Vec<String>);

impl Text {
    pub fn fresh(part: u64) -> Text {
        let mut lines: Vec<String> = FRESH.lines().map(str::to_string).collect();
        lines[0] = format!("part={part}");
        if part % 2 == 0 {
            for k in 16..32 {
                let at = lines.len() - 2 - EVENT_LINES;
                lines.insert(at, format!("ee{k}=255,255,255,255,255,255,255,255"));
            }
        }
        Text(lines)
    }

    pub fn of(text: &[u8]) -> Text {
        Text(std::str::from_utf8(text).unwrap().lines().map(str::to_string).collect())
    }

    pub fn place(&self, key: &str) -> usize {
        self.0.iter().position(|line| line.split('=').next() == Some(key)).unwrap()
    }

    /// The line's number, from 1.
    pub fn number(&self, key: &str) -> u64 {
        self.place(key) as u64 + 1
    }

    pub fn line(&self, key: &str) -> &str {
        &self.0[self.place(key)]
    }

    pub fn with(&self, key: &str, numbers: &str) -> Text {
        let mut text = self.clone();
        let place = self.place(key);
        text.0[place] = format!("{key}={numbers}");
        text
    }

    /// As it was before there were event inputs.
    pub fn without_events(&self) -> Text {
        Text(self.0[..self.0.len() - EVENT_LINES].to_vec())
    }

    pub fn bytes(&self) -> Vec<u8> {
        let ended: Vec<String> = self.0.iter().map(|line| format!("{line}\n")).collect();
        ended.concat().into_bytes()
    }

    /// The lines up to `place`, and those after it with every number 0.
    pub fn then_zeros(&self, place: usize) -> Text {
        let mut text = self.clone();
        for line in &mut text.0[place..] {
            let (key, numbers) = line.split_once('=').unwrap();
            *line = format!("{key}={}", vec!["0"; numbers.split(',').count()].join(","));
        }
        text
    }
}

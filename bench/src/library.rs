//! The C interface of the proved chip (include/mcp795.h) as a safe struct.

/// Bytes of a state, numbers of an answer, room for every saved text.
pub const STATE: usize = 142;
pub const ANSWER: usize = 6;
pub const TEXT_MAX: usize = 2108;

extern "C" {
    fn mcp795_new(
        part: u64,
        state: *mut u8,
        state_size: usize,
        eeprom: *mut u8,
        eeprom_size: usize,
        id: *mut u8,
        id_size: usize,
    ) -> u64;
    fn mcp795_act(
        state: *mut u8,
        state_size: usize,
        eeprom: *mut u8,
        eeprom_size: usize,
        id: *mut u8,
        id_size: usize,
        act: u64,
        number: u64,
        answer: *mut u64,
    ) -> u64;
    fn mcp795_load(
        text: *const u8,
        text_size: usize,
        state: *mut u8,
        state_size: usize,
        eeprom: *mut u8,
        eeprom_size: usize,
        id: *mut u8,
        id_size: usize,
        line: *mut u64,
    ) -> u64;
    fn mcp795_save(
        state: *const u8,
        state_size: usize,
        eeprom: *const u8,
        eeprom_size: usize,
        id: *const u8,
        id_size: usize,
        text: *mut u8,
        text_size: usize,
        length: *mut u64,
    ) -> u64;
}

/// What the caller of the interface owns. Bytes and sizes may be any: the library judges them.
#[derive(Clone, Debug, PartialEq, Eq)]
pub struct Chip {
    pub state: Vec<u8>,
    pub eeprom: Vec<u8>,
    pub id: Vec<u8>,
}

impl Chip {
    /// No chip yet: memories of these sizes.
    pub fn blank(eeprom: usize, id: usize) -> Chip {
        Chip { state: vec![0; STATE], eeprom: vec![0; eeprom], id: vec![0; id] }
    }

    /// Makes it a fresh chip; the refusal number.
    pub fn renew(&mut self, part: u64) -> u64 {
        // SAFETY: each array has its own length, and no two overlap.
        unsafe {
            mcp795_new(
                part,
                self.state.as_mut_ptr(),
                self.state.len(),
                self.eeprom.as_mut_ptr(),
                self.eeprom.len(),
                self.id.as_mut_ptr(),
                self.id.len(),
            )
        }
    }

    pub fn act(&mut self, act: u64, number: u64) -> [u64; ANSWER] {
        let mut answer = [u64::MAX; ANSWER];
        let refusal = self.act_into(act, number, &mut answer);
        assert_eq!(refusal, answer[0], "what is returned is the first number of the answer");
        answer
    }

    /// The same, with the answer where the caller wants it; the refusal number.
    pub fn act_into(&mut self, act: u64, number: u64, answer: &mut [u64; ANSWER]) -> u64 {
        // SAFETY: as above, and an answer has ANSWER numbers.
        unsafe {
            mcp795_act(
                self.state.as_mut_ptr(),
                self.state.len(),
                self.eeprom.as_mut_ptr(),
                self.eeprom.len(),
                self.id.as_mut_ptr(),
                self.id.len(),
                act,
                number,
                answer.as_mut_ptr(),
            )
        }
    }

    /// Makes it the chip of a text; the refusal number and the first bad line.
    pub fn load(&mut self, text: &[u8]) -> (u64, u64) {
        let mut line = u64::MAX;
        // SAFETY: as above; the text has its own length.
        let refusal = unsafe {
            mcp795_load(
                text.as_ptr(),
                text.len(),
                self.state.as_mut_ptr(),
                self.state.len(),
                self.eeprom.as_mut_ptr(),
                self.eeprom.len(),
                self.id.as_mut_ptr(),
                self.id.len(),
                &mut line,
            )
        };
        (refusal, line)
    }

    /// The length of the text, written to the front of the room; or the refusal number.
    pub fn save(&self, room: &mut [u8]) -> Result<usize, u64> {
        let mut length = u64::MAX;
        // SAFETY: as above; the room has its own length.
        let refusal = unsafe {
            mcp795_save(
                self.state.as_ptr(),
                self.state.len(),
                self.eeprom.as_ptr(),
                self.eeprom.len(),
                self.id.as_ptr(),
                self.id.len(),
                room.as_mut_ptr(),
                room.len(),
                &mut length,
            )
        };
        match refusal {
            0 => Ok(length as usize),
            _ => {
                assert_eq!(length, 0, "a refused save has no length");
                Err(refusal)
            }
        }
    }

    pub fn text(&self) -> Result<Vec<u8>, u64> {
        let mut room = vec![0x5A; TEXT_MAX];
        let saved = self.save(&mut room);
        let behind = room.split_off(saved.unwrap_or(0));
        assert!(behind.iter().all(|&b| b == 0x5A), "behind a text, and where there is none, nothing is written");
        saved.map(|_| room)
    }
}

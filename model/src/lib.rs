//! A second, independent copy of the MCP795XX, tick by tick, from the papers alone: 01 is the
//! outline with its exact rules, 02 has what amends it, 000 and 002 are the sheets. A comment
//! names the place of a rule by its paper and section (`01 Frames`, `02 Time-stamps`); the words
//! that follow are our own.

pub mod calendar;
pub mod chip;
pub mod differ;
pub mod events;
pub mod generate;
pub mod ledger;
pub mod saved;
pub mod tape;

/// The acts (01's word), each with a number; 02 Events has the last two.
#[derive(Clone, Copy, Debug, PartialEq, Eq)]
pub enum Act {
    Select,
    Byte,
    End,
    Wait,
    Cut,
    Up,
    Evls,
    Evhs,
}

impl Act {
    /// D177, D188: an act's place here is what names it where a caller has only numbers.
    pub const ALL: [Act; 8] =
        [Act::Select, Act::Byte, Act::End, Act::Wait, Act::Cut, Act::Up, Act::Evls, Act::Evhs];
}

/// 01 Acts: what EEPROM and ID of a fresh chip hold everywhere.
pub const ERASED: u8 = 0xFF;

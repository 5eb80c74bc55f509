//! A chip with its two memories, for tests that speak in frames.
#![allow(dead_code)]

pub mod text;

use model::chip::{perform, Answer, Device};
use model::Act;

pub const W1K: u64 = 1;
pub const W2K: u64 = 2;
pub const B1K: u64 = 3;
pub const B2K: u64 = 4;

#[derive(Clone, Debug, PartialEq, Eq)]
pub struct Rig {
    pub part: u64,
    pub device: Device,
    pub eeprom: Vec<u8>,
    pub id: Vec<u8>,
}

impl Rig {
    pub fn new(part: u64) -> Rig {
        let length = if part == W1K || part == B1K { 128 } else { 256 };
        Rig { part, device: Device::fresh(), eeprom: vec![0xFF; length], id: vec![0xFF; 16] }
    }

    pub fn act(&mut self, act: Act, number: u64) -> Answer {
        perform(self.part, act, number, &mut self.device, &mut self.eeprom, &mut self.id)
    }

    /// An act that must be done.
    pub fn done(&mut self, act: Act, number: u64) -> Answer {
        let answer = self.act(act, number);
        assert_eq!(answer.number, 0, "{act:?} {number} on {:?}", self.device);
        answer
    }

    /// An act that must be refused, with nothing changed and no reply.
    pub fn refused(&mut self, act: Act, number: u64, expected: u64) {
        let before = self.clone();
        let answer = self.act(act, number);
        assert_eq!(answer, Answer { number: expected, reply: None, count: 0 }, "{act:?} {number}");
        assert_eq!(*self, before, "{act:?} {number} changed something");
    }

    pub fn select(&mut self) {
        assert_eq!(self.done(Act::Select, 0).reply, None);
    }

    pub fn byte(&mut self, byte: u8) -> Option<u8> {
        self.done(Act::Byte, byte.into()).reply
    }

    /// Gives the bits that it answers: with no bits over, none. It never answers a count.
    pub fn end(&mut self, leftover: u64) -> Option<u8> {
        let answer = self.done(Act::End, leftover);
        assert_eq!(answer.count, 0, "{leftover} bits");
        assert!(leftover > 0 || answer.reply.is_none());
        answer.reply
    }

    pub fn wait(&mut self, ticks: u64) -> u64 {
        self.done(Act::Wait, ticks).count
    }

    pub fn cut(&mut self, mask: u8) -> u64 {
        self.done(Act::Cut, mask.into()).count
    }

    pub fn up(&mut self) {
        self.done(Act::Up, 0);
    }

    /// Sets the level of EVLS; a pin act answers nothing.
    pub fn evls(&mut self, level: u64) {
        assert_eq!(self.done(Act::Evls, level), Answer { number: 0, reply: None, count: 0 });
    }

    pub fn evhs(&mut self, level: u64) {
        assert_eq!(self.done(Act::Evhs, level), Answer { number: 0, reply: None, count: 0 });
    }

    /// A frame with leftover bits; gives the reply to each byte.
    pub fn frame_with(&mut self, bytes: &[u8], leftover: u64) -> Vec<Option<u8>> {
        self.select();
        let replies = bytes.iter().map(|&b| self.byte(b)).collect();
        self.end(leftover);
        replies
    }

    pub fn frame(&mut self, bytes: &[u8]) -> Vec<Option<u8>> {
        self.frame_with(bytes, 0)
    }

    /// READ (13h) of one byte.
    pub fn read(&mut self, address: u8) -> u8 {
        self.frame(&[0x13, address, 0])[2].unwrap()
    }

    /// WRITE (12h).
    pub fn write(&mut self, address: u8, data: &[u8]) {
        let mut bytes = vec![0x12, address];
        bytes.extend(data);
        self.frame(&bytes);
    }

    /// SRREAD (05h).
    pub fn status(&mut self) -> u8 {
        self.frame(&[0x05, 0])[1].unwrap()
    }

    /// EEWREN (06h).
    pub fn enable(&mut self) {
        self.frame(&[0x06]);
    }

    /// EEWREN, EEWRITE (02h) of bytes; gives whether a cycle runs.
    pub fn eeprom_write(&mut self, address: u8, data: &[u8]) -> bool {
        self.enable();
        let mut bytes = vec![0x02, address];
        bytes.extend(data);
        self.frame(&bytes);
        self.device.countdown > 0
    }

    /// Writes BP1:BP0 by SRWRITE (01h) and its cycle.
    pub fn protect(&mut self, bp: u8) {
        self.enable();
        self.frame(&[0x01, bp << 2]);
        assert_eq!(self.wait(164), 164);
    }

    pub fn unlock(&mut self) {
        self.frame(&[0x14, 0x55]);
        self.frame(&[0x14, 0xAA]);
    }

    /// Sets the eight time bytes, starts the oscillator and waits until ticks count; the divider
    /// is then 0.
    pub fn start_at(&mut self, time: [u8; 8]) {
        self.device.registers[..8].copy_from_slice(&time);
        self.device.registers[1] |= 0x80;
        self.device.start_up = 32;
        self.device.divider = 0;
    }

    pub fn time(&self) -> [u8; 8] {
        let mut time = [0; 8];
        time.copy_from_slice(&self.device.registers[..8]);
        time
    }

    /// The levels of IRQ and WDO.
    pub fn lines(&self) -> (u8, u8) {
        (self.device.irq().into(), self.device.wdo().into())
    }
}

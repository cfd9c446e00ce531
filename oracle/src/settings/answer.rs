//! What a program has to answer to a frame.

use super::frame::Frame;
use super::lines;
use super::reading::{migrate, Migration};
use super::writing::write_back;
use crate::format::Fault;

/// Every byte of a buffer before it is lent, so that a touched one shows.
pub const UNTOUCHED: u8 = 170;

#[derive(Clone, PartialEq, Eq, Debug)]
pub struct Answer {
    pub migration: Migration,
    pub written: Result<usize, Fault>,
    pub buffer: Vec<u8>,
}

impl Answer {
    /// All 64 settings of the migration are lent for writing back, whatever it
    /// answered: past the number of settings, counts of 0 are written.
    pub fn to(frame: &Frame) -> Answer {
        let migration = migrate(&frame.list);
        let mut buffer = vec![UNTOUCHED; frame.room];
        let written = write_back(&migration.settings, usize::from(frame.number), &mut buffer);
        Answer { migration, written, buffer }
    }

    pub fn text(&self) -> String {
        lines::printout(&self.migration) + &lines::written(&self.written)
    }

    /// The text and then the buffer, byte for byte.
    pub fn output(&self) -> Vec<u8> {
        let mut output = self.text().into_bytes();
        output.extend_from_slice(&self.buffer);
        output
    }
}

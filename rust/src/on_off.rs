//! What turns an output off: ON_OFF_CONFIG.

use core::fmt;

use crate::bus::Bus;
use crate::host::Sending;
use crate::packet::Block;

/// What turns an output off, by its ON_OFF_CONFIG (PMBus 1.3 Part II, ON_OFF_CONFIG). It prints itself in the words of `pmhost`.
///
/// ```
/// use pmhost::OnOffConfig;
/// assert_eq!(OnOffConfig::of(0x1A), OnOffConfig::Operation);
/// assert_eq!(OnOffConfig::of(0x16).to_string(), "only its pin turns it off");
/// ```
#[derive(Clone, Copy, Debug, PartialEq, Eq)]
#[must_use = "an output that doesn't heed OPERATION stays on whatever is ordered"]
pub enum OnOffConfig {
    /// OPERATION does: bits 4 and 3 are 1.
    Operation,
    /// Only its CONTROL pin does: bits 4 and 2 are 1, and bit 3 is 0.
    Pin,
    /// Nothing but its supply does.
    Supply,
}

impl OnOffConfig {
    /// Its command code.
    pub const CODE: u8 = 0x02;
    // How many bytes it has.
    const SIZE: u8 = 1;

    /// What a byte of it says.
    pub fn of(byte: u8) -> OnOffConfig {
        match byte & 0x1C {
            0x18 | 0x1C => OnOffConfig::Operation,
            0x14 => OnOffConfig::Pin,
            _ => OnOffConfig::Supply,
        }
    }

    /// Asks an output of the part at an address for it, in one try: `None` if no good answer came.
    ///
    /// ```
    /// # use pmhost::{Bus, NoAnswer, OnOffConfig, Operation};
    /// # struct Board;
    /// # impl Bus for Board {
    /// #     type Error = NoAnswer;
    /// #     fn transaction(&mut self, _: u8, operations: &mut [Operation<'_>]) -> Result<(), NoAnswer> {
    /// #         if let [_, Operation::Read(answer)] = operations { answer.copy_from_slice(&[0x01, 0x16, 0xC0]) }
    /// #         Ok(())
    /// #     }
    /// # }
    /// # let mut bus = Board;
    /// assert_eq!(OnOffConfig::ask(0x58, 1, &mut bus), Some(OnOffConfig::Pin)); // OPERATION neither turns it on nor off
    /// ```
    #[must_use]
    pub fn ask<B: Bus>(address: u8, output: u8, bus: &mut B) -> Option<OnOffConfig> {
        let frame = Block::paged_request(address, output, OnOffConfig::CODE, OnOffConfig::SIZE).ok()?;
        let mut answer = [address << 1 | 1, 0, 0, 0];
        let came = bus.send(&Sending::Request { frame, answer: answer.len() }, &mut answer[1..]).ok()?;
        let block = Block::read_paged(address, output, OnOffConfig::CODE, OnOffConfig::SIZE, &answer[..came + 1]).ok()?;
        Some(OnOffConfig::of(block[0]))
    }

    /// Whether OPERATION turns the output on and off.
    #[must_use]
    pub fn heeds_operation(self) -> bool {
        self == OnOffConfig::Operation
    }
}

impl fmt::Display for OnOffConfig {
    fn fmt(&self, to: &mut fmt::Formatter<'_>) -> fmt::Result {
        to.write_str(match self {
            OnOffConfig::Operation => "OPERATION turns it off",
            OnOffConfig::Pin => "only its pin turns it off",
            OnOffConfig::Supply => "nothing but its supply turns it off",
        })
    }
}

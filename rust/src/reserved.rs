//! Addresses that no part may have, though seven bits hold them: SMBus keeps them for uses of its own.

use core::fmt;

/// What SMBus keeps each of these addresses for.
const RESERVED: [(u8, &str); 4] = [
    (0x0C, "the SMBus alert response"),
    (0x28, "ACCESS.bus hosts"),
    (0x37, "ACCESS.bus devices"),
    (0x61, "the SMBus device default address"),
];

/// An address that no part may have, and what it is kept for.
#[derive(Clone, Copy, Debug, PartialEq, Eq)]
pub struct Reserved {
    /// The address, of seven bits.
    pub address: u8,
    /// What SMBus keeps it for.
    pub kept_for: &'static str,
}

impl Reserved {
    /// Of an address that is reserved.
    pub(crate) fn of(address: u8) -> Option<Reserved> {
        RESERVED.iter().find(|it| it.0 == address).map(|it| Reserved { address, kept_for: it.1 })
    }
}

impl fmt::Display for Reserved {
    fn fmt(&self, to: &mut fmt::Formatter<'_>) -> fmt::Result {
        write!(to, "{:02X} is kept for {}: no part may have it", self.address, self.kept_for)
    }
}

#[cfg(test)]
mod tests {
    use super::*;

    #[test]
    fn four_addresses_are_reserved() {
        let reserved = (0..=u8::MAX).filter(|it| Reserved::of(*it).is_some());
        assert!(reserved.eq([0x0C, 0x28, 0x37, 0x61]));
    }
}

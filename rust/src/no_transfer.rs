//! Why a transfer of a bus of Linux failed.

extern crate std;

use core::{error, fmt};
use std::string::String;
use std::{format, io};

use crate::patient::Unheard;
use crate::reserved::Reserved;

// Of asm-generic/errno-base.h.
pub(crate) const ENXIO: i32 = 6;

/// Why a transfer failed.
#[derive(Clone, Copy, PartialEq, Eq)]
pub enum NoTransfer {
    /// The kernel's error, by its number.
    Errno(i32),
    /// Fewer messages went than were sent, and the adapter showed no error.
    Went {
        /// How many went.
        went: usize,
        /// How many were sent.
        of: usize,
    },
    /// Nothing but FFh came: nobody gave that answer.
    Ones,
    /// It was for another address than that of the bus. Nothing was sent.
    OtherAddress,
    /// It had no operation, or more than two. Nothing was sent.
    Operations,
    /// A message has more than the 8,192 bytes that the kernel takes. Nothing was sent.
    TooLong,
    /// It was a write to an address that no part may have. Nothing was sent.
    Reserved(Reserved),
}

impl Unheard for NoTransfer {
    /// Only ENXIO says so: with some adapters the other errors are of a byte after the address, too.
    fn is_unheard(&self) -> bool {
        *self == NoTransfer::Errno(ENXIO)
    }
}

impl fmt::Display for NoTransfer {
    fn fmt(&self, to: &mut fmt::Formatter<'_>) -> fmt::Result {
        match self {
            NoTransfer::Errno(number) => to.write_str(&in_words(&io::Error::from_raw_os_error(*number))),
            NoTransfer::Went { went, of } => write!(to, "{went} of {of} message{} went", if *of > 1 { "s" } else { "" }),
            NoTransfer::Ones => to.write_str("nothing but FFh"),
            NoTransfer::OtherAddress => to.write_str("the bus was opened for another address"),
            NoTransfer::Operations => to.write_str("a transaction has one operation or two"),
            NoTransfer::TooLong => to.write_str("a message has more than 8192 bytes"),
            NoTransfer::Reserved(reserved) => write!(to, "{reserved}"),
        }
    }
}

impl fmt::Debug for NoTransfer {
    /// Its words: a `main` that answers an error prints them.
    fn fmt(&self, to: &mut fmt::Formatter<'_>) -> fmt::Result {
        write!(to, "{self}")
    }
}

impl error::Error for NoTransfer {}

/// The kernel's words of an error, without its number.
pub(crate) fn in_words(error: &io::Error) -> String {
    let text = format!("{error}");
    text.split(" (os error").next().unwrap_or_default().into()
}

#[cfg(test)]
mod tests {
    use super::*;

    #[test]
    fn enxio_alone_is_unheard() {
        for number in [ENXIO, 5, 11, 19, 110, 121] {
            assert_eq!(NoTransfer::Errno(number).is_unheard(), number == 6, "{number}");
        }
        assert!(!NoTransfer::Went { went: 0, of: 1 }.is_unheard());
    }

    #[test]
    fn the_words_are_the_kernels() {
        for (error, words) in [
            (NoTransfer::Errno(6), "No such device or address"),
            (NoTransfer::Errno(121), "Remote I/O error"),
            (NoTransfer::Went { went: 0, of: 1 }, "0 of 1 message went"),
            (NoTransfer::Went { went: 1, of: 2 }, "1 of 2 messages went"),
            (NoTransfer::Ones, "nothing but FFh"),
            (NoTransfer::OtherAddress, "the bus was opened for another address"),
            (NoTransfer::Operations, "a transaction has one operation or two"),
            (NoTransfer::TooLong, "a message has more than 8192 bytes"),
            (NoTransfer::Reserved(Reserved::of(0x0C).unwrap()), "0C is kept for the SMBus alert response: no part may have it"),
            (NoTransfer::Reserved(Reserved::of(0x28).unwrap()), "28 is kept for ACCESS.bus hosts: no part may have it"),
            (NoTransfer::Reserved(Reserved::of(0x37).unwrap()), "37 is kept for ACCESS.bus devices: no part may have it"),
            (
                NoTransfer::Reserved(Reserved::of(0x61).unwrap()),
                "61 is kept for the SMBus device default address: no part may have it",
            ),
        ] {
            assert_eq!((format!("{error}"), format!("{error:?}")), (words.into(), words.into()));
        }
    }
}

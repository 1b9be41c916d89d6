//! How a job ended: done, or why it wasn't.

use core::{error, fmt};

use crate::number::Format;
use crate::refusal::Refusal;

/// What a job that was done is worth.
#[derive(Clone, Copy, Debug, PartialEq, Eq)]
pub enum Done {
    /// An order's word was read back, or a check read its cell: the cell held this word when it answered.
    Word(u16),
    /// A learn found this format.
    Learned(Format),
    /// CLEAR_FAULTS, STORE_USER_ALL or RESTORE_USER_ALL was acknowledged. No more is known.
    Acknowledged,
}

/// Why a job wasn't done. `E` is the error of the bus. If that is an error of `core`, this is one too, and its source is what
/// the bus said of the last transaction that failed.
#[derive(Clone, Copy, PartialEq, Eq)]
pub enum NotDone<E> {
    /// The host refused it. Nothing was sent, and nothing changed.
    Refused(Refusal),
    /// The last pass of an order read another word: the write was lost, refused, limited or rounded, the part restarted,
    /// or another host wrote.
    Differs {
        /// The word that was read, which is confirmed.
        word: u16,
    },
    /// The last pass had no good answer, or no pass was acknowledged. The cell of an order may hold its old word or the
    /// new one: `Host::possible_words` lists them.
    Unknown {
        /// What the bus said of the last transaction that failed, if one did.
        error: Option<E>,
        /// What was wrong with the answer of the last request, F1 to F5; `None` if it didn't come.
        fault: Option<Refusal>,
    },
    /// A learn had good answers, and they name no format that this host has, as VOUT_MODE 21h, which is VID. Until VOUT_MODE is
    /// written another learn finds the same.
    NoFormat,
}

impl<E> From<Refusal> for NotDone<E> {
    fn from(refusal: Refusal) -> NotDone<E> {
        NotDone::Refused(refusal)
    }
}

impl<E> fmt::Display for NotDone<E> {
    /// One line, without what the bus said, which is the source.
    fn fmt(&self, to: &mut fmt::Formatter<'_>) -> fmt::Result {
        match self {
            NotDone::Refused(refusal) => write!(to, "refused: {refusal}"),
            NotDone::Differs { word } => {
                write!(to, "the part holds {word:04X}: the order was lost, refused, limited or rounded")
            }
            NotDone::Unknown { error, fault } => {
                to.write_str("it isn't known what became of the job: no good answer or acknowledgement came")?;
                if let Some(fault) = fault {
                    write!(to, "; the last answer: {fault}")?;
                }
                to.write_str(if error.is_some() { "; a transfer failed" } else { "" })
            }
            NotDone::NoFormat => to.write_str("the output's voltages have a format that this host doesn't have"),
        }
    }
}

impl<E: fmt::Debug> fmt::Debug for NotDone<E> {
    /// Its words, and what the bus said: a `main` that answers an error prints them.
    fn fmt(&self, to: &mut fmt::Formatter<'_>) -> fmt::Result {
        let said = match self {
            NotDone::Unknown { error, .. } => error.as_ref(),
            _ => None,
        };
        words_and_source(to, self, said)
    }
}

/// The words of an error, and what the bus said.
pub(crate) fn words_and_source(
    to: &mut fmt::Formatter<'_>,
    words: &dyn fmt::Display,
    said: Option<&impl fmt::Debug>,
) -> fmt::Result {
    write!(to, "{words}")?;
    said.map_or(Ok(()), |said| write!(to, ": {said:?}"))
}

impl<E: error::Error + 'static> error::Error for NotDone<E> {
    fn source(&self) -> Option<&(dyn error::Error + 'static)> {
        match self {
            NotDone::Unknown { error: Some(error), .. } => Some(error),
            _ => None,
        }
    }
}

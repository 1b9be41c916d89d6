//! What an output does.

use crate::course::AnswerFault;
use crate::ffi;

/// What an output does. A good end is `Delivers`, `DeliversByReadVout`, `WentOff` after an order that turned it off, and `CommandedOff` or `NotKnownOn`
/// if the output isn't asked.
#[derive(Clone, Copy, Debug, PartialEq, Eq)]
#[must_use = "a rail that is off, or that tripped, is told by this alone"]
pub enum Verdict {
    /// Something is left to ask, or nothing was looked at.
    NotYet,
    /// OFF and POWER_GOOD# are 0, no fault is new, and READ_VOUT is within the limits and near what the output commands.
    Delivers {
        /// READ_VOUT in microvolts, rounded down; `None` of a part without it, and beyond 10^15.
        microvolts: Option<i64>,
    },
    /// READ_VOUT is within the limits and near what the output commands, of a part without STATUS_WORD: of faults nothing is known.
    DeliversByReadVout {
        /// READ_VOUT in microvolts, rounded down; `None` beyond 10^15.
        microvolts: Option<i64>,
    },
    /// Nothing was asked: the output is commanded off.
    CommandedOff,
    /// Nothing was asked: it isn't known whether the output is commanded on.
    NotKnownOn,
    /// OFF is 1, though the output is commanded on.
    IsOff {
        /// STATUS_WORD.
        status: u16,
    },
    /// A bit says a fault that wasn't known to stand before the first order.
    NewFault {
        /// The command code of the register: STATUS_WORD or a status register.
        code: u8,
        /// What it holds.
        word: u16,
        /// The number of the bit, from 0.
        bit: u8,
    },
    /// READ_VOUT lies outside the output's limits.
    OutsideLimits {
        /// READ_VOUT in microvolts, rounded down.
        microvolts: Option<i64>,
    },
    /// READ_VOUT is farther from what the output commands than it may be.
    Beyond {
        /// READ_VOUT in microvolts, rounded down.
        microvolts: Option<i64>,
    },
    /// READ_VOUT is right, and POWER_GOOD# is 1.
    PowerGoodAlone {
        /// READ_VOUT in microvolts, rounded down.
        microvolts: Option<i64>,
    },
    /// POWER_GOOD# is 1, of a part without READ_VOUT.
    NoPowerGood,
    /// A register gave no good answer.
    NotKnown {
        /// Its command code.
        code: u8,
        /// What was wrong with the last answer. `None` of STATUS_WORD if it wasn't asked, since the part lacks it; of READ_VOUT if it was
        /// good, and what the output commands isn't known.
        fault: Option<AnswerFault>,
    },
    /// OFF is 1 after an order that turned the output off.
    WentOff,
    /// OFF is 0 after an order that turned the output off.
    StillOn,
}

impl Verdict {
    /// Whether the output delivers what it commands, of a part without STATUS_WORD by its READ_VOUT; or went off after an order that turned it
    /// off.
    #[must_use]
    pub fn is_delivered(&self) -> bool {
        matches!(self, Verdict::Delivers { .. } | Verdict::DeliversByReadVout { .. } | Verdict::WentOff)
    }

    /// Whether there is nothing to deliver: the output is commanded off, and wasn't asked. A rail that is to be on isn't up then. By its
    /// [`OnOffConfig`](crate::OnOffConfig) its pin may have it on all the same.
    #[must_use]
    pub fn has_nothing_to_deliver(&self) -> bool {
        matches!(self, Verdict::CommandedOff)
    }

    /// READ_VOUT in microvolts, if it is known.
    #[must_use]
    pub fn microvolts(&self) -> Option<i64> {
        match *self {
            Verdict::Delivers { microvolts }
            | Verdict::DeliversByReadVout { microvolts }
            | Verdict::OutsideLimits { microvolts }
            | Verdict::Beyond { microvolts }
            | Verdict::PowerGoodAlone { microvolts } => microvolts,
            _ => None,
        }
    }

    pub(crate) fn of(found: &ffi::SaidImage) -> Verdict {
        let (code, word) = (found.code, found.word);
        let microvolts = (found.has_microvolts == 1).then_some(found.microvolts);
        match found.verdict {
            1 => Verdict::Delivers { microvolts },
            2 => Verdict::CommandedOff,
            3 => Verdict::NotKnownOn,
            4 => Verdict::IsOff { status: word },
            5 => Verdict::NewFault { code, word, bit: found.bit },
            6 => Verdict::OutsideLimits { microvolts },
            7 => Verdict::Beyond { microvolts },
            8 => Verdict::PowerGoodAlone { microvolts },
            9 => Verdict::NoPowerGood,
            10 => Verdict::NotKnown { code, fault: AnswerFault::of(found.fault.to_le_bytes()[0]) },
            11 => Verdict::WentOff,
            12 => Verdict::StillOn,
            14 => Verdict::DeliversByReadVout { microvolts },
            _ => Verdict::NotYet,
        }
    }
}

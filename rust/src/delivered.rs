//! What an output does, with all that is said of it, and why it doesn't do what is wanted.

use core::{error, fmt};

use crate::course::{AnswerFault, NotReached};
use crate::ffi;
use crate::host::{Host, Limits, Register};
use crate::number::Format;
use crate::refusal::Refusal;
use crate::sequence::SequenceEnd;
use crate::status::{name_of, BitName, Status, Volts};
use crate::step::{word_of, SequenceRecord, SequenceStep};
use crate::verdict::Verdict;

/// The command code of STATUS_WORD.
const STATUS_WORD: u8 = 0x79;

/// The kind of what is said of a rail that does what it is to.
const RAIL_DOES: u8 = 13;

/// The bits of STATUS_WORD that say a fault or point to one.
const FAULTS: u16 = 0xE03C;

/// The command codes of fault limits and of those of warnings.
pub(crate) const LIMIT_CODES: [u8; 4] = [0x40, 0x42, 0x43, 0x44];

/// The bits of what a part lacks, as its caller says and as was found.
const LACKS_STATUS_WORD: u8 = 1;
const LACKS_READ_VOUT: u8 = 2;
const FOUND_NO_STATUS_WORD: u8 = 4;

/// What is looked at: an output that was turned off.
const LOOK_OFF: u8 = 3;

/// A limit that a word is at or beyond: the command code of its register, and the word that this holds, in the output's format.
#[derive(Clone, Copy, Debug, PartialEq, Eq)]
pub struct Limit {
    /// VOUT_OV_FAULT_LIMIT (40h), VOUT_OV_WARN_LIMIT (42h), VOUT_UV_WARN_LIMIT (43h) or VOUT_UV_FAULT_LIMIT (44h).
    pub code: u8,
    /// The word.
    pub word: u16,
}

/// Which limits a word is at or beyond, of those that gave a good answer.
#[derive(Clone, Copy, Debug, Default, PartialEq, Eq)]
pub struct Judgement {
    /// VOUT_OV_FAULT_LIMIT or VOUT_UV_FAULT_LIMIT.
    pub fault: Option<Limit>,
    /// VOUT_OV_WARN_LIMIT or VOUT_UV_WARN_LIMIT.
    pub warning: Option<Limit>,
}

pub(crate) fn code_of(limit: Option<Limit>) -> u8 {
    limit.map_or(0, |limit| limit.code)
}

/// The voltages that a step may want.
pub(crate) const GOALS: [Register; 3] = [Register::VoutCommand, Register::VoutMarginHigh, Register::VoutMarginLow];

/// A word that a step orders, and the codes of the fault limit and of the limit of a warning that it is at or beyond, or 0.
#[derive(Clone, Copy, Debug, PartialEq, Eq)]
pub(crate) struct Goal {
    pub(crate) word: u16,
    pub(crate) fault: u8,
    pub(crate) warning: u8,
}

/// What an output does, by its last answers. Its words are those that stand on a line of `pmhost`.
#[derive(Clone, Copy, Debug, PartialEq, Eq)]
#[must_use = "a rail that is off, or that tripped, is told by this alone"]
pub struct Delivered {
    /// What it does.
    pub verdict: Verdict,
    /// Its limits, if it has any.
    pub limits: Option<Limits>,
    /// STATUS_WORD, if a good answer came.
    pub status: Option<u16>,
    /// STATUS_WORD before the first order, if it was asked and a good answer came.
    pub before: Option<u16>,
    /// POWER_GOOD_ON, asked if only POWER_GOOD# speaks against it.
    pub power_good_on: Option<u16>,
    registers: [Option<u8>; 4],
    format: Option<Format>,
    within: u16,
    goals: [Option<Goal>; 3],
    limit_words: [u16; 4],
    pub(crate) silent: [bool; 4],
    is_off: bool,
    lacks: u8,
    is_good: bool,
}

impl Delivered {
    /// What a list said of a step's rail, with all that was heard of it.
    pub(crate) fn of(
        said: &ffi::SaidImage,
        step: &SequenceStep,
        record: &SequenceRecord,
        host: &Host,
        has_ordered: bool,
    ) -> Delivered {
        let look = &record.image.look;
        let limits = limits_of(record);
        Delivered {
            verdict: Verdict::of(said),
            limits: host.limits(step.output()).ok().flatten(),
            status: record.status(),
            before: record.status_before(),
            power_good_on: record.power_good_on(),
            registers: [look.status_vout, look.status_iout, look.status_input, look.status_temperature]
                .map(|heard| word_of(heard).map(|word| word.to_le_bytes()[0])),
            format: host.format(step.output()).ok().flatten(),
            within: look.within,
            goals: if has_ordered { step.goals(host, record) } else { [None; 3] },
            limit_words: limits.map(|heard| heard.word),
            silent: silent_limits(record),
            is_off: look.look == LOOK_OFF,
            lacks: look.lacks,
            is_good: said.kind == RAIL_DOES,
        }
    }

    /// Whether the output does what it is to, isn't asked since it isn't commanded on, or can't be asked, since its caller said that the
    /// part has neither STATUS_WORD nor READ_VOUT; after an order that turned it off, that it has no STATUS_WORD. Of a step that has to
    /// deliver it is whether the output does what it is to.
    #[must_use]
    pub fn is_good(&self) -> bool {
        self.is_good
    }

    /// The same, without the limits of which an earlier call said that they gave no good answer.
    pub(crate) fn without(mut self, told: [bool; 4]) -> Delivered {
        self.silent.iter_mut().zip(told).for_each(|(silent, told)| *silent &= !told);
        self
    }

    /// Whether nothing is known of it, since the part lacks what it would be known by, as the caller says or as was found.
    fn is_missing(&self) -> bool {
        matches!(self.verdict, Verdict::NotKnown { code: STATUS_WORD, .. })
            && self.lacks & (LACKS_STATUS_WORD | FOUND_NO_STATUS_WORD) != 0
    }

    /// Whether that is so by what the caller said.
    fn is_unasked(&self) -> bool {
        let needed = if self.is_off { LACKS_STATUS_WORD } else { LACKS_STATUS_WORD | LACKS_READ_VOUT };
        self.is_missing() && self.lacks & needed == needed
    }

    fn volts(&self, word: u16) -> Volts {
        Volts(self.format.and_then(|format| format.microvolts(word).ok()))
    }

    /// STATUS_WORD and the status registers that were read, with the names of their bits.
    fn tell_status(&self, to: &mut fmt::Formatter<'_>) -> fmt::Result {
        let status = self.status.unwrap_or(0);
        write!(to, "{}", Status(0x79, status))?;
        let before = self.before.unwrap_or(0);
        let (old, has_new) = (status & before & FAULTS, status & !before != 0);
        if old != 0 {
            to.write_str(" (")?;
            let mut between = "";
            for bit in (0..16).rev().filter(|bit| has_new && old >> bit & 1 == 1) {
                write!(to, "{between}{}", BitName(0x79, bit))?;
                between = ", ";
            }
            write!(to, "{}set before this call)", if has_new { " " } else { "" })?;
        }
        for (code, word) in (0x7A..).zip(self.registers) {
            if let Some(word) = word {
                write!(to, " and {}", Status(code, word.into()))?;
            }
        }
        Ok(())
    }

    /// The status registers after words that they don't decide.
    fn tell_rest(&self, to: &mut fmt::Formatter<'_>) -> fmt::Result {
        if self.status.unwrap_or(0) == 0 {
            return Ok(());
        }
        to.write_str("; ")?;
        self.tell_status(to)
    }

    fn tell_power_good(&self, to: &mut fmt::Formatter<'_>) -> fmt::Result {
        let begins = self.power_good_on.map(|word| self.volts(word));
        match begins {
            None => to.write_str("power good is missing"),
            Some(begins) if self.verdict.microvolts() < begins.0 => write!(to, "power good begins at {begins}"),
            Some(begins) => write!(to, "power good is missing, and begins at {begins}"),
        }
    }

    fn tell_verdict(&self, to: &mut fmt::Formatter<'_>) -> fmt::Result {
        match self.verdict {
            Verdict::NotYet => to.write_str("delivery not asked to its end"),
            Verdict::Delivers { microvolts: None } => to.write_str("delivers by STATUS_WORD"),
            Verdict::Delivers { microvolts } => write!(to, "delivers {}", Volts(microvolts)),
            Verdict::DeliversByReadVout { microvolts } => write!(to, "delivers {} by READ_VOUT", Volts(microvolts)),
            Verdict::CommandedOff => to.write_str("commanded off"),
            Verdict::NotKnownOn => to.write_str("not known to be on"),
            Verdict::IsOff { .. } => {
                self.tell_status(to)?;
                to.write_str(": the rail is off")
            }
            Verdict::NewFault { code, bit, .. } => {
                self.tell_status(to)?;
                write!(to, ": {} came with this call", BitName(code, bit))
            }
            Verdict::OutsideLimits { microvolts } => {
                write!(to, "READ_VOUT {} is OUTSIDE ", Volts(microvolts))?;
                match self.limits {
                    Some(limits) => write!(to, "{} to {}", Volts(Some(limits.least)), Volts(Some(limits.most))),
                    None => to.write_str("the limits"),
                }
            }
            Verdict::Beyond { microvolts } => {
                write!(to, "READ_VOUT {} is more than {}", Volts(microvolts), self.within / 10)?;
                match self.within % 10 {
                    0 => to.write_str("% away from what is commanded"),
                    tenths => write!(to, ".{tenths}% away from what is commanded"),
                }
            }
            Verdict::PowerGoodAlone { microvolts } => {
                write!(to, "READ_VOUT {}; ", Volts(microvolts))?;
                self.tell_status(to)?;
                to.write_str(": ")?;
                self.tell_power_good(to)
            }
            Verdict::NoPowerGood => {
                self.tell_status(to)?;
                to.write_str(": power good is missing")
            }
            Verdict::NotKnown { code, fault } => {
                to.write_str(if self.is_off { "commanded off; not known to be off: " } else { "delivery not known: " })?;
                if !self.is_missing() {
                    return tell_unknown(code, fault, to);
                }
                to.write_str(if self.is_unasked() {
                    "the part lacks STATUS_WORD"
                } else {
                    "the part seems to lack STATUS_WORD"
                })?;
                to.write_str(if self.is_off { "" } else { " and READ_VOUT" })
            }
            Verdict::WentOff => to.write_str("the part says that it is off"),
            Verdict::StillOn => {
                to.write_str("commanded off, and the part says that it is on: ")?;
                self.tell_status(to)
            }
        }
    }

    /// What is said of limits, after these signs.
    fn tell_limits(&self, mut between: &str, to: &mut fmt::Formatter<'_>) -> fmt::Result {
        let silent = self.silent.iter().filter(|it| **it).count();
        for (code, _) in LIMIT_CODES.iter().zip(self.silent).filter(|it| it.1) {
            write!(to, "{between}{}", name_of(*code))?;
            between = ", ";
        }
        if silent != 0 {
            write!(to, " gave no good answer, and {}n't judged", if silent == 1 { "is" } else { "are" })?;
            between = "; ";
        }
        for (register, goal) in GOALS.iter().zip(self.goals).filter_map(|(register, goal)| Some((register, goal?))) {
            for code in [goal.fault, goal.warning] {
                if let Some(at) = LIMIT_CODES.iter().position(|it| *it == code) {
                    let (name, wanted, limit) =
                        (name_of(register.code()), self.volts(goal.word), self.volts(self.limit_words[at]));
                    write!(to, "{between}{name} {wanted} is at or beyond {} {limit}", name_of(code))?;
                    between = "; ";
                }
            }
        }
        Ok(())
    }
}

/// What was heard of the four limits, as [`LIMIT_CODES`] has them.
fn limits_of(record: &SequenceRecord) -> [ffi::HeardImage; 4] {
    let look = &record.image.look;
    [look.ov_fault_limit, look.ov_warn_limit, look.uv_warn_limit, look.uv_fault_limit]
}

/// Which limits were asked for, and gave no good answer.
pub(crate) fn silent_limits(record: &SequenceRecord) -> [bool; 4] {
    limits_of(record).map(|heard| heard.asked != 0 && heard.fault != 0)
}

fn tell_unknown(code: u8, fault: Option<AnswerFault>, to: &mut fmt::Formatter<'_>) -> fmt::Result {
    match fault {
        Some(fault) => write!(to, "{} gave no good answer: {fault}", name_of(code)),
        None => to.write_str("what the output commands isn't known"),
    }
}

impl fmt::Display for Delivered {
    /// One line.
    fn fmt(&self, to: &mut fmt::Formatter<'_>) -> fmt::Result {
        self.tell_verdict(to)?;
        if matches!(self.verdict, Verdict::Delivers { .. } | Verdict::OutsideLimits { .. } | Verdict::Beyond { .. }) {
            self.tell_rest(to)?;
        }
        self.tell_limits("; ", to)
    }
}

/// What is wanted of a register, and the fault limit that it is at or beyond.
#[derive(Clone, Copy, Debug, PartialEq, Eq)]
pub struct BeyondFaultLimit {
    /// VOUT_COMMAND, or the margin.
    pub register: Register,
    /// The word that is wanted of it.
    pub word: u16,
    /// The limit.
    pub limit: Limit,
    pub(crate) format: Option<Format>,
}

impl BeyondFaultLimit {
    /// The first of a step's words that is at or beyond the fault limit that a list said.
    pub(crate) fn of(said: &ffi::SaidImage, step: &SequenceStep, host: &Host) -> BeyondFaultLimit {
        let format = host.format(step.output()).ok().flatten();
        let volts = |word| format.and_then(|format| format.microvolts(word).ok());
        let end = volts(said.word);
        let is_beyond = |word| if said.code == LIMIT_CODES[0] { volts(word) >= end } else { volts(word) <= end };
        let wanted = |register| step.goal(host, register).filter(|word| is_beyond(*word)).map(|word| (register, word));
        let (register, word) = GOALS.into_iter().find_map(wanted).unwrap_or((Register::VoutCommand, said.word));
        BeyondFaultLimit { register, word, limit: Limit { code: said.code, word: said.word }, format }
    }
}

impl fmt::Display for BeyondFaultLimit {
    fn fmt(&self, to: &mut fmt::Formatter<'_>) -> fmt::Result {
        let volts = |word| Volts(self.format.and_then(|format| format.microvolts(word).ok()));
        let (register, limit) = (name_of(self.register.code()), name_of(self.limit.code));
        write!(to, "{register} {} is at or beyond {limit}, which is {}", volts(self.word), volts(self.limit.word))
    }
}

/// Why an output doesn't do what is wanted. `E` is the error of the bus.
#[derive(Clone, Copy, PartialEq, Eq)]
pub enum NotDelivered<E> {
    /// The orders didn't reach what is wanted.
    NotReached(NotReached<E>),
    /// P8: what is wanted is at or beyond a fault limit, and nothing was ordered.
    BeyondFaultLimit(BeyondFaultLimit),
    /// They did, and the output does something else.
    Does(Delivered),
    /// The list of this one step stopped in another way.
    Stopped(SequenceEnd),
    /// A call is refused.
    Refused(Refusal),
}

impl<E> fmt::Display for NotDelivered<E> {
    fn fmt(&self, to: &mut fmt::Formatter<'_>) -> fmt::Result {
        match self {
            NotDelivered::NotReached(why) => write!(to, "{why}"),
            NotDelivered::BeyondFaultLimit(beyond) => {
                write!(to, "refused: {}: {beyond}: move the limit first", Refusal::P8BeyondFaultLimit)
            }
            NotDelivered::Does(delivered) => write!(to, "{delivered}"),
            NotDelivered::Stopped(end) => write!(to, "{end}"),
            NotDelivered::Refused(refusal) => write!(to, "refused: {refusal}"),
        }
    }
}

impl<E: fmt::Debug> fmt::Debug for NotDelivered<E> {
    /// Its words, and what the bus said: a `main` that answers an error prints them.
    fn fmt(&self, to: &mut fmt::Formatter<'_>) -> fmt::Result {
        match self {
            NotDelivered::NotReached(why) => write!(to, "{why:?}"),
            _ => write!(to, "{self}"),
        }
    }
}

impl<E: error::Error + 'static> error::Error for NotDelivered<E> {
    fn source(&self) -> Option<&(dyn error::Error + 'static)> {
        match self {
            NotDelivered::NotReached(why) => why.source(),
            _ => None,
        }
    }
}

impl<E> From<NotReached<E>> for NotDelivered<E> {
    fn from(why: NotReached<E>) -> NotDelivered<E> {
        NotDelivered::NotReached(why)
    }
}

impl<E> From<Refusal> for NotDelivered<E> {
    fn from(refusal: Refusal) -> NotDelivered<E> {
        NotDelivered::Refused(refusal)
    }
}

#[cfg(test)]
mod tests {
    extern crate std;

    use super::*;
    use std::string::ToString;

    struct Unknown(Option<AnswerFault>);

    impl fmt::Display for Unknown {
        fn fmt(&self, to: &mut fmt::Formatter<'_>) -> fmt::Result {
            tell_unknown(0x8B, self.0, to)
        }
    }

    #[test]
    fn what_is_not_known_says_why() {
        assert_eq!(Unknown(None).to_string(), "what the output commands isn't known");
        assert_eq!(Unknown(Some(AnswerFault::NoAnswer)).to_string(), "READ_VOUT gave no good answer: no answer");
    }
}

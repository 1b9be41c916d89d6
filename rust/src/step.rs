//! The steps of a list: an output of one of several parts, what is done to it, and how its rail is looked at.

use core::fmt;

use crate::delivered::{code_of, Goal, Judgement, Limit, GOALS};
use crate::ffi;
use crate::host::{Cell, Host, Register};
use crate::refusal::{accepted, Refusal};

const STAY: u16 = 0;
const WORD: u16 = 1;
const MICROVOLTS: u16 = 2;
const SETS: u8 = 1;
const TURNS: u8 = 2;
const SURVEYS: u8 = 3;
const RESTS: u8 = 4;
const LOOK_NOT: u8 = 0;
const LOOK: u8 = 1;
const LOOK_MUST: u8 = 2;

/// How far READ_VOUT may be from what the output commands, in thousandths of that, if a caller has no number of his own: 5 %.
pub const DELIVERS_WITHIN: u16 = 50;

/// How often all is asked until an output does what it is to, if a caller has no number of his own: 630 milliseconds pass between them.
pub const DELIVERY_ROUNDS: u16 = 7;

/// What is done if a word is at or beyond VOUT_OV_FAULT_LIMIT or VOUT_UV_FAULT_LIMIT, which would trip the rail.
#[derive(Clone, Copy, Debug, Default, PartialEq, Eq)]
pub enum FaultLimits {
    /// Nothing is ordered (P8).
    #[default]
    Refuse,
    /// It is ordered, and [`Delivered`](crate::Delivered) says so.
    Tell,
    /// They aren't read.
    Skip,
}

/// What is made of an output whose READ_VOUT is right, and whose power good is missing.
#[derive(Clone, Copy, Debug, Default, PartialEq, Eq)]
pub enum PowerGood {
    /// It doesn't deliver.
    #[default]
    Judge,
    /// It does, and [`Delivered`](crate::Delivered) says so.
    Tell,
}

/// How the rail of a step is looked at: before its first order, unless that turns the output off, and at its end.
#[derive(Clone, Copy, Debug, PartialEq, Eq)]
pub struct Looks {
    /// Whether it has to deliver, or to have gone off, before the next step begins. Otherwise one that isn't asked is good too: it is
    /// commanded off, it isn't known to be on, or its part has no register that says what it does.
    pub has_to_deliver: bool,
    /// What is done about fault limits.
    pub fault_limits: FaultLimits,
    /// What is made of it if only power good is missing.
    pub power_good: PowerGood,
    /// Whether STATUS_WORD is one of the part's registers: the data sheet says it. Without it READ_VOUT decides. It is found to be
    /// missing if it gives no answer in two rounds, after each of which the part answers a read of OPERATION.
    pub has_status_word: bool,
    /// Whether READ_VOUT is one. It is found to be missing likewise. Of a part that has neither, nothing is known: that is good only if both
    /// are false here.
    pub has_read_vout: bool,
    /// How far READ_VOUT may be from what the output commands, in thousandths of that; more than 1000 count as 1000.
    pub within: u16,
    /// How often all is asked at most until the output does what it is to: a ramp takes time. Between them 10, 20, 40 .. milliseconds pass,
    /// 5,120 at most.
    pub rounds: u16,
}

impl Default for Looks {
    fn default() -> Looks {
        Looks {
            has_to_deliver: false,
            fault_limits: FaultLimits::Refuse,
            power_good: PowerGood::Judge,
            has_status_word: true,
            has_read_vout: true,
            within: DELIVERS_WITHIN,
            rounds: DELIVERY_ROUNDS,
        }
    }
}

/// What a step asks for of a register.
#[derive(Clone, Copy, Debug, Default, PartialEq, Eq)]
pub enum Wish {
    /// It stays as it is.
    #[default]
    Stay,
    /// This word.
    Word(u16),
    /// The word of this many microvolts, which is formed as the step begins, as [`Course::voltage`](crate::Course::voltage) forms it.
    Microvolts(i32),
}

/// What a step asks for of the registers of its output.
#[derive(Clone, Copy, Debug, Default, PartialEq, Eq)]
pub struct Wishes {
    /// VOUT_COMMAND.
    pub command: Wish,
    /// VOUT_MAX.
    pub max: Wish,
    /// VOUT_MARGIN_HIGH.
    pub margin_high: Wish,
    /// VOUT_MARGIN_LOW.
    pub margin_low: Wish,
    /// VOUT_MIN.
    pub min: Wish,
}

impl Wishes {
    /// A voltage of VOUT_COMMAND, in microvolts.
    #[must_use]
    pub fn microvolts(microvolts: i32) -> Wishes {
        Wishes { command: Wish::Microvolts(microvolts), ..Wishes::default() }
    }

    fn of(&self, register: Register) -> Wish {
        match register {
            Register::Operation => Wish::Stay,
            Register::VoutCommand => self.command,
            Register::VoutMax => self.max,
            Register::VoutMarginHigh => self.margin_high,
            Register::VoutMarginLow => self.margin_low,
            Register::VoutMin => self.min,
        }
    }
}

/// What a step does to its output.
#[derive(Clone, Copy, Debug, PartialEq, Eq)]
pub enum Act {
    /// Registers get words or voltages, by the plan.
    Sets(Wishes),
    /// OPERATION gets this byte: on, off, or a margin. The step is over if the part holds a byte that differs in bit 0 only, which is reserved, or in
    /// bits 1 and 0, unless bits 5:4 are 11. With bit 7 set it is ordered twice at most: then the step stops as [`NotReached::Spent`](crate::NotReached).
    Turns(u8),
    /// Nothing is ordered, and all that decides what the output commands is read.
    Surveys,
    /// Nothing is ordered or read, which undoes a step that ordered nothing.
    Rests,
}

/// A step: an output of the host at a place, what is done to it, and how its rail is looked at.
#[derive(Clone, Copy, PartialEq, Eq)]
#[repr(transparent)]
pub struct SequenceStep {
    pub(crate) image: ffi::SequenceStepImage,
}

impl SequenceStep {
    /// A step of an output, whose rail is looked at as [`Looks::default`] says. The host is named by its place among those that
    /// [`Sequence::run`](crate::Sequence::run) gets, of which there are at most eight; a greater place is refused there (NoStep).
    #[must_use]
    pub fn new(host: usize, output: u8, act: Act) -> SequenceStep {
        let mut image = ffi::SequenceStepImage { host: place_of(host), output, ..ffi::SequenceStepImage::default() };
        match act {
            Act::Sets(wishes) => {
                image.kind = SETS;
                image.command = wish_image(wishes.command);
                image.max = wish_image(wishes.max);
                image.margin_high = wish_image(wishes.margin_high);
                image.margin_low = wish_image(wishes.margin_low);
                image.min = wish_image(wishes.min);
            }
            Act::Turns(byte) => (image.kind, image.byte) = (TURNS, byte),
            Act::Surveys => image.kind = SURVEYS,
            Act::Rests => image.kind = RESTS,
        }
        SequenceStep { image }.with_looks(Some(Looks::default()))
    }

    /// Registers of an output get words or voltages.
    #[must_use]
    pub fn sets(host: usize, output: u8, wishes: Wishes) -> SequenceStep {
        SequenceStep::new(host, output, Act::Sets(wishes))
    }

    /// OPERATION of an output gets a byte.
    #[must_use]
    pub fn turns(host: usize, output: u8, byte: u8) -> SequenceStep {
        SequenceStep::new(host, output, Act::Turns(byte))
    }

    /// The same step, whose rail is looked at like this, or not at all.
    #[must_use]
    pub fn with_looks(mut self, looks: Option<Looks>) -> SequenceStep {
        self.image.looks = looks.map_or(LOOK_NOT, |it| if it.has_to_deliver { LOOK_MUST } else { LOOK });
        let looks = looks.unwrap_or_default();
        self.image.fault_limits = match looks.fault_limits {
            FaultLimits::Refuse => 0,
            FaultLimits::Tell => 1,
            FaultLimits::Skip => 2,
        };
        self.image.lacks = u8::from(!looks.has_status_word) | u8::from(!looks.has_read_vout) << 1;
        self.image.tells_power_good = u8::from(looks.power_good == PowerGood::Tell);
        (self.image.within, self.image.rounds) = (looks.within, looks.rounds);
        self
    }

    /// The same step, before which so many milliseconds pass.
    #[must_use]
    pub fn with_wait(mut self, milliseconds: u32) -> SequenceStep {
        self.image.wait = milliseconds;
        self
    }

    /// The same step, after an earlier list whose record this is: which faults are new is judged by what stood before that list. A record of
    /// another output changes nothing.
    #[must_use]
    pub fn after(mut self, record: &SequenceRecord) -> SequenceStep {
        if record.image.look.output == self.image.output {
            self.image.before = record.image.look.before;
        }
        self
    }

    /// The place of its host.
    #[must_use]
    pub fn host(&self) -> usize {
        usize::from(self.image.host)
    }

    /// Its output.
    #[must_use]
    pub fn output(&self) -> u8 {
        self.image.output
    }

    /// What it does.
    #[must_use]
    pub fn act(&self) -> Act {
        match self.image.kind {
            TURNS => Act::Turns(self.image.byte),
            SURVEYS => Act::Surveys,
            RESTS => Act::Rests,
            _ => Act::Sets(Wishes {
                command: wish_of(self.image.command),
                max: wish_of(self.image.max),
                margin_high: wish_of(self.image.margin_high),
                margin_low: wish_of(self.image.margin_low),
                min: wish_of(self.image.min),
            }),
        }
    }

    /// How its rail is looked at; `None` if it isn't.
    #[must_use]
    pub fn looks(&self) -> Option<Looks> {
        let image = &self.image;
        (image.looks != LOOK_NOT).then_some(Looks {
            has_to_deliver: image.looks == LOOK_MUST,
            fault_limits: match image.fault_limits {
                0 => FaultLimits::Refuse,
                1 => FaultLimits::Tell,
                _ => FaultLimits::Skip,
            },
            power_good: if image.tells_power_good == 0 { PowerGood::Judge } else { PowerGood::Tell },
            has_status_word: image.lacks & 1 == 0,
            has_read_vout: image.lacks & 2 == 0,
            within: image.within,
            rounds: image.rounds,
        })
    }

    /// How many milliseconds pass before anything of it is sent.
    #[must_use]
    pub fn wait(&self) -> u32 {
        self.image.wait
    }

    /// The word that it asks for of VOUT_COMMAND or of a margin, by the format that the host knows; of a byte that leaves the output on the
    /// word that the register is known to hold that the byte selects.
    pub(crate) fn goal(&self, host: &Host, register: Register) -> Option<u16> {
        match self.act() {
            Act::Sets(wishes) => match wishes.of(register) {
                Wish::Stay => None,
                Wish::Word(word) => Some(word),
                Wish::Microvolts(microvolts) => host.format(self.output()).ok()??.nearest_word(microvolts.into()).ok(),
            },
            Act::Turns(byte) => {
                let selected = match byte & 0xB0 {
                    0xA0 => Register::VoutMarginHigh,
                    0x90 => Register::VoutMarginLow,
                    _ => Register::VoutCommand,
                };
                let is_it = byte & 0x80 != 0 && selected == register;
                is_it.then(|| host.confirmed_word(Cell::Output(self.output(), register)).ok().flatten()).flatten()
            }
            Act::Surveys | Act::Rests => None,
        }
    }

    /// The words that it orders, each with the limits that it is at or beyond, by what was heard of them.
    pub(crate) fn goals(&self, host: &Host, record: &SequenceRecord) -> [Option<Goal>; 3] {
        GOALS.map(|register| {
            let word = self.goal(host, register)?;
            let judged = record.judge(host, word).ok()?;
            Some(Goal { word, fault: code_of(judged.fault), warning: code_of(judged.warning) })
        })
    }
}

impl Default for SequenceStep {
    /// It asks for nothing.
    fn default() -> SequenceStep {
        SequenceStep::new(0, 0, Act::Rests).with_looks(None)
    }
}

impl fmt::Debug for SequenceStep {
    fn fmt(&self, to: &mut fmt::Formatter<'_>) -> fmt::Result {
        let mut step = to.debug_struct("SequenceStep");
        step.field("host", &self.host()).field("output", &self.output()).field("act", &self.act());
        step.field("looks", &self.looks()).field("wait", &self.wait()).finish()
    }
}

/// What a list keeps of a step, at its place: the step that undoes it, and what was heard of its rail.
#[derive(Clone, Copy, Default)]
#[repr(transparent)]
pub struct SequenceRecord {
    pub(crate) image: ffi::SequenceRecordImage,
}

// SAFETY of the call of the library: references are valid and aligned, and the one that is written overlaps nothing.
impl SequenceRecord {
    /// The step that undoes it, once it has begun in a list that keeps a way back. Nothing is looked at in it. `None` before, and of a step
    /// that was left before it began.
    #[must_use]
    pub fn back(&self) -> Option<SequenceStep> {
        (self.image.back.kind != 0).then_some(SequenceStep { image: self.image.back })
    }

    /// What was heard of STATUS_WORD before the first order; `None` if no good answer came.
    #[must_use]
    pub fn status_before(&self) -> Option<u16> {
        word_of(self.image.look.before)
    }

    /// STATUS_WORD of the last round; `None` if no good answer came.
    #[must_use]
    pub fn status(&self) -> Option<u16> {
        word_of(self.image.look.status_word)
    }

    /// POWER_GOOD_ON, asked if only POWER_GOOD# speaks against the output; `None` if no good answer came.
    #[must_use]
    pub fn power_good_on(&self) -> Option<u16> {
        word_of(self.image.look.power_good_on)
    }

    /// Which limits a word of the output's voltage is at or beyond, of those that gave a good answer. NoDelivery if nothing was heard; H7 if
    /// the format isn't known.
    pub fn judge(&self, host: &Host, word: u16) -> Result<Judgement, Refusal> {
        const P8: u8 = Refusal::P8BeyondFaultLimit.number();
        let mut found = ffi::JudgementImage::default();
        let number = unsafe { ffi::pm_sequence_judge(&self.image, &host.image, word, &mut found) };
        accepted(if number == P8 { 0 } else { number })?;
        Ok(Judgement { fault: limit_of(found.fault, found.fault_word), warning: limit_of(found.warning, found.warning_word) })
    }
}

impl fmt::Debug for SequenceRecord {
    fn fmt(&self, to: &mut fmt::Formatter<'_>) -> fmt::Result {
        let (back, before, status) = (self.back(), self.status_before(), self.status());
        let mut record = to.debug_struct("SequenceRecord");
        record.field("back", &back).field("status_before", &before).field("status", &status).finish_non_exhaustive()
    }
}

pub(crate) fn word_of(heard: ffi::HeardImage) -> Option<u16> {
    (heard.asked != 0 && heard.fault == 0).then_some(heard.word)
}

fn limit_of(code: u8, word: u16) -> Option<Limit> {
    (code != 0).then_some(Limit { code, word })
}

/// A place that is too great stays one that there isn't.
fn place_of(host: usize) -> u8 {
    u8::try_from(host).unwrap_or(u8::MAX)
}

fn wish_image(wish: Wish) -> ffi::SequenceWishImage {
    let (kind, word, microvolts) = match wish {
        Wish::Stay => (STAY, 0, 0),
        Wish::Word(word) => (WORD, word, 0),
        Wish::Microvolts(microvolts) => (MICROVOLTS, 0, microvolts),
    };
    ffi::SequenceWishImage { kind, word, microvolts }
}

fn wish_of(image: ffi::SequenceWishImage) -> Wish {
    match image.kind {
        WORD => Wish::Word(image.word),
        MICROVOLTS => Wish::Microvolts(image.microvolts),
        _ => Wish::Stay,
    }
}

#![doc = include_str!("../README.md")]
#![no_std]
#![warn(missing_docs)]

mod bus;
mod course;
mod delivered;
mod done;
mod ffi;
mod host;
mod jobs;
#[cfg(feature = "linux")]
mod kernel;
#[cfg(feature = "linux")]
mod linux;
mod loops;
#[cfg(feature = "linux")]
mod no_transfer;
mod number;
mod off_on_drop;
mod on_off;
mod packet;
mod part;
mod patient;
mod rail;
mod refusal;
#[cfg(feature = "linux")]
mod reserved;
mod sequence;
mod status;
mod step;
mod verdict;

pub use bus::{Bus, Operation};
pub use course::{AnswerFault, Course, NotReached, COURSE_TRIES};
pub use delivered::{BeyondFaultLimit, Delivered, Judgement, Limit, NotDelivered};
pub use done::{Done, NotDone};
pub use host::{Band, Cell, Host, Known, Limits, LimitsState, Possible, Register, Sending, Step};
pub use jobs::Job;
#[cfg(feature = "linux")]
pub use linux::{LinuxBus, NoBus, SystemClock};
#[cfg(feature = "linux")]
pub use no_transfer::NoTransfer;
pub use number::Format;
pub use off_on_drop::OffOnDrop;
pub use on_off::OnOffConfig;
pub use packet::{pec, Block, Bytes, Data, Packet};
pub use part::{Heard, NoAnswer, Output, Part, Reading};
pub use patient::{Clock, NotHeard, Patient, Unheard};
pub use rail::{Power, Rail, Selected, Wanted};
pub use refusal::Refusal;
#[cfg(feature = "linux")]
pub use reserved::Reserved;
pub use sequence::{Rules, Sequence, SequenceEnd, SequenceNext, SequenceStop};
pub use step::{
    Act, FaultLimits, Looks, PowerGood, SequenceRecord, SequenceStep, Wish, Wishes, DELIVERS_WITHIN, DELIVERY_ROUNDS,
};
pub use verdict::Verdict;

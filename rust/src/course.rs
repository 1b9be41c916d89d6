//! A course: one way of an output to what is wanted of it.

use core::convert::Infallible;
use core::{error, fmt};

use crate::bus::Bus;
use crate::done::words_and_source;
use crate::ffi;
use crate::host::{step_of, Cell, Host, Register, Sending, Step};
use crate::jobs::Job;
use crate::loops::{Failures, Frames};
use crate::rail::{Rail, Wanted};
use crate::refusal::{accepted, Refusal, ENDED};

/// How many jobs a course may have, if a caller has no number of his own.
pub const COURSE_TRIES: u16 = 64;

/// VOUT_MODE, which a learn reads.
const VOUT_MODE: u8 = 0x20;

/// What was wrong with the last answer of a course.
#[derive(Clone, Copy, Debug, PartialEq, Eq)]
pub enum AnswerFault {
    /// None came.
    NoAnswer,
    /// A write wasn't acknowledged.
    NotAcknowledged,
    /// F1 to F5.
    Bad(Refusal),
}

impl fmt::Display for AnswerFault {
    fn fmt(&self, to: &mut fmt::Formatter<'_>) -> fmt::Result {
        match self {
            AnswerFault::NoAnswer => to.write_str("no answer"),
            AnswerFault::NotAcknowledged => to.write_str("not acknowledged"),
            AnswerFault::Bad(fault) => write!(to, "{fault}"),
        }
    }
}

/// Why a course didn't reach what is wanted. `E` is the error of the bus.
#[derive(Clone, Copy, PartialEq, Eq)]
pub enum NotReached<E = Infallible> {
    /// Nothing more is ordered, and before the first order nothing was written.
    Refused {
        /// Why: H3 if another job is open, H4, H5, H6, L2 to L5, L7, L8, N3 to N5 of a voltage that has no word, P4 to P7.
        refusal: Refusal,
        /// The cell that it is about, if it is about one.
        cell: Option<Cell>,
    },
    /// An order of a register was read back as another word a second time.
    Differs {
        /// The register.
        register: Register,
        /// The word that was read back last.
        word: u16,
    },
    /// VOUT_MODE names no format whose words are known, as 21h, which is VID, or the coefficients of DIRECT make none.
    NoFormat {
        /// What was read of VOUT_MODE.
        mode: u8,
    },
    /// OPERATION holds a byte that its cell doesn't take: another source than its registers may decide the voltage. A course to a
    /// byte of OPERATION orders that over it.
    OtherSource {
        /// The byte.
        byte: u8,
    },
    /// No try is left.
    Spent {
        /// What the next job is about; `None` if that is a learn of the format.
        cell: Option<Cell>,
        /// What was wrong with the last answer; `None` if it was good.
        fault: Option<AnswerFault>,
        /// What the bus said of the last transaction that failed, if one did.
        error: Option<E>,
    },
}

impl<E> NotReached<E> {
    /// How a course of an output ended; `None` if it goes on.
    pub(crate) fn of(found: &ffi::CourseEndImage, output: u8, error: Option<E>) -> Option<Result<(), NotReached<E>>> {
        let register = Register::of(found.code);
        let cell = match (found.code, register) {
            (0 | VOUT_MODE, _) => None,
            (code, _) => Some(Cell::of(output, code)),
        };
        match (found.kind, register) {
            (0, _) => None,
            (1, _) => Some(Ok(())),
            (3, Some(register)) => Some(Err(NotReached::Differs { register, word: found.word })),
            (4, _) => Some(Err(NotReached::Spent { cell, fault: AnswerFault::of(found.fault.to_le_bytes()[0]), error })),
            (5, _) => Some(Err(NotReached::NoFormat { mode: found.word.to_le_bytes()[0] })),
            (6, _) => Some(Err(NotReached::OtherSource { byte: found.word.to_le_bytes()[0] })),
            _ => Some(Err(NotReached::Refused { refusal: Refusal::of(found.number), cell })),
        }
    }

    fn refused(refusal: Refusal) -> NotReached<E> {
        NotReached::Refused { refusal, cell: None }
    }
}

impl NotReached {
    /// The same, with what the bus said of the last transaction that failed.
    pub(crate) fn over<E>(self, error: Option<E>) -> NotReached<E> {
        match self {
            NotReached::Refused { refusal, cell } => NotReached::Refused { refusal, cell },
            NotReached::Differs { register, word } => NotReached::Differs { register, word },
            NotReached::NoFormat { mode } => NotReached::NoFormat { mode },
            NotReached::OtherSource { byte } => NotReached::OtherSource { byte },
            NotReached::Spent { cell, fault, .. } => NotReached::Spent { cell, fault, error },
        }
    }
}

impl<E> From<Refusal> for NotReached<E> {
    fn from(refusal: Refusal) -> NotReached<E> {
        NotReached::refused(refusal)
    }
}

impl<E> fmt::Display for NotReached<E> {
    /// One line, without what the bus said, which is the source.
    fn fmt(&self, to: &mut fmt::Formatter<'_>) -> fmt::Result {
        match self {
            NotReached::Refused { refusal, cell: Some(cell) } => write!(to, "refused: {refusal} {cell:?}"),
            NotReached::Refused { refusal, cell: None } => write!(to, "refused: {refusal}"),
            NotReached::Differs { register, word } => {
                write!(to, "{register:?} holds {word:04X} after two orders: they were lost, refused, limited or rounded")
            }
            NotReached::NoFormat { mode } => write!(to, "VOUT_MODE is {mode:02X}h, a format that this host doesn't have"),
            NotReached::OtherSource { byte } if byte >> 4 & 3 == 3 => {
                write!(to, "OPERATION holds {byte:02X}h, which hands the voltage to AVSBus: order another byte first")
            }
            NotReached::OtherSource { byte } => {
                write!(to, "OPERATION holds {byte:02X}h, of which it isn't known what it selects: order another byte first")
            }
            NotReached::Spent { cell, fault, error } => {
                match cell {
                    Some(cell) => write!(to, "no try is left for {cell:?}")?,
                    None => to.write_str("no try is left to learn the format")?,
                }
                if let Some(fault) = fault {
                    write!(to, "; the last answer: {fault}")?;
                }
                to.write_str(if error.is_some() { "; a transfer failed" } else { "" })
            }
        }
    }
}

impl<E: fmt::Debug> fmt::Debug for NotReached<E> {
    /// Its words, and what the bus said: a `main` that answers an error prints them.
    fn fmt(&self, to: &mut fmt::Formatter<'_>) -> fmt::Result {
        let said = match self {
            NotReached::Spent { error, .. } => error.as_ref(),
            _ => None,
        };
        words_and_source(to, self, said)
    }
}

impl<E: error::Error + 'static> error::Error for NotReached<E> {
    fn source(&self) -> Option<&(dyn error::Error + 'static)> {
        match self {
            NotReached::Spent { error: Some(error), .. } => Some(error),
            _ => None,
        }
    }
}

/// One way of an output to what is wanted of it: it hands out frame after frame, and hears what became of each. It holds no host, and
/// may be copied. [`Host::run_course`] carries it out over a bus; with an interrupt, DMA or an async task it is a loop of one's own:
///
/// ```
/// use pmhost::{Bus, Course, Host, Limits, Operation, Output, Part, Register, Sending, COURSE_TRIES};
///
/// let mut bus = Part::new(0x58, &[Output::default()], (1, 0, 3))?;
/// let mut host = Host::new(0x58, 1, 3)?;
/// host.set_limits(0, Limits { least: 3_135_000, most: 3_465_000 })?;
/// let mut course = Course::voltage(0, Register::VoutCommand, 3_300_000, COURSE_TRIES)?;
/// loop {
///     let _step = match course.frame(&mut host)? {
///         Sending::Nothing => break,
///         Sending::Write(frame) => {
///             let acked = bus.transaction(0x58, &mut [Operation::Write(&frame[1..])]).is_ok();
///             course.write_ended(&mut host, acked)?
///         }
///         Sending::Request { frame, answer } => {
///             let mut bytes = [0xB1, 0, 0, 0, 0, 0, 0, 0]; // the read address of 58h, then what came
///             let came = bus.transaction(0x58, &mut [Operation::Write(&frame[1..]), Operation::Read(&mut bytes[1..answer])]);
///             course.read_ended(&mut host, if came.is_ok() { &bytes[..answer] } else { &[] })?
///         }
///     };
/// }
/// assert_eq!(course.end(), Some(Ok(())));
/// assert_eq!(bus.commanded_microvolts(0)?, 3_300_048);
/// # Ok::<(), Box<dyn core::error::Error>>(())
/// ```
///
/// It has its output to itself: no other job of that output begins, and no restore, until it has ended. One that is left in the middle
/// leaves the host with what is known ([`Host::give_up`] ends the open job), and a new course goes on from there. The compiler warns
/// if one is dropped:
///
/// ```compile_fail
/// # #![deny(unused_must_use)]
/// # fn main() -> Result<(), pmhost::Refusal> {
/// pmhost::Course::survey(0, 9)?;
/// # Ok(())
/// # }
/// ```
#[derive(Clone)]
#[must_use = "a course does nothing until it is carried out"]
pub struct Course {
    image: ffi::CourseImage,
    output: u8,
}

impl fmt::Debug for Course {
    fn fmt(&self, to: &mut fmt::Formatter<'_>) -> fmt::Result {
        let mut course = to.debug_struct("Course");
        course.field("output", &self.output).field("job", &self.job()).field("end", &self.end()).finish_non_exhaustive()
    }
}

// SAFETY of each call of the library: references are valid and aligned, the one that is written overlaps nothing, a
// slice's pointer and count are its own.
impl Course {
    /// To nothing: it learns the format, reads what decides what the output commands, and orders nothing. [`Host::rail`] says then
    /// what it commands. At most so many jobs; H4 above 7; NoCourse if the library is of another version.
    pub fn survey(output: u8, tries: u16) -> Result<Course, Refusal> {
        Course::made(output, |image| unsafe { ffi::pm_course_survey(image, output, tries) })
    }

    /// To these words: it surveys what its plan needs, orders register after register, and surveys once more if something was
    /// ordered. If nothing is due nothing is written.
    pub fn words(output: u8, wanted: &Wanted, tries: u16) -> Result<Course, Refusal> {
        Course::made(output, |image| unsafe { ffi::pm_course_words(image, output, &wanted.image(), tries) })
    }

    /// To a voltage of a register: the same to its word, which is formed anew before each job by the format that the host knows then. It
    /// is the nearest word of VOUT_COMMAND and of a margin, the greatest that isn't above so many microvolts of VOUT_MAX, and the least
    /// that isn't below them of VOUT_MIN, by value. H5 of OPERATION.
    pub fn voltage(output: u8, register: Register, microvolts: i64, tries: u16) -> Result<Course, Refusal> {
        let code = register.code();
        Course::made(output, |image| unsafe { ffi::pm_course_microvolts(image, output, code, microvolts, tries) })
    }

    /// To a byte of OPERATION. One that turns the output off is the first frame, whatever is known, and nothing but OPERATION is read
    /// after it. One that leaves it on is ordered after a survey and reads of WRITE_PROTECT and of the register that it selects, by
    /// its limits. At the margins A8h and 98h the part acts on faults, at A4h and 94h it ignores them.
    pub fn power(output: u8, byte: u8, tries: u16) -> Result<Course, Refusal> {
        Course::made(output, |image| unsafe { ffi::pm_course_power(image, output, byte, tries) })
    }

    fn made(output: u8, make: impl FnOnce(&mut ffi::CourseImage) -> u8) -> Result<Course, Refusal> {
        let found = unsafe { (ffi::pm_course_version(), ffi::pm_course_size()) };
        if found != (ffi::COURSE_VERSION, ffi::COURSE_SIZE as u64) {
            return Err(Refusal::NoCourse);
        }
        let mut image = ffi::CourseImage::default();
        accepted(make(&mut image))?;
        Ok(Course { image, output })
    }

    /// A voltage is wanted of one more register, by a course to words or to a voltage: say so before its first frame. H5 of OPERATION;
    /// NoCourse of a course to a byte or to nothing.
    pub fn want(&mut self, register: Register, microvolts: i64) -> Result<(), Refusal> {
        accepted(unsafe { ffi::pm_course_want(&mut self.image, register.code(), microvolts) })
    }

    /// For parts that round: the word that a register holds is wanted in the place of what was, and the course begins anew, by the tries
    /// that are left. The register is the one of which an order differed, or else the first of which something is wanted.
    ///
    /// Nothing changes with H3 while a job is open, H4, P1, P4 if the word isn't known, P9 if its value is more than so many microvolts
    /// away from what was wanted, or if nothing is, L3 or L4 by the limits. Of a rounded word it is tested, and not proved, what the
    /// rail commands.
    pub fn accept(&mut self, host: &Host, microvolts: u32) -> Result<(), Refusal> {
        accepted(unsafe { ffi::pm_course_accept(&mut self.image, &host.image, microvolts) })
    }

    /// The output that it is of.
    #[must_use]
    pub fn output(&self) -> u8 {
        self.output
    }

    /// What is to be sent now: the frame of its open job, which stays the same until it hears what became of it; if none is open,
    /// its next job begins first. `Sending::Nothing` once it has ended. H4 if the host has no such output: nothing changes then.
    pub fn frame(&mut self, host: &mut Host) -> Result<Sending, Refusal> {
        let mut found = ffi::SendingImage::default();
        match unsafe { ffi::pm_course_frame(&mut self.image, &mut host.image, &mut found) } {
            ENDED => Ok(Sending::Nothing),
            number => accepted(number).map(|()| Sending::of(found)),
        }
    }

    /// A write was sent, and acknowledged or not. OtherFrame if none is to be sent.
    pub fn write_ended(&mut self, host: &mut Host, acked: bool) -> Result<Step, Refusal> {
        step_of(unsafe { ffi::pm_course_write_ended(&mut self.image, &mut host.image, u8::from(acked)) })
    }

    /// A request was sent, and these bytes came back, the read address first; none if there was no answer. OtherFrame if none is to
    /// be sent.
    pub fn read_ended(&mut self, host: &mut Host, bytes: &[u8]) -> Result<Step, Refusal> {
        let (from, count) = (bytes.as_ptr(), bytes.len() as u64);
        step_of(unsafe { ffi::pm_course_read_ended(&mut self.image, &mut host.image, from, count) })
    }

    /// A write was sent, and acknowledged or not; and what is to be sent next, as [`Course::frame`] hands it out, by one call. That is
    /// `Sending::Nothing` once the course has ended, and, if it `stops`, before an order, which `frame` begins.
    pub fn after_write(&mut self, host: &mut Host, acked: bool, stops: bool) -> Result<(Step, Sending), Refusal> {
        let (mut next, acked, stops) = (ffi::SendingImage::default(), u8::from(acked), u8::from(stops));
        let step = unsafe { ffi::pm_course_after_write(&mut self.image, &mut host.image, acked, stops, &mut next) };
        Ok((step_of(step)?, Sending::of(next)))
    }

    /// A request was sent, and these bytes came back, the read address first, none if there was no answer; and what is to be sent next, as
    /// by [`Course::after_write`].
    pub fn after_read(&mut self, host: &mut Host, bytes: &[u8], stops: bool) -> Result<(Step, Sending), Refusal> {
        let (mut next, from, count) = (ffi::SendingImage::default(), bytes.as_ptr(), bytes.len() as u64);
        let step =
            unsafe { ffi::pm_course_after_read(&mut self.image, &mut host.image, from, count, u8::from(stops), &mut next) };
        Ok((step_of(step)?, Sending::of(next)))
    }

    /// How it ended; `None` if it goes on. H3 is no last end: the course goes on once the other job is over.
    #[must_use]
    pub fn end(&self) -> Option<Result<(), NotReached>> {
        self.ended(None)
    }

    fn ended<E>(&self, error: Option<E>) -> Option<Result<(), NotReached<E>>> {
        let mut found = ffi::CourseEndImage::default();
        if let Err(refusal) = accepted(unsafe { ffi::pm_course_ended(&self.image, &mut found) }) {
            return Some(Err(refusal.into()));
        }
        NotReached::of(&found, self.output, error)
    }

    /// Which job it would begin now; `None` if it would end, and if the host has no such output. Nothing begins, and nothing changes.
    #[must_use]
    pub fn next(&self, host: &Host) -> Option<Job> {
        let mut found = ffi::CourseJobImage::default();
        let number = unsafe { ffi::pm_course_next(&self.image, &host.image, &mut found) };
        (number == 0).then(|| self.job_of(found)).flatten()
    }

    /// Which of its jobs is under way: the last that it began, `None` once that one's end was given.
    #[must_use]
    pub fn job(&self) -> Option<Job> {
        let mut found = ffi::CourseJobImage::default();
        let number = unsafe { ffi::pm_course_job_now(&self.image, &mut found) };
        (number == 0).then(|| self.job_of(found)).flatten()
    }

    /// The word that it orders of VOUT_COMMAND or of a margin, by the format that the host knows now; of a course to a byte that leaves the
    /// output on the word that the register is known to hold that the byte selects. `None` if it has none of this register.
    #[must_use]
    pub fn goal(&self, host: &Host, register: Register) -> Option<u16> {
        let mut word = 0;
        let number = unsafe { ffi::pm_course_goal(&self.image, &host.image, register.code(), &mut word) };
        (number == 0).then_some(word)
    }

    fn job_of(&self, found: ffi::CourseJobImage) -> Option<Job> {
        let cell = Cell::of(self.output, found.code);
        match found.kind {
            1 => Some(Job::Learn(self.output)),
            2 => Some(Job::Check(cell)),
            3 => Some(Job::Order(cell, found.word)),
            _ => None,
        }
    }
}

impl AnswerFault {
    /// The fault of a number; `None` if the answer was good.
    pub(crate) fn of(number: u8) -> Option<AnswerFault> {
        match number {
            0 => None,
            1 => Some(AnswerFault::NoAnswer),
            2 => Some(AnswerFault::NotAcknowledged),
            number => Some(AnswerFault::Bad(Refusal::of(number))),
        }
    }
}

impl Host {
    /// Carries a course out over a bus, frame after frame.
    ///
    /// ```
    /// use pmhost::{Band, Course, Host, Limits, LimitsState, Output, Part, Power, Register, Selected, Wanted, COURSE_TRIES};
    ///
    /// let mut bus = Part::new(0x58, &[Output::default()], (1, 0, 3))?;
    /// let mut host = Host::new(0x58, 1, 3)?;
    /// host.set_limits(0, Limits { least: 3_135_000, most: 3_465_000 })?;
    /// let wanted = Wanted { command: Some(0x34CD), ..Wanted::default() }; // 3.3 V
    /// host.run_course(&mut Course::words(0, &wanted, COURSE_TRIES)?, &mut bus)?;
    /// let rail = host.rail(0)?;
    /// assert_eq!((rail.power, rail.within), (Power::On, LimitsState::Yes));
    /// assert_eq!(rail.selected, Selected::Register(Register::VoutCommand));
    /// assert_eq!(rail.band, Ok(Band { least: 3_300_048, greatest: 3_300_049 }));
    /// # Ok::<(), Box<dyn core::error::Error>>(())
    /// ```
    pub fn run_course<B: Bus>(&mut self, course: &mut Course, bus: &mut B) -> Result<(), NotReached<B::Error>> {
        let mut failures = Failures::default();
        Frames::of_course(self, course).carry_out(bus, &mut failures)?;
        course.ended(failures.error).unwrap_or(Err(Refusal::NoHost.into()))
    }

    /// Brings a voltage of an output to the word of microvolts over a bus by a [`Course::voltage`], and says what the output commands
    /// then. That may be outside what was wanted if another register is selected: look at its band.
    ///
    /// ```
    /// use pmhost::{Band, Host, Limits, LimitsState, NotReached, Output, Part, Refusal, Register, COURSE_TRIES};
    ///
    /// let mut bus = Part::new(0x58, &[Output::default()], (1, 0, 3))?;
    /// let mut host = Host::new(0x58, 1, 3)?;
    /// host.set_limits(0, Limits { least: 3_200_000, most: 3_465_000 })?;
    /// let rail = host.set_microvolts(0, Register::VoutCommand, 3_300_000, COURSE_TRIES, &mut bus)?;
    /// assert_eq!((rail.band, rail.within), (Ok(Band { least: 3_300_048, greatest: 3_300_049 }), LimitsState::Yes));
    /// let twelve_volts = host.set_microvolts(0, Register::VoutCommand, 12_000_000, COURSE_TRIES, &mut bus);
    /// assert!(matches!(twelve_volts, Err(NotReached::Refused { refusal: Refusal::L4AboveLimit, .. })));
    /// # Ok::<(), Box<dyn core::error::Error>>(())
    /// ```
    pub fn set_microvolts<B: Bus>(
        &mut self,
        output: u8,
        register: Register,
        microvolts: i64,
        tries: u16,
        bus: &mut B,
    ) -> Result<Rail, NotReached<B::Error>> {
        self.run_course(&mut Course::voltage(output, register, microvolts, tries)?, bus)?;
        Ok(self.rail(output)?)
    }
}

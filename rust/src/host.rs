//! The host.

use core::fmt;

use crate::ffi;
use crate::number::Format;
use crate::packet::Bytes;
use crate::patient::turns_on;
use crate::refusal::{accepted, Refusal};

/// A register of an output.
#[derive(Clone, Copy, Debug, PartialEq, Eq, Hash)]
pub enum Register {
    /// OPERATION.
    Operation,
    /// VOUT_COMMAND.
    VoutCommand,
    /// VOUT_MAX.
    VoutMax,
    /// VOUT_MARGIN_HIGH.
    VoutMarginHigh,
    /// VOUT_MARGIN_LOW.
    VoutMarginLow,
    /// VOUT_MIN.
    VoutMin,
}

/// A setting that a host orders and checks: a register of an output, or the device's WRITE_PROTECT.
#[derive(Clone, Copy, Debug, PartialEq, Eq, Hash)]
pub enum Cell {
    /// A register of an output, by its number.
    Output(u8, Register),
    /// WRITE_PROTECT.
    WriteProtect,
}

impl Cell {
    /// The output, 0 of WRITE_PROTECT, and the command code.
    pub(crate) fn numbers(self) -> (u8, u8) {
        match self {
            Cell::Output(output, register) => (output, register.code()),
            Cell::WriteProtect => (0, 0x10),
        }
    }

    pub(crate) fn of(output: u8, code: u8) -> Cell {
        Register::of(code).map_or(Cell::WriteProtect, |register| Cell::Output(output, register))
    }
}

impl Register {
    /// Every register, in the order in which a device has them.
    pub const ALL: [Register; 6] = [
        Register::Operation,
        Register::VoutCommand,
        Register::VoutMax,
        Register::VoutMarginHigh,
        Register::VoutMarginLow,
        Register::VoutMin,
    ];

    /// The register of a command code, if it is one's.
    pub(crate) fn of(code: u8) -> Option<Register> {
        Register::ALL.into_iter().find(|register| register.code() == code)
    }

    /// Its command code.
    pub const fn code(self) -> u8 {
        match self {
            Register::Operation => 0x01,
            Register::VoutCommand => 0x21,
            Register::VoutMax => 0x24,
            Register::VoutMarginHigh => 0x25,
            Register::VoutMarginLow => 0x26,
            Register::VoutMin => 0x2B,
        }
    }
}

/// How a job stands.
///
/// ```
/// # #![deny(unused_must_use)]
/// # fn main() -> Result<(), pmhost::Refusal> {
/// # let mut host = pmhost::Host::new(0x58, 1, 1)?;
/// # host.store()?;
/// assert_eq!(host.write_ended(false)?, pmhost::Step::Unknown { fault: None });
/// # Ok(())
/// # }
/// ```
///
/// The compiler warns if it is dropped:
///
/// ```compile_fail
/// # #![deny(unused_must_use)]
/// # fn main() -> Result<(), pmhost::Refusal> {
/// # let mut host = pmhost::Host::new(0x58, 1, 1)?;
/// # host.store()?;
/// host.write_ended(false)?;
/// # Ok(())
/// # }
/// ```
#[derive(Clone, Copy, Debug, PartialEq, Eq)]
#[must_use = "a job may have ended in another way than `Done`"]
pub enum Step {
    /// It goes on: send what is to be sent now.
    Next,
    /// An order's word was read back, a check read its cell, or a command was acknowledged.
    Done,
    /// The last pass of an order read this other word.
    Differs(u16),
    /// No good answer came in the last pass, or no pass was acknowledged.
    Unknown {
        /// What was wrong with the last answer, F1 to F5; `None` if no byte came, if the job sent a command, or if
        /// the answer was good and names no format.
        fault: Option<Refusal>,
    },
    /// A learn found the format.
    Learned,
}

impl Step {
    /// Its number, as the header has it.
    pub(crate) const fn kind(self) -> u16 {
        match self {
            Step::Next => 0,
            Step::Done => 1,
            Step::Differs(_) => 2,
            Step::Unknown { .. } => 3,
            Step::Learned => 4,
        }
    }
}

impl fmt::Display for Step {
    /// The name that the library has for it, with the word or the fault.
    fn fmt(&self, to: &mut fmt::Formatter<'_>) -> fmt::Result {
        let mut name = ffi::NameImage::default();
        // SAFETY: the reference is valid and overlaps nothing.
        unsafe { ffi::pm_end_name(self.kind(), &mut name) };
        to.write_str(name.as_str())?;
        match self {
            Step::Differs(word) => write!(to, " {word:04X}"),
            Step::Unknown { fault: Some(fault) } => write!(to, ", the last answer: {fault}"),
            _ => Ok(()),
        }
    }
}

/// What is to be sent now.
#[derive(Clone, Copy, Debug, PartialEq, Eq)]
pub enum Sending {
    /// Nothing: no job is open.
    Nothing,
    /// A packet, which a stop ends: the address byte first, its packet error code last.
    Write(Bytes),
    /// A request, which a repeated start ends.
    Request {
        /// Its bytes, the address byte first.
        frame: Bytes,
        /// How many bytes a whole answer has, the read address first.
        answer: usize,
    },
}

/// The words that a cell may hold.
#[derive(Clone, Copy, Debug, PartialEq, Eq)]
pub struct Possible {
    count: u16,
    words: [u16; 16],
}

impl Sending {
    /// Whether this is a write that may be sent once only: OPERATION gets a byte with bit 7 set, which turns an output on or leaves it on. If nobody
    /// heard it the part was away, and may have come up anew since: the list reads again, and orders once more. No patience may send it again.
    #[must_use]
    pub fn is_once(&self) -> bool {
        matches!(self, Sending::Write(bytes) if turns_on(&bytes[1..]))
    }

    pub(crate) fn of(found: ffi::SendingImage) -> Sending {
        let frame = Bytes::of(found.length, found.bytes);
        match found.kind {
            1 => Sending::Write(frame),
            2 => Sending::Request { frame, answer: usize::from(found.answer) },
            _ => Sending::Nothing,
        }
    }
}

impl Possible {
    fn of(image: ffi::WordsImage) -> Possible {
        Possible { count: image.count.min(16), words: image.words }
    }

    /// The words, `None` if it may hold any.
    pub fn words(&self) -> Option<&[u16]> {
        if self.count == 0 {
            None
        } else {
            Some(&self.words[..usize::from(self.count)])
        }
    }

    /// Whether it may hold this word.
    pub fn allows(&self, word: u16) -> bool {
        self.words().map_or(true, |words| words.contains(&word))
    }
}

/// What is known of one cell.
#[derive(Clone, Copy, Debug, PartialEq, Eq)]
pub struct Known {
    /// The cell.
    pub cell: Cell,
    /// Its word, if that is confirmed.
    pub confirmed: Option<u16>,
    /// The words that it may hold.
    pub possible: Possible,
}

/// The least and the most that an output may be commanded to, in microvolts. Both count as within.
#[derive(Clone, Copy, Debug, PartialEq, Eq)]
pub struct Limits {
    /// The least.
    pub least: i64,
    /// The most.
    pub most: i64,
}

/// Which voltages an output may be commanded to, in microvolts, the least rounded down and the greatest up.
#[derive(Clone, Copy, Debug, PartialEq, Eq)]
pub struct Band {
    /// The least.
    pub least: i64,
    /// The greatest.
    pub greatest: i64,
}

/// Whether an output's voltage lies within its limits, by what is known.
#[derive(Clone, Copy, Debug, PartialEq, Eq)]
#[must_use = "the output may be outside its limits"]
pub enum LimitsState {
    /// Its whole band does.
    Yes,
    /// Its whole band lies below them, or above them.
    No,
    /// What is known doesn't say.
    NotKnown,
    /// It has no limits: it was given none, or it was said that it has none.
    NoLimits,
}

/// A host for one device: it says what to send, and hears what came of it. It takes no memory beside its own, and may
/// be copied.
///
/// ```
/// use pmhost::{Cell, Host, Register, Sending, Step};
///
/// let mut host = Host::new(0x58, 2, 2)?;
/// let cell = Cell::Output(0, Register::VoutCommand);
/// host.no_limits(0)?; // any voltage of output 0
/// host.order(cell, 0x34CD)?;
/// let Sending::Write(frame) = host.frame() else { panic!() };
/// assert_eq!(&*frame, [0xB0, 0x05, 0x04, 0x00, 0x21, 0xCD, 0x34, 0x5A]);
/// assert_eq!(host.write_ended(false)?, Step::Next); // the acknowledgement is lost
/// assert_eq!(host.read_ended(&[0xB1, 0x02, 0xCD, 0x34, 0xB9])?, Step::Done);
/// assert_eq!(host.confirmed_word(cell)?, Some(0x34CD));
/// # Ok::<(), pmhost::Refusal>(())
/// ```
#[derive(Clone)]
pub struct Host {
    pub(crate) image: ffi::HostImage,
    address: u8,
    outputs: u8,
    passes: u8,
}

impl fmt::Debug for Host {
    /// What it was made with, and each word that is confirmed, in hexadecimal.
    fn fmt(&self, to: &mut fmt::Formatter<'_>) -> fmt::Result {
        let mut host = to.debug_struct("Host");
        host.field("address", &format_args!("0x{:02X}", self.address));
        host.field("outputs", &self.outputs).field("passes", &self.passes);
        host.field("confirmed", &Confirmed(self)).finish_non_exhaustive()
    }
}

struct Confirmed<'a>(&'a Host);

impl fmt::Debug for Confirmed<'_> {
    fn fmt(&self, to: &mut fmt::Formatter<'_>) -> fmt::Result {
        let mut words = to.debug_map();
        for Known { cell, confirmed, .. } in self.0.known_cells() {
            if let Some(word) = confirmed {
                words.entry(&cell, &format_args!("0x{word:04X}"));
            }
        }
        words.finish()
    }
}

// SAFETY of each call of the library: references are valid and aligned, the one that is written overlaps nothing, a
// slice's pointer and count are its own. The library wants nothing else, and takes memory of any bytes.
impl Host {
    /// A host for the device at this address, 08h to 77h, with 1 to 8 outputs; a job has at most 1 to 15 passes. Nothing is
    /// known, no limits either: give each output some, or say by `no_limits` that it has none. NoAddress, H1, H2; NoHost if the
    /// library is of another version.
    pub fn new(address: u8, outputs: u8, passes: u8) -> Result<Host, Refusal> {
        let mut image = Host::blank()?;
        accepted(unsafe { ffi::pm_host_new(&mut image, address, outputs, passes) })?;
        Ok(Host { image, address, outputs, passes })
    }

    /// The same of a part whose outputs lack these registers: of VOUT_MAX, the margins and VOUT_MIN, since every part has the
    /// others: OPERATION and VOUT_COMMAND in it are ignored. A missing VOUT_MIN or VOUT_MAX cuts nothing, and a job on a missing
    /// register is refused (L7).
    pub fn without(address: u8, outputs: u8, passes: u8, missing: &[Register]) -> Result<Host, Refusal> {
        let has = |register| u8::from(!missing.contains(&register));
        let registers = ffi::RegistersImage {
            vout_max: has(Register::VoutMax),
            vout_margin_high: has(Register::VoutMarginHigh),
            vout_margin_low: has(Register::VoutMarginLow),
            vout_min: has(Register::VoutMin),
        };
        let mut image = Host::blank()?;
        accepted(unsafe { ffi::pm_host_new_with(&mut image, address, outputs, passes, &registers) })?;
        Ok(Host { image, address, outputs, passes })
    }

    /// The address of its device, 08h to 77h.
    #[must_use]
    pub fn address(&self) -> u8 {
        self.address
    }

    /// How many outputs the device has, 1 to 8.
    #[must_use]
    pub fn outputs(&self) -> u8 {
        self.outputs
    }

    /// How many passes a job has at most, 1 to 15.
    #[must_use]
    pub fn passes(&self) -> u8 {
        self.passes
    }

    fn blank() -> Result<ffi::HostImage, Refusal> {
        let found = unsafe { (ffi::pm_version() >> 8, ffi::pm_host_version(), ffi::pm_host_size()) };
        let wanted = (ffi::VERSION >> 8, ffi::HOST_VERSION, ffi::HOST_SIZE as u64);
        if found != wanted {
            return Err(Refusal::NoHost);
        }
        Ok(ffi::HostImage { held: [0; ffi::HOST_SIZE / 8] })
    }

    /// Gives an output limits, or narrower ones. They hold for words as the format has them that the last learn found: if the part
    /// may be another one, or VOUT_MODE may have been written, learn again before an order. H4, N5, L1, L6, H3 if an order of the
    /// output is open that these would refuse.
    pub fn set_limits(&mut self, output: u8, limits: Limits) -> Result<(), Refusal> {
        accepted(unsafe { ffi::pm_host_set_limits(&mut self.image, output, limits.least, limits.most) })
    }

    /// Says that an output has no limits: any voltage may be ordered of it. Without this and without limits an order of a voltage,
    /// and one of OPERATION that leaves the output on, is refused (L8); turning it off isn't. H4, L6 if it has limits.
    pub fn no_limits(&mut self, output: u8) -> Result<(), Refusal> {
        accepted(unsafe { ffi::pm_host_no_limits(&mut self.image, output) })
    }

    /// The limits of an output, if it was given any. H4.
    pub fn limits(&self, output: u8) -> Result<Option<Limits>, Refusal> {
        let mut found = ffi::LimitsImage::default();
        match accepted(unsafe { ffi::pm_host_limits(&self.image, output, &mut found) }) {
            Err(Refusal::NoLimits) => Ok(None),
            other => other.map(|()| Some(Limits { least: found.least, most: found.most })),
        }
    }

    /// Whether an output's voltage lies within its limits, by what is known. H4.
    pub fn limits_state(&self, output: u8) -> Result<LimitsState, Refusal> {
        within_of(unsafe { ffi::pm_host_limits_state(&self.image, output) })
    }

    /// Which voltages an output may be commanded to, by what is known. H4, H7 if its format isn't known, NoBand if OPERATION may
    /// hand its voltage to AVSBus, N5.
    pub fn band(&self, output: u8) -> Result<Band, Refusal> {
        let mut found = ffi::BandImage::default();
        accepted(unsafe { ffi::pm_host_band(&self.image, output, &mut found) })?;
        Ok(Band { least: found.least, greatest: found.greatest })
    }

    /// Begins an order of a word. H3, H4, L7, L8, L2, L3, L4, H5, L5, H6.
    pub fn order(&mut self, cell: Cell, word: u16) -> Result<(), Refusal> {
        let (output, code) = cell.numbers();
        accepted(unsafe { ffi::pm_host_order(&mut self.image, output, code, word) })
    }

    /// Begins an order of the word nearest to microvolts. H3, H4, L7, H5, H7, N5, N3, N4, L8, L3, L4, H6.
    pub fn order_microvolts(&mut self, cell: Cell, microvolts: i64) -> Result<(), Refusal> {
        let (output, code) = cell.numbers();
        accepted(unsafe { ffi::pm_host_order_microvolts(&mut self.image, output, code, microvolts) })
    }

    /// Begins a check. H3, H4, L7.
    pub fn check(&mut self, cell: Cell) -> Result<(), Refusal> {
        let (output, code) = cell.numbers();
        accepted(unsafe { ffi::pm_host_check(&mut self.image, output, code) })
    }

    /// Begins a learn of an output's format. H3, H4.
    pub fn learn(&mut self, output: u8) -> Result<(), Refusal> {
        accepted(unsafe { ffi::pm_host_learn(&mut self.image, output) })
    }

    /// Begins a clear of an output's latched faults. H3, H4.
    pub fn clear(&mut self, output: u8) -> Result<(), Refusal> {
        accepted(unsafe { ffi::pm_host_clear(&mut self.image, output) })
    }

    /// Begins a store of the outputs' settings, which wears the part's memory: `run` sends its frame once, and a loop of one's own
    /// that sends what `frame` says sends it in each of `passes` until it is acknowledged. H3.
    pub fn store(&mut self) -> Result<(), Refusal> {
        accepted(unsafe { ffi::pm_host_store(&mut self.image) })
    }

    /// Begins a restore of the outputs' settings. H3.
    pub fn restore(&mut self) -> Result<(), Refusal> {
        accepted(unsafe { ffi::pm_host_restore(&mut self.image) })
    }

    /// What is to be sent now.
    pub fn frame(&self) -> Sending {
        let mut found = ffi::SendingImage::default();
        unsafe { ffi::pm_host_frame(&self.image, &mut found) };
        Sending::of(found)
    }

    /// A write was sent, and acknowledged or not. OtherFrame if none is to be sent.
    pub fn write_ended(&mut self, acked: bool) -> Result<Step, Refusal> {
        step_of(unsafe { ffi::pm_host_write_ended(&mut self.image, u8::from(acked)) })
    }

    /// A request was sent, and these bytes came back, the read address first; none if there was no answer. OtherFrame
    /// if none is to be sent.
    pub fn read_ended(&mut self, bytes: &[u8]) -> Result<Step, Refusal> {
        step_of(unsafe { ffi::pm_host_read_ended(&mut self.image, bytes.as_ptr(), bytes.len() as u64) })
    }

    /// Drops the open job and all that is known; the limits stay. `give_up` ends a job and keeps what is known.
    pub fn restart(&mut self) {
        unsafe { ffi::pm_host_restart(&mut self.image) };
    }

    /// The word of a cell, if it is confirmed. H4.
    pub fn confirmed_word(&self, cell: Cell) -> Result<Option<u16>, Refusal> {
        let ((output, code), mut found) = (cell.numbers(), ffi::StandingImage::default());
        accepted(unsafe { ffi::pm_host_confirmed_word(&self.image, output, code, &mut found) })?;
        Ok(confirmed(found))
    }

    /// The words that a cell may hold. H4.
    pub fn possible_words(&self, cell: Cell) -> Result<Possible, Refusal> {
        let ((output, code), mut found) = (cell.numbers(), ffi::WordsImage::default());
        accepted(unsafe { ffi::pm_host_possible_words(&self.image, output, code, &mut found) })?;
        Ok(Possible::of(found))
    }

    /// The format of an output's voltages, if it was learned. H4.
    pub fn format(&self, output: u8) -> Result<Option<Format>, Refusal> {
        let mut found = ffi::FormatImage::default();
        accepted(unsafe { ffi::pm_host_format(&self.image, output, &mut found) })?;
        Ok(Format::of(found))
    }

    /// What is known of every cell, output by output and WRITE_PROTECT last.
    pub fn known_cells(&self) -> impl Iterator<Item = Known> {
        let mut found = ffi::KnownImage { count: 0, cells: [ffi::CellImage::default(); ffi::CELLS] };
        unsafe { ffi::pm_host_known_cells(&self.image, &mut found) };
        found.cells.into_iter().take(usize::from(found.count)).map(|it| Known {
            cell: Cell::of(it.output, it.code),
            confirmed: confirmed(it.standing),
            possible: Possible::of(it.words),
        })
    }

    /// Whether a restart of the device was seen since the host started.
    #[must_use]
    pub fn restart_seen(&self) -> bool {
        unsafe { ffi::pm_host_restart_seen(&self.image) == 1 }
    }
}

pub(crate) fn within_of(number: u8) -> Result<LimitsState, Refusal> {
    match number {
        0x91 => Ok(LimitsState::Yes),
        0x92 => Ok(LimitsState::No),
        0x93 => Ok(LimitsState::NotKnown),
        0xE6 => Ok(LimitsState::NoLimits),
        number => Err(Refusal::of(number)),
    }
}

fn confirmed(standing: ffi::StandingImage) -> Option<u16> {
    (standing.is_confirmed == 1).then_some(standing.word)
}

pub(crate) fn step_of(step: ffi::StepImage) -> Result<Step, Refusal> {
    match step.kind {
        0 => Ok(Step::Next),
        1 => Ok(Step::Done),
        2 => Ok(Step::Differs(step.word)),
        3 => Ok(Step::Unknown { fault: accepted(step.word.to_le_bytes()[0]).err() }),
        4 => Ok(Step::Learned),
        number => Err(Refusal::of(number.to_le_bytes()[0])),
    }
}

//! A model of a part, for tests on a desk.

use core::fmt;

use crate::bus::{Bus, Operation};
use crate::ffi;
use crate::host::{Cell, Register};
use crate::packet::Bytes;
use crate::patient::Unheard;
use crate::refusal::{accepted, Refusal};

/// An output as it starts.
#[derive(Clone, Copy, Debug, PartialEq, Eq)]
pub struct Output {
    /// VOUT_MODE: 14h is ULINEAR16 with the exponent -12, 40h DIRECT with the part's coefficients.
    pub mode: u8,
    /// OPERATION.
    pub operation: u8,
    /// VOUT_COMMAND.
    pub command: u16,
    /// VOUT_MAX.
    pub max: u16,
    /// VOUT_MARGIN_HIGH.
    pub margin_high: u16,
    /// VOUT_MARGIN_LOW.
    pub margin_low: u16,
    /// VOUT_MIN.
    pub min: u16,
}

impl Default for Output {
    fn default() -> Output {
        Output { mode: 0x14, operation: 0x80, command: 0x1000, max: 0x4000, margin_high: 0x1100, margin_low: 0x0F00, min: 0 }
    }
}

/// A reading that a part answers.
#[derive(Clone, Copy, Debug, PartialEq, Eq)]
pub enum Reading {
    /// READ_VIN, the device's.
    Vin,
    /// READ_TEMPERATURE_1, the device's.
    Temperature,
    /// READ_VOUT of an output.
    Vout(u8),
    /// READ_IOUT of an output.
    Iout(u8),
}

/// A model converter, with PAGE, a user store, readings and latched status. It may be copied.
#[derive(Clone)]
pub struct Part {
    image: ffi::PartImage,
    address: u8,
    outputs: u8,
}

impl fmt::Debug for Part {
    fn fmt(&self, to: &mut fmt::Formatter<'_>) -> fmt::Result {
        to.debug_struct("Part").field("address", &self.address).field("outputs", &self.outputs).finish_non_exhaustive()
    }
}

/// What it makes of a frame.
#[derive(Clone, Copy, Debug, PartialEq, Eq)]
#[must_use = "the part may have taken nothing"]
pub enum Heard {
    /// It is for another device.
    Silent,
    /// It took a write.
    Taken,
    /// It answers, with the read address first.
    Answered(Bytes),
}

// SAFETY of each call of the library: references are valid and aligned, the one that is written overlaps nothing, a
// slice's pointer and count are its own. The library wants nothing else, and takes memory of any bytes.
impl Part {
    /// A part at an address, with 1 to 8 outputs, and coefficients m, b and R for those whose mode is DIRECT; WRITE_PROTECT
    /// starts as 00h. V1 to V5; NoPart if the library is of another version.
    pub fn new(address: u8, outputs: &[Output], coefficients: (i16, i16, i8)) -> Result<Part, Refusal> {
        Part::protected(address, outputs, coefficients, 0)
    }

    /// The same with the start word of WRITE_PROTECT.
    pub fn protected(address: u8, outputs: &[Output], coefficients: (i16, i16, i8), protect: u8) -> Result<Part, Refusal> {
        if unsafe { ffi::pm_part_size() } != ffi::PART_SIZE as u64 {
            return Err(Refusal::NoPart);
        }
        let count = u8::try_from(outputs.len()).unwrap_or(255);
        let mut config = ffi::ConfigImage {
            address,
            outputs: count,
            m: coefficients.0,
            b: coefficients.1,
            r: coefficients.2,
            protect: protect.into(),
            ..ffi::ConfigImage::default()
        };
        for (place, it) in config.starts.iter_mut().zip(outputs) {
            place.mode = it.mode;
            place.words = [it.operation.into(), it.command, it.max, it.margin_high, it.margin_low, it.min];
        }
        let mut part = Part { image: ffi::PartImage { memory: [0; ffi::PART_SIZE / 2] }, address, outputs: count };
        accepted(unsafe { ffi::pm_part_new(&mut part.image, &config) })?;
        Ok(part)
    }

    /// Its address.
    pub fn address(&self) -> u8 {
        self.address
    }

    /// How many outputs it has.
    pub fn outputs(&self) -> u8 {
        self.outputs
    }

    /// It restarts, as after a loss of its supply: the outputs' registers have their words in the store, WRITE_PROTECT
    /// its start word, PAGE is 0, and no status is latched but what shows at once. The store and the readings stay.
    pub fn restart(&mut self) {
        // What `new` made is a part, and every call leaves one.
        let _ = unsafe { ffi::pm_part_restart(&mut self.image) };
    }

    /// It hears one frame, which a repeated start ends or else a stop. K1 to K7, which set a bit of STATUS_CML and no more.
    pub fn hear(&mut self, frame: &[u8], is_request: bool) -> Result<Heard, Refusal> {
        let mut reply = ffi::ReplyImage::default();
        match unsafe { ffi::pm_part_hear(&mut self.image, frame.as_ptr(), frame.len() as u64, u8::from(is_request), &mut reply) }
        {
            0x81 => Ok(Heard::Silent),
            0x82 => Ok(Heard::Taken),
            0x83 => Ok(Heard::Answered(Bytes::of(reply.length, reply.bytes))),
            number => Err(Refusal::of(number)),
        }
    }

    /// Gives a reading another word. H4.
    pub fn set_reading(&mut self, reading: Reading, word: u16) -> Result<(), Refusal> {
        let (output, code) = match reading {
            Reading::Vin => (0, 0x88),
            Reading::Temperature => (0, 0x8D),
            Reading::Vout(output) => (output, 0x8B),
            Reading::Iout(output) => (output, 0x8C),
        };
        accepted(unsafe { ffi::pm_part_set_reading(&mut self.image, output, code, word) })
    }

    /// The word that a cell holds. H4.
    pub fn word(&self, cell: Cell) -> Result<u16, Refusal> {
        let (output, code) = cell.numbers();
        written(|word| unsafe { ffi::pm_part_word(&self.image, output, code, word) })
    }

    /// The word that a cell has in the user store. H4; NoCell of WRITE_PROTECT, which isn't stored.
    pub fn stored_word(&self, cell: Cell) -> Result<u16, Refusal> {
        let (output, code) = cell.numbers();
        written(|word| unsafe { ffi::pm_part_stored_word(&self.image, output, code, word) })
    }

    /// PAGE: the output that plain packets reach.
    pub fn page(&self) -> u8 {
        let mut page = 0;
        let _ = unsafe { ffi::pm_part_page(&self.image, &mut page) };
        page
    }

    /// The whole microvolts that an output commands, on or off, rounded down. H4, N5.
    pub fn commanded_microvolts(&self, output: u8) -> Result<i64, Refusal> {
        written(|microvolts| unsafe { ffi::pm_part_commanded_microvolts(&self.image, output, microvolts) })
    }

    /// Whether OPERATION has an output on. H4.
    pub fn is_on(&self, output: u8) -> Result<bool, Refusal> {
        written(|on| unsafe { ffi::pm_part_on_state(&self.image, output, on) }).map(|on: u8| on == 1)
    }

    /// STATUS_BYTE of an output. H4.
    pub fn status_byte(&self, output: u8) -> Result<u8, Refusal> {
        written(|status| unsafe { ffi::pm_part_status_byte(&self.image, output, status) })
    }

    /// STATUS_WORD of an output. H4.
    pub fn status_word(&self, output: u8) -> Result<u16, Refusal> {
        written(|status| unsafe { ffi::pm_part_status_word(&self.image, output, status) })
    }

    /// STATUS_VOUT of an output. H4.
    pub fn status_vout(&self, output: u8) -> Result<u8, Refusal> {
        written(|status| unsafe { ffi::pm_part_status_vout(&self.image, output, status) })
    }

    /// STATUS_CML, the device's.
    pub fn status_cml(&self) -> u8 {
        let mut status = 0;
        let _ = unsafe { ffi::pm_part_status_cml(&self.image, &mut status) };
        status
    }

    /// The word of an output's register.
    pub fn register(&self, output: u8, register: Register) -> Result<u16, Refusal> {
        self.word(Cell::Output(output, register))
    }
}

/// What a call writes, if it isn't refused.
fn written<T: Default>(call: impl FnOnce(&mut T) -> u8) -> Result<T, Refusal> {
    let mut found = T::default();
    accepted(call(&mut found))?;
    Ok(found)
}

/// Nothing acknowledged, or nothing came.
#[derive(Clone, Copy, PartialEq, Eq)]
pub struct NoAnswer;

impl fmt::Display for NoAnswer {
    fn fmt(&self, to: &mut fmt::Formatter<'_>) -> fmt::Result {
        to.write_str("the part didn't acknowledge or answer")
    }
}

impl fmt::Debug for NoAnswer {
    /// Its words: a `main` that answers an error prints them.
    fn fmt(&self, to: &mut fmt::Formatter<'_>) -> fmt::Result {
        write!(to, "{self}")
    }
}

impl core::error::Error for NoAnswer {}

impl Unheard for NoAnswer {
    /// It never says so: a part that refuses a frame has heard it, and has the same error.
    fn is_unheard(&self) -> bool {
        false
    }
}

impl Bus for Part {
    type Error = NoAnswer;

    fn transaction(&mut self, address: u8, operations: &mut [Operation<'_>]) -> Result<(), NoAnswer> {
        let mut frame = [0; 17];
        let Some(Operation::Write(bytes)) = operations.first() else { return Err(NoAnswer) };
        let count = bytes.len().min(16) + 1;
        frame[0] = address << 1;
        frame[1..count].copy_from_slice(&bytes[..count - 1]);
        let heard = self.hear(&frame[..count], operations.len() > 1).map_err(|_| NoAnswer)?;
        match (heard, operations.get_mut(1)) {
            (Heard::Taken, None) => Ok(()),
            (Heard::Answered(answer), Some(Operation::Read(to))) => {
                let came = to.len().min(answer.len() - 1);
                to[..came].copy_from_slice(&answer[1..=came]);
                Ok(())
            }
            _ => Err(NoAnswer),
        }
    }
}

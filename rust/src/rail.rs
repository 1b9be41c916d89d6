//! What an output commands, and what is wanted of its registers.

use crate::ffi;
use crate::host::{within_of, Band, Host, LimitsState, Register};
use crate::refusal::{accepted, Refusal};

/// Whether an output is on, by the bytes that its OPERATION may be.
#[derive(Clone, Copy, Debug, PartialEq, Eq)]
pub enum Power {
    /// Each of them has it on.
    On,
    /// Each of them has it off.
    Off,
    /// What is known of OPERATION doesn't tell.
    NotKnown,
}

/// Which register has an output's voltage, by the bytes that its OPERATION may be. An output that is off has VOUT_COMMAND.
#[derive(Clone, Copy, Debug, PartialEq, Eq)]
pub enum Selected {
    /// Each of them selects this register: VOUT_COMMAND, VOUT_MARGIN_HIGH or VOUT_MARGIN_LOW.
    Register(Register),
    /// Each of them hands the voltage to AVSBus.
    AvsBus,
    /// What is known of OPERATION doesn't tell.
    NotKnown,
}

/// What an output commands, by what is known.
#[derive(Clone, Copy, Debug, PartialEq, Eq)]
#[must_use = "the output may be outside its limits"]
pub struct Rail {
    /// Whether it is on.
    pub power: Power,
    /// Which register has its voltage.
    pub selected: Selected,
    /// Between which voltages it commands; or why that isn't known: H7 if its format isn't known, NoBand, N5. An output that
    /// is off has its band too.
    pub band: Result<Band, Refusal>,
    /// Whether that lies within its limits.
    pub within: LimitsState,
}

/// The words that are wanted of an output's registers; `None` if one is to stay as it is.
#[derive(Clone, Copy, Debug, Default, PartialEq, Eq)]
pub struct Wanted {
    /// VOUT_COMMAND.
    pub command: Option<u16>,
    /// VOUT_MAX.
    pub max: Option<u16>,
    /// VOUT_MARGIN_HIGH.
    pub margin_high: Option<u16>,
    /// VOUT_MARGIN_LOW.
    pub margin_low: Option<u16>,
    /// VOUT_MIN.
    pub min: Option<u16>,
}

impl Wanted {
    pub(crate) fn image(&self) -> ffi::WantedImage {
        ffi::WantedImage {
            command: wish(self.command),
            max: wish(self.max),
            margin_high: wish(self.margin_high),
            margin_low: wish(self.margin_low),
            min: wish(self.min),
        }
    }
}

fn wish(word: Option<u16>) -> ffi::WishImage {
    ffi::WishImage { has: u16::from(word.is_some()), word: word.unwrap_or(0) }
}

// SAFETY of the call of the library: references are valid and aligned, and the one that is written overlaps nothing.
impl Host {
    /// What an output commands, by what is known. H4.
    pub fn rail(&self, output: u8) -> Result<Rail, Refusal> {
        let mut found = ffi::RailImage::default();
        accepted(unsafe { ffi::pm_host_rail(&self.image, output, &mut found) })?;
        let power = match found.power {
            1 => Power::On,
            2 => Power::Off,
            _ => Power::NotKnown,
        };
        let band = accepted(found.band).map(|()| Band { least: found.ends.least, greatest: found.ends.greatest });
        let selected = match (found.selected, Register::of(found.selected)) {
            (_, Some(register)) => Selected::Register(register),
            (0xFF, None) => Selected::AvsBus,
            _ => Selected::NotKnown,
        };
        Ok(Rail { power, selected, band, within: within_of(found.within)? })
    }
}

//! The names of the registers that a delivery asks for, of their bits, and voltages in words.

use core::fmt;

/// A voltage in volts, without zeros at its end.
pub(crate) struct Volts(pub(crate) Option<i64>);

impl fmt::Display for Volts {
    fn fmt(&self, to: &mut fmt::Formatter<'_>) -> fmt::Result {
        let Some(microvolts) = self.0 else { return to.write_str("beyond 10^15 microvolts") };
        let size = microvolts.unsigned_abs();
        let (whole, mut rest, mut digits) = (size / 1_000_000, size % 1_000_000, 6);
        while digits > 0 && rest % 10 == 0 {
            rest /= 10;
            digits -= 1;
        }
        to.write_str(if microvolts < 0 { "-" } else { "" })?;
        match digits {
            0 => write!(to, "{whole}V"),
            digits => write!(to, "{whole}.{rest:0digits$}V"),
        }
    }
}

/// The names of bits, that of bit 0 first; "" of one that has none.
static STATUS_WORD: [&str; 16] = [
    "NONE_OF_THE_ABOVE",
    "CML",
    "TEMPERATURE",
    "VIN_UV_FAULT",
    "IOUT_OC_FAULT",
    "VOUT_OV_FAULT",
    "OFF",
    "BUSY",
    "UNKNOWN",
    "OTHER",
    "FANS",
    "POWER_GOOD#",
    "MFR_SPECIFIC",
    "INPUT",
    "IOUT_POUT",
    "VOUT",
];
static STATUS_VOUT: [&str; 8] = [
    "TRACKING",
    "TOFF_MAX_WARNING",
    "TON_MAX_FAULT",
    "VOUT_MAX_MIN",
    "VOUT_UV_FAULT",
    "VOUT_UV_WARNING",
    "VOUT_OV_WARNING",
    "VOUT_OV_FAULT",
];
static STATUS_IOUT: [&str; 8] = [
    "POUT_OP_WARNING",
    "POUT_OP_FAULT",
    "POWER_LIMITING",
    "CURRENT_SHARE_FAULT",
    "IOUT_UC_FAULT",
    "IOUT_OC_WARNING",
    "IOUT_OC_LV_FAULT",
    "IOUT_OC_FAULT",
];
static STATUS_INPUT: [&str; 8] = [
    "PIN_OP_WARNING",
    "IIN_OC_WARNING",
    "IIN_OC_FAULT",
    "UNIT_OFF_LOW_VIN",
    "VIN_UV_FAULT",
    "VIN_UV_WARNING",
    "VIN_OV_WARNING",
    "VIN_OV_FAULT",
];
static STATUS_TEMPERATURE: [&str; 8] = ["", "", "", "", "UT_FAULT", "UT_WARNING", "OT_WARNING", "OT_FAULT"];

/// The names of a status register's bits.
fn bits_of(code: u8) -> &'static [&'static str] {
    match code {
        0x79 => &STATUS_WORD,
        0x7A => &STATUS_VOUT,
        0x7B => &STATUS_IOUT,
        0x7C => &STATUS_INPUT,
        0x7D => &STATUS_TEMPERATURE,
        _ => &[],
    }
}

/// The standard's name of a register that is asked.
pub(crate) fn name_of(code: u8) -> &'static str {
    match code {
        0x21 => "VOUT_COMMAND",
        0x25 => "VOUT_MARGIN_HIGH",
        0x26 => "VOUT_MARGIN_LOW",
        0x40 => "VOUT_OV_FAULT_LIMIT",
        0x42 => "VOUT_OV_WARN_LIMIT",
        0x43 => "VOUT_UV_WARN_LIMIT",
        0x44 => "VOUT_UV_FAULT_LIMIT",
        0x5E => "POWER_GOOD_ON",
        0x5F => "POWER_GOOD_OFF",
        0x79 => "STATUS_WORD",
        0x7A => "STATUS_VOUT",
        0x7B => "STATUS_IOUT",
        0x7C => "STATUS_INPUT",
        0x7D => "STATUS_TEMPERATURE",
        0x8B => "READ_VOUT",
        _ => "another register",
    }
}

/// The name of a bit of a status register, or its number.
pub(crate) struct BitName(pub(crate) u8, pub(crate) u8);

impl fmt::Display for BitName {
    fn fmt(&self, to: &mut fmt::Formatter<'_>) -> fmt::Result {
        match bits_of(self.0).get(usize::from(self.1)) {
            Some(name) if !name.is_empty() => to.write_str(name),
            _ => write!(to, "bit {}", self.1),
        }
    }
}

/// A status register with its word and the names of its bits, the high one first.
pub(crate) struct Status(pub(crate) u8, pub(crate) u16);

impl fmt::Display for Status {
    fn fmt(&self, to: &mut fmt::Formatter<'_>) -> fmt::Result {
        let Status(code, word) = *self;
        let digits = if code == 0x79 { 4 } else { 2 };
        write!(to, "{} {word:0digits$X}", name_of(code))?;
        let mut between = " ";
        for bit in (0..16).rev().filter(|bit| word >> bit & 1 == 1) {
            write!(to, "{between}{}", BitName(code, bit))?;
            between = ", ";
        }
        Ok(())
    }
}

#[cfg(test)]
mod tests {
    extern crate std;

    use super::*;
    use std::string::ToString;

    #[test]
    fn voltages_have_their_sign_and_no_zeros_at_the_end() {
        for (microvolts, words) in [
            (Some(3_300_000), "3.3V"),
            (Some(-1_500_000), "-1.5V"),
            (Some(-50), "-0.00005V"),
            (Some(12_000_000), "12V"),
            (Some(0), "0V"),
            (None, "beyond 10^15 microvolts"),
        ] {
            assert_eq!(Volts(microvolts).to_string(), words);
        }
    }

    #[test]
    fn each_register_that_is_asked_has_its_name() {
        for (code, name) in [
            (0x21, "VOUT_COMMAND"),
            (0x25, "VOUT_MARGIN_HIGH"),
            (0x26, "VOUT_MARGIN_LOW"),
            (0x40, "VOUT_OV_FAULT_LIMIT"),
            (0x42, "VOUT_OV_WARN_LIMIT"),
            (0x43, "VOUT_UV_WARN_LIMIT"),
            (0x44, "VOUT_UV_FAULT_LIMIT"),
            (0x5E, "POWER_GOOD_ON"),
            (0x5F, "POWER_GOOD_OFF"),
            (0x79, "STATUS_WORD"),
            (0x7A, "STATUS_VOUT"),
            (0x7B, "STATUS_IOUT"),
            (0x7C, "STATUS_INPUT"),
            (0x7D, "STATUS_TEMPERATURE"),
            (0x8B, "READ_VOUT"),
            (0x80, "another register"),
        ] {
            assert_eq!(name_of(code), name);
        }
    }

    #[test]
    fn each_bit_of_a_status_register_has_its_name() {
        for (code, word, words) in [
            (0x79, 0xFF00, "STATUS_WORD FF00 VOUT, IOUT_POUT, INPUT, MFR_SPECIFIC, POWER_GOOD#, FANS, OTHER, UNKNOWN"),
            (
                0x79,
                0x00FF,
                "STATUS_WORD 00FF BUSY, OFF, VOUT_OV_FAULT, IOUT_OC_FAULT, VIN_UV_FAULT, TEMPERATURE, CML, NONE_OF_THE_ABOVE",
            ),
            (0x7A, 0xF0, "STATUS_VOUT F0 VOUT_OV_FAULT, VOUT_OV_WARNING, VOUT_UV_WARNING, VOUT_UV_FAULT"),
            (0x7A, 0x0F, "STATUS_VOUT 0F VOUT_MAX_MIN, TON_MAX_FAULT, TOFF_MAX_WARNING, TRACKING"),
            (0x7B, 0xF0, "STATUS_IOUT F0 IOUT_OC_FAULT, IOUT_OC_LV_FAULT, IOUT_OC_WARNING, IOUT_UC_FAULT"),
            (0x7B, 0x0F, "STATUS_IOUT 0F CURRENT_SHARE_FAULT, POWER_LIMITING, POUT_OP_FAULT, POUT_OP_WARNING"),
            (0x7C, 0xF0, "STATUS_INPUT F0 VIN_OV_FAULT, VIN_OV_WARNING, VIN_UV_WARNING, VIN_UV_FAULT"),
            (0x7C, 0x0F, "STATUS_INPUT 0F UNIT_OFF_LOW_VIN, IIN_OC_FAULT, IIN_OC_WARNING, PIN_OP_WARNING"),
            (0x7D, 0xF1, "STATUS_TEMPERATURE F1 OT_FAULT, OT_WARNING, UT_WARNING, UT_FAULT, bit 0"),
            (0x7A, 0x00, "STATUS_VOUT 00"),
        ] {
            assert_eq!(Status(code, word).to_string(), words);
        }
    }
}

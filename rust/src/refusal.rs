//! Why a call is refused: the number, the letter and the name, as the library gives them.

use core::fmt;

use crate::ffi;

/// Declares the refusals: each with its number and its name.
macro_rules! refusals {
    ($($(#[$says:meta])* $name:ident = $number:literal),+ $(,)?) => {
        /// Why a call is refused. A refused call changes nothing and sends nothing, but for a bit of STATUS_CML that a part sets if
        /// it refuses a frame, by K1 to K7.
        #[derive(Clone, Copy, Debug, PartialEq, Eq, Hash)]
        #[non_exhaustive]
        pub enum Refusal {
            $($(#[$says])* $name,)+
            /// A number that this crate doesn't know.
            Other(u8),
        }

        impl Refusal {
            /// Every refusal that this crate knows.
            pub const ALL: &'static [Refusal] = &[$(Refusal::$name),+];

            /// Its number, as the header has it.
            pub const fn number(self) -> u8 {
                match self {
                    $(Refusal::$name => $number,)+
                    Refusal::Other(number) => number,
                }
            }

            /// The refusal of a number other than 0.
            pub(crate) const fn of(number: u8) -> Refusal {
                match number {
                    $($number => Refusal::$name,)+
                    number => Refusal::Other(number),
                }
            }
        }
    };
}

refusals! {
    /// H1: a number of outputs other than 1 to 8.
    H1OutputCount = 0x01,
    /// H2: a number of passes other than 1 to 15.
    H2Passes = 0x02,
    /// H3: a job is open.
    H3Busy = 0x03,
    /// H4: the output isn't there.
    H4UnknownOutput = 0x04,
    /// H5: the cell doesn't take the word, or isn't a voltage.
    H5BadWord = 0x05,
    /// H6: 16 words are possible for the cell, and this is another.
    H6TooUncertain = 0x06,
    /// H7: the format of the output's voltages isn't known.
    H7FormatUnknown = 0x07,
    /// N1: m of DIRECT is 0.
    N1ZeroSlope = 0x11,
    /// N2: R of DIRECT is outside -12 to 12.
    N2ExponentRange = 0x12,
    /// N3: below all of the format's values.
    N3BelowLeast = 0x13,
    /// N4: above all of the format's values.
    N4AboveGreatest = 0x14,
    /// N5: beyond 10^15 microvolts in size.
    N5TooLarge = 0x15,
    /// L1: limits whose least is above their most.
    L1LimitsInverted = 0x21,
    /// L2: the output has limits, and its format isn't known.
    L2FormatUnknown = 0x22,
    /// L3: the word's value is below the output's limits.
    L3BelowLimit = 0x23,
    /// L4: the word's value is above the output's limits.
    L4AboveLimit = 0x24,
    /// L5: the byte leaves the output on, and it isn't known to be within its limits.
    L5NotKnownWithin = 0x25,
    /// L6: the new limits let through what the old ones don't.
    L6LimitsWidened = 0x26,
    /// L7: the part doesn't have the register, or the margin that a byte of OPERATION selects.
    L7MissingRegister = 0x27,
    /// L8: no limits are known of the output. Give it some, or say by [`Host::no_limits`](crate::Host::no_limits) that it has none.
    L8NoLimits = 0x28,
    /// F1: bytes of another device, or none.
    F1NotOurs = 0x31,
    /// F2: too few bytes.
    F2Short = 0x32,
    /// F3: too many bytes.
    F3Long = 0x33,
    /// F4: a wrong count.
    F4WrongCount = 0x34,
    /// F5: a wrong packet error code.
    F5WrongPec = 0x35,
    /// F6: a code that isn't in the command table.
    F6UnknownCode = 0x36,
    /// F7: a code that isn't written, or isn't read.
    F7WrongDirection = 0x37,
    /// F8: a code that PAGE_PLUS doesn't carry.
    F8Nested = 0x38,
    /// K1: a faulty frame.
    K1Frame = 0x41,
    /// K2: a code that the part doesn't support.
    K2UnsupportedCode = 0x42,
    /// K3: data that the code doesn't take.
    K3UnsupportedData = 0x43,
    /// K4: no output with this page.
    K4BadPage = 0x44,
    /// K5: the write is protected.
    K5Protected = 0x45,
    /// K6: a code that PAGE_PLUS doesn't carry.
    K6Nested = 0x46,
    /// K7: a code that isn't written, or isn't read.
    K7ReadOnly = 0x47,
    /// P1: the format of the output's voltages isn't known.
    P1FormatUnknown = 0x61,
    /// P4: what a register or WRITE_PROTECT holds isn't known.
    P4NotKnown = 0x64,
    /// P5: a word will be below VOUT_MIN.
    P5BelowMin = 0x65,
    /// P6: a word will be above VOUT_MAX.
    P6AboveMax = 0x66,
    /// P7: WRITE_PROTECT doesn't allow each order that is still to come.
    P7Protected = 0x67,
    /// P8: a word is at or beyond VOUT_OV_FAULT_LIMIT or VOUT_UV_FAULT_LIMIT.
    P8BeyondFaultLimit = 0x68,
    /// P9: the word that a register holds isn't near enough to what is wanted.
    P9NotNear = 0x69,
    /// V1: a part has 1 to 8 outputs.
    V1OutputCount = 0x51,
    /// V2: OPERATION or WRITE_PROTECT doesn't accept its start word.
    V2BadStart = 0x52,
    /// V3: an address outside 08h to 77h.
    V3Address = 0x53,
    /// V4: a VOUT_MODE that is neither ULINEAR16 nor DIRECT.
    V4BadMode = 0x54,
    /// V5: an output is DIRECT, and m is 0 or R outside -12 to 12.
    V5BadCoefficients = 0x55,
    /// The memory holds no host.
    NoHost = 0xE0,
    /// The command code is no cell's, or of no cell that is stored.
    NoCell = 0xE1,
    /// No frame of this kind is being sent.
    OtherFrame = 0xE2,
    /// No address from 08h to 77h: seven bits, as 58h, and not B0h, which is 58h with the bit for a write.
    NoAddress = 0xE3,
    /// No packet has these numbers.
    NoPacket = 0xE4,
    /// The memory holds no part. Of a part that is made: the linked library's have another size in bytes than this crate's; its
    /// version isn't compared.
    NoPart = 0xE5,
    /// The output was given no limits.
    NoLimits = 0xE6,
    /// The number has no name.
    NoName = 0xE7,
    /// The command code is no reading's.
    NoReading = 0xE8,
    /// The memory holds no course, or none to which a voltage can be added. Of a course that is made: the linked library's have another
    /// layout than this crate's.
    NoCourse = 0xE9,
    /// There is room for fewer steps of the way back than there are steps.
    NoRoom = 0xEA,
    /// OPERATION may be a byte that hands the output's voltage to AVSBus.
    NoBand = 0xEB,
    /// Nothing was heard of a rail.
    NoDelivery = 0xEC,
    /// The course orders no word of this register.
    NoGoal = 0xED,
    /// A step has a host, a wish or a look that there isn't, or a list has more than 65,535 steps.
    NoStep = 0xEF,
    /// The memory holds no sequence. Of one that is made: the linked library's have another layout than this crate's.
    NoSequence = 0xF0,
}

impl fmt::Display for Refusal {
    /// The letter and the name, as `H6 TooUncertain`.
    fn fmt(&self, to: &mut fmt::Formatter<'_>) -> fmt::Result {
        let mut name = ffi::NameImage::default();
        // SAFETY: the reference is valid and overlaps nothing.
        match unsafe { ffi::pm_refusal_name(self.number(), &mut name) } {
            0 => to.write_str(name.as_str()),
            _ => write!(to, "number {:02X}h", self.number()),
        }
    }
}

impl core::error::Error for Refusal {}

/// What a call answers if a course or a list has ended, which refuses nothing.
pub(crate) const ENDED: u8 = 0x95;

/// What a number says.
pub(crate) fn accepted(number: u8) -> Result<(), Refusal> {
    if number == 0 {
        Ok(())
    } else {
        Err(Refusal::of(number))
    }
}

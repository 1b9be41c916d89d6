"""The command codes of PMBus 1.3 Part II that are read, by their names as `pmb decode` has them, and how much each has."""
from __future__ import annotations

import re
from dataclasses import dataclass

BYTE, WORD, BLOCK = "byte", "word", "block"
SIZES = {BYTE: 1, WORD: 2, BLOCK: 0}
GIVEN = re.compile(f"([0-9A-Fa-f]{{2}}):({'|'.join(SIZES)})")

BYTES = {
    "PAGE": 0x00, "OPERATION": 0x01, "ON_OFF_CONFIG": 0x02, "PHASE": 0x04, "WRITE_PROTECT": 0x10, "CAPABILITY": 0x19, "VOUT_MODE": 0x20,
    "POWER_MODE": 0x34, "FAN_CONFIG_1_2": 0x3A, "FAN_CONFIG_3_4": 0x3D, "VOUT_OV_FAULT_RESPONSE": 0x41, "VOUT_UV_FAULT_RESPONSE": 0x45,
    "IOUT_OC_FAULT_RESPONSE": 0x47, "IOUT_OC_LV_FAULT_RESPONSE": 0x49, "IOUT_UC_FAULT_RESPONSE": 0x4C, "OT_FAULT_RESPONSE": 0x50,
    "UT_FAULT_RESPONSE": 0x54, "VIN_OV_FAULT_RESPONSE": 0x56, "VIN_UV_FAULT_RESPONSE": 0x5A, "IIN_OC_FAULT_RESPONSE": 0x5C,
    "TON_MAX_FAULT_RESPONSE": 0x63, "POUT_OP_FAULT_RESPONSE": 0x69, "PMBUS_REVISION": 0x98, "MFR_PIN_ACCURACY": 0xAC,
}
WORDS = {
    "VOUT_TRIM": 0x22, "VOUT_CAL_OFFSET": 0x23, "VOUT_TRANSITION_RATE": 0x27, "VOUT_DROOP": 0x28, "VOUT_SCALE_LOOP": 0x29,
    "VOUT_SCALE_MONITOR": 0x2A, "POUT_MAX": 0x31, "MAX_DUTY": 0x32, "FREQUENCY_SWITCH": 0x33, "VIN_ON": 0x35, "VIN_OFF": 0x36,
    "INTERLEAVE": 0x37, "IOUT_CAL_GAIN": 0x38, "IOUT_CAL_OFFSET": 0x39, "FAN_COMMAND_1": 0x3B, "FAN_COMMAND_2": 0x3C,
    "FAN_COMMAND_3": 0x3E, "FAN_COMMAND_4": 0x3F, "IOUT_OC_FAULT_LIMIT": 0x46, "IOUT_OC_LV_FAULT_LIMIT": 0x48, "IOUT_OC_WARN_LIMIT": 0x4A,
    "IOUT_UC_FAULT_LIMIT": 0x4B, "OT_FAULT_LIMIT": 0x4F, "OT_WARN_LIMIT": 0x51, "UT_WARN_LIMIT": 0x52, "UT_FAULT_LIMIT": 0x53,
    "VIN_OV_FAULT_LIMIT": 0x55, "VIN_OV_WARN_LIMIT": 0x57, "VIN_UV_WARN_LIMIT": 0x58, "VIN_UV_FAULT_LIMIT": 0x59,
    "IIN_OC_FAULT_LIMIT": 0x5B, "IIN_OC_WARN_LIMIT": 0x5D,
    "TOFF_DELAY": 0x64, "TOFF_FALL": 0x65, "TOFF_MAX_WARN_LIMIT": 0x66, "POUT_OP_FAULT_LIMIT": 0x68, "POUT_OP_WARN_LIMIT": 0x6A,
    "PIN_OP_WARN_LIMIT": 0x6B, "READ_VCAP": 0x8A, "READ_FAN_SPEED_1": 0x90, "READ_FAN_SPEED_2": 0x91, "READ_FAN_SPEED_3": 0x92,
    "READ_FAN_SPEED_4": 0x93, "MFR_VIN_MIN": 0xA0, "MFR_VIN_MAX": 0xA1, "MFR_IIN_MAX": 0xA2, "MFR_PIN_MAX": 0xA3, "MFR_VOUT_MIN": 0xA4,
    "MFR_VOUT_MAX": 0xA5, "MFR_IOUT_MAX": 0xA6, "MFR_POUT_MAX": 0xA7, "MFR_TAMBIENT_MAX": 0xA8, "MFR_TAMBIENT_MIN": 0xA9,
    "MFR_MAX_TEMP_1": 0xC0, "MFR_MAX_TEMP_2": 0xC1, "MFR_MAX_TEMP_3": 0xC2,
}
BLOCKS = {
    "READ_EIN": 0x86, "READ_EOUT": 0x87, "MFR_ID": 0x99, "MFR_MODEL": 0x9A, "MFR_REVISION": 0x9B, "MFR_LOCATION": 0x9C, "MFR_DATE": 0x9D,
    "MFR_SERIAL": 0x9E, "APP_PROFILE_SUPPORT": 0x9F, "MFR_EFFICIENCY_LL": 0xAA, "MFR_EFFICIENCY_HL": 0xAB,
    "IC_DEVICE_ID": 0xAD, "IC_DEVICE_REV": 0xAE,
    **{f"USER_DATA_{number:02d}": 0xB0 + number for number in range(16)},
}


@dataclass(frozen=True)
class Code:
    """A command code, and whether it has a byte, a word or a block."""

    name: str
    code: int
    kind: str


CODES = {name: Code(name, code, kind) for kind, table in ((BYTE, BYTES), (WORD, WORDS), (BLOCK, BLOCKS)) for name, code in table.items()}


def code_of(word: str) -> Code | None:
    """A code by its name, or as DD:word; None of another word."""
    found = GIVEN.fullmatch(word)
    return Code(word, int(found[1], 16), found[2]) if found else CODES.get(word)

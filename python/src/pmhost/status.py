"""The bits of the status registers by the names that `pmb decode` has for them, the high one first. STATUS_MFR_SPECIFIC has the
maker's own."""
from __future__ import annotations

OF_BYTE = ((0x80, "BUSY"), (0x40, "OFF"), (0x20, "VOUT_OV_FAULT"), (0x10, "IOUT_OC_FAULT"), (0x08, "VIN_UV_FAULT"),
           (0x04, "TEMPERATURE"), (0x02, "CML"), (0x01, "NONE_OF_THE_ABOVE"))
BITS: dict[str, tuple[tuple[int, str], ...]] = {
    "STATUS_BYTE": OF_BYTE,
    "STATUS_WORD": ((0x8000, "VOUT"), (0x4000, "IOUT_POUT"), (0x2000, "INPUT"), (0x1000, "MFR_SPECIFIC"), (0x0800, "POWER_GOOD#"),
                    (0x0400, "FANS"), (0x0200, "OTHER"), (0x0100, "UNKNOWN"), *OF_BYTE),
    "STATUS_VOUT": ((0x80, "VOUT_OV_FAULT"), (0x40, "VOUT_OV_WARNING"), (0x20, "VOUT_UV_WARNING"), (0x10, "VOUT_UV_FAULT"),
                    (0x08, "VOUT_MAX_MIN"), (0x04, "TON_MAX_FAULT"), (0x02, "TOFF_MAX_WARNING"), (0x01, "TRACKING")),
    "STATUS_IOUT": ((0x80, "IOUT_OC_FAULT"), (0x40, "IOUT_OC_LV_FAULT"), (0x20, "IOUT_OC_WARNING"), (0x10, "IOUT_UC_FAULT"),
                    (0x08, "CURRENT_SHARE_FAULT"), (0x04, "POWER_LIMITING"), (0x02, "POUT_OP_FAULT"), (0x01, "POUT_OP_WARNING")),
    "STATUS_INPUT": ((0x80, "VIN_OV_FAULT"), (0x40, "VIN_OV_WARNING"), (0x20, "VIN_UV_WARNING"), (0x10, "VIN_UV_FAULT"),
                     (0x08, "UNIT_OFF_LOW_VIN"), (0x04, "IIN_OC_FAULT"), (0x02, "IIN_OC_WARNING"), (0x01, "PIN_OP_WARNING")),
    "STATUS_TEMPERATURE": ((0x80, "OT_FAULT"), (0x40, "OT_WARNING"), (0x20, "UT_WARNING"), (0x10, "UT_FAULT")),
    "STATUS_CML": ((0x80, "COMMAND"), (0x40, "DATA"), (0x20, "PEC"), (0x10, "MEMORY"), (0x08, "PROCESSOR"), (0x02, "COMMUNICATION"),
                   (0x01, "OTHER")),
    "STATUS_OTHER": ((0x20, "INPUT_A_FUSE"), (0x10, "INPUT_B_FUSE"), (0x08, "INPUT_A_ORING"), (0x04, "INPUT_B_ORING"),
                     (0x02, "OUTPUT_ORING"), (0x01, "FIRST_TO_ASSERT_SMBALERT")),
    "STATUS_MFR_SPECIFIC": (),
    "STATUS_FANS_1_2": ((0x80, "FAN_1_FAULT"), (0x40, "FAN_2_FAULT"), (0x20, "FAN_1_WARNING"), (0x10, "FAN_2_WARNING"),
                        (0x08, "FAN_1_SPEED_OVERRIDDEN"), (0x04, "FAN_2_SPEED_OVERRIDDEN"), (0x02, "AIRFLOW_FAULT"),
                        (0x01, "AIRFLOW_WARNING")),
    "STATUS_FANS_3_4": ((0x80, "FAN_3_FAULT"), (0x40, "FAN_4_FAULT"), (0x20, "FAN_3_WARNING"), (0x10, "FAN_4_WARNING"),
                        (0x08, "FAN_3_SPEED_OVERRIDDEN"), (0x04, "FAN_4_SPEED_OVERRIDDEN")),
}


def names_of(register: str, word: int) -> list[str]:
    """The names of the bits that are 1; one without a name by its number."""
    names = {bit: name for bit, name in BITS[register]}
    return [names.get(1 << place, f"bit {place}") for place in reversed(range(16)) if word >> place & 1]

"""The names of PMBus 1.3's codes, and what payloads of codes beyond the table say: status registers, ON_OFF_CONFIG, texts.
Reserved codes have no name, and those of makers (D0 to FD) no other one than their code."""
from .packets import TABLE

# Names of codes from a first one on, in the order of the codes; a dash is a reserved one.
RUNS = {
    0x00: "PAGE OPERATION ON_OFF_CONFIG CLEAR_FAULTS PHASE PAGE_PLUS_WRITE PAGE_PLUS_READ ZONE_CONFIG ZONE_ACTIVE",
    0x10: "WRITE_PROTECT STORE_DEFAULT_ALL RESTORE_DEFAULT_ALL STORE_DEFAULT_CODE RESTORE_DEFAULT_CODE STORE_USER_ALL "
          "RESTORE_USER_ALL STORE_USER_CODE RESTORE_USER_CODE CAPABILITY QUERY SMBALERT_MASK",
    0x20: "VOUT_MODE VOUT_COMMAND VOUT_TRIM VOUT_CAL_OFFSET VOUT_MAX VOUT_MARGIN_HIGH VOUT_MARGIN_LOW "
          "VOUT_TRANSITION_RATE VOUT_DROOP VOUT_SCALE_LOOP VOUT_SCALE_MONITOR VOUT_MIN",
    0x30: "COEFFICIENTS POUT_MAX MAX_DUTY FREQUENCY_SWITCH POWER_MODE VIN_ON VIN_OFF INTERLEAVE IOUT_CAL_GAIN "
          "IOUT_CAL_OFFSET FAN_CONFIG_1_2 FAN_COMMAND_1 FAN_COMMAND_2 FAN_CONFIG_3_4 FAN_COMMAND_3 FAN_COMMAND_4",
    0x40: "VOUT_OV_FAULT_LIMIT VOUT_OV_FAULT_RESPONSE VOUT_OV_WARN_LIMIT VOUT_UV_WARN_LIMIT VOUT_UV_FAULT_LIMIT "
          "VOUT_UV_FAULT_RESPONSE IOUT_OC_FAULT_LIMIT IOUT_OC_FAULT_RESPONSE IOUT_OC_LV_FAULT_LIMIT "
          "IOUT_OC_LV_FAULT_RESPONSE IOUT_OC_WARN_LIMIT IOUT_UC_FAULT_LIMIT IOUT_UC_FAULT_RESPONSE - - OT_FAULT_LIMIT",
    0x50: "OT_FAULT_RESPONSE OT_WARN_LIMIT UT_WARN_LIMIT UT_FAULT_LIMIT UT_FAULT_RESPONSE VIN_OV_FAULT_LIMIT "
          "VIN_OV_FAULT_RESPONSE VIN_OV_WARN_LIMIT VIN_UV_WARN_LIMIT VIN_UV_FAULT_LIMIT VIN_UV_FAULT_RESPONSE "
          "IIN_OC_FAULT_LIMIT IIN_OC_FAULT_RESPONSE IIN_OC_WARN_LIMIT POWER_GOOD_ON POWER_GOOD_OFF",
    0x60: "TON_DELAY TON_RISE TON_MAX_FAULT_LIMIT TON_MAX_FAULT_RESPONSE TOFF_DELAY TOFF_FALL TOFF_MAX_WARN_LIMIT - "
          "POUT_OP_FAULT_LIMIT POUT_OP_FAULT_RESPONSE POUT_OP_WARN_LIMIT PIN_OP_WARN_LIMIT",
    0x78: "STATUS_BYTE STATUS_WORD STATUS_VOUT STATUS_IOUT STATUS_INPUT STATUS_TEMPERATURE STATUS_CML STATUS_OTHER",
    0x80: "STATUS_MFR_SPECIFIC STATUS_FANS_1_2 STATUS_FANS_3_4 READ_KWH_IN READ_KWH_OUT READ_KWH_CONFIG READ_EIN "
          "READ_EOUT READ_VIN READ_IIN READ_VCAP READ_VOUT READ_IOUT READ_TEMPERATURE_1 READ_TEMPERATURE_2 "
          "READ_TEMPERATURE_3",
    0x90: "READ_FAN_SPEED_1 READ_FAN_SPEED_2 READ_FAN_SPEED_3 READ_FAN_SPEED_4 READ_DUTY_CYCLE READ_FREQUENCY READ_POUT "
          "READ_PIN PMBUS_REVISION MFR_ID MFR_MODEL MFR_REVISION MFR_LOCATION MFR_DATE MFR_SERIAL APP_PROFILE_SUPPORT",
    0xA0: "MFR_VIN_MIN MFR_VIN_MAX MFR_IIN_MAX MFR_PIN_MAX MFR_VOUT_MIN MFR_VOUT_MAX MFR_IOUT_MAX MFR_POUT_MAX "
          "MFR_TAMBIENT_MAX MFR_TAMBIENT_MIN MFR_EFFICIENCY_LL MFR_EFFICIENCY_HL MFR_PIN_ACCURACY IC_DEVICE_ID "
          "IC_DEVICE_REV",
    0xB0: " ".join(f"USER_DATA_{place:02}" for place in range(16)),
    0xC0: "MFR_MAX_TEMP_1 MFR_MAX_TEMP_2 MFR_MAX_TEMP_3",
    0xFE: "MFR_SPECIFIC_COMMAND_EXT PMBUS_COMMAND_EXT",
}
NAMES = {first + place: name for first, names in RUNS.items() for place, name in enumerate(names.split()) if name != "-"}

# Names of bits, the highest first.
BITS = {
    0x7B: ("IOUT_OC_FAULT", "IOUT_OC_LV_FAULT", "IOUT_OC_WARNING", "IOUT_UC_FAULT", "CURRENT_SHARE_FAULT", "POWER_LIMITING",
           "POUT_OP_FAULT", "POUT_OP_WARNING"),
    0x7C: ("VIN_OV_FAULT", "VIN_OV_WARNING", "VIN_UV_WARNING", "VIN_UV_FAULT", "UNIT_OFF_LOW_VIN", "IIN_OC_FAULT",
           "IIN_OC_WARNING", "PIN_OP_WARNING"),
    0x7D: ("OT_FAULT", "OT_WARNING", "UT_WARNING", "UT_FAULT", "bit 3", "bit 2", "bit 1", "bit 0"),
    0x7F: ("bit 7", "bit 6", "INPUT_A_FUSE", "INPUT_B_FUSE", "INPUT_A_ORING", "INPUT_B_ORING", "OUTPUT_ORING",
           "FIRST_TO_ASSERT_SMBALERT"),
    0x80: tuple(f"bit {place}" for place in range(7, -1, -1)),
    0x81: ("FAN_1_FAULT", "FAN_2_FAULT", "FAN_1_WARNING", "FAN_2_WARNING", "FAN_1_SPEED_OVERRIDDEN",
           "FAN_2_SPEED_OVERRIDDEN", "AIRFLOW_FAULT", "AIRFLOW_WARNING"),
    0x82: ("FAN_3_FAULT", "FAN_4_FAULT", "FAN_3_WARNING", "FAN_4_WARNING", "FAN_3_SPEED_OVERRIDDEN",
           "FAN_4_SPEED_OVERRIDDEN", "bit 1", "bit 0"),
}
# Codes whose payload is a block of text: MFR_ID to MFR_SERIAL, IC_DEVICE_ID, IC_DEVICE_REV.
TEXTS = (0x99, 0x9A, 0x9B, 0x9C, 0x9D, 0x9E, 0xAD, 0xAE)
ON_OFF_CONFIG = 0x02
SPEEDS = ("100 kHz", "400 kHz", "1 MHz", "reserved speed")

assert all(NAMES[code] == row[0] for code, row in TABLE.items())


def bits_of(names, word):
    """The names of the bits that are set, the highest first."""
    return [name for place, name in enumerate(names) if word >> len(names) - 1 - place & 1]


def on_off_words(byte):
    """What switches an output, and how its CONTROL pin does."""
    by_operation, by_control = byte >> 3 & 1, byte >> 2 & 1
    words = ["always on"]
    if byte >> 4 & 1:
        words = ["by " + (" and ".join(["OPERATION"] * by_operation + ["CONTROL"] * by_control) or "neither")]
        if by_control:
            words.append("CONTROL active " + ("high" if byte & 2 else "low"))
            words.append("off at once" if byte & 1 else "off with delay")
    return ", ".join(words + [f"bit {place}" for place in (7, 6, 5) if byte >> place & 1])


def capability_words(byte):
    words = ["PEC"] * (byte >> 7) + [SPEEDS[byte >> 5 & 3]]
    return ", ".join(words + bits_of(("SMBALERT#", "IEEE half precision", "AVSBus", "bit 1", "bit 0"), byte & 0x1F))


def block_text(shown):
    """The text of a block: its count, and as many bytes that can be printed, none of them a quote or a backslash; the last one
    may be 00 or FF, which fills up a text of a fixed length."""
    if not shown or shown[0] != len(shown) - 1:
        return None
    block = shown[1:-1] if shown[1:] and shown[-1] in (0x00, 0xFF) else shown[1:]
    is_text = block and all(0x20 <= it < 0x7F and it not in b'"\\' for it in block)
    return bytes(block).decode("ascii") if is_text else None


def fields_of_bytes(code, shown):
    """What the bytes of a code beyond the table say: a dictionary of what JSON has of it, which is empty where nothing is known."""
    if code in TEXTS:
        text = block_text(shown)
        return {"text": text} if text is not None else {}
    if code in TABLE or len(shown) != 1:
        return {}
    if code == ON_OFF_CONFIG:
        return {"value": on_off_words(shown[0])}
    return {"flags": bits_of(BITS[code], shown[0])} if code in BITS else {}

"""Tables of PMBus codes. Written by trials/sigrok/make_tables.py from what `pmb decode --all --json --values`
says of packets of all codes: change nothing here."""

# Each code's name.
NAMES = {
    0x00: "PAGE", 0x01: "OPERATION", 0x02: "ON_OFF_CONFIG", 0x03: "CLEAR_FAULTS", 0x04: "PHASE",
    0x05: "PAGE_PLUS_WRITE", 0x06: "PAGE_PLUS_READ", 0x07: "ZONE_CONFIG", 0x08: "ZONE_ACTIVE", 0x10: "WRITE_PROTECT",
    0x11: "STORE_DEFAULT_ALL", 0x12: "RESTORE_DEFAULT_ALL", 0x13: "STORE_DEFAULT_CODE", 0x14: "RESTORE_DEFAULT_CODE",
    0x15: "STORE_USER_ALL", 0x16: "RESTORE_USER_ALL", 0x17: "STORE_USER_CODE", 0x18: "RESTORE_USER_CODE",
    0x19: "CAPABILITY", 0x1A: "QUERY", 0x1B: "SMBALERT_MASK", 0x20: "VOUT_MODE", 0x21: "VOUT_COMMAND",
    0x22: "VOUT_TRIM", 0x23: "VOUT_CAL_OFFSET", 0x24: "VOUT_MAX", 0x25: "VOUT_MARGIN_HIGH", 0x26: "VOUT_MARGIN_LOW",
    0x27: "VOUT_TRANSITION_RATE", 0x28: "VOUT_DROOP", 0x29: "VOUT_SCALE_LOOP", 0x2A: "VOUT_SCALE_MONITOR",
    0x2B: "VOUT_MIN", 0x30: "COEFFICIENTS", 0x31: "POUT_MAX", 0x32: "MAX_DUTY", 0x33: "FREQUENCY_SWITCH",
    0x34: "POWER_MODE", 0x35: "VIN_ON", 0x36: "VIN_OFF", 0x37: "INTERLEAVE", 0x38: "IOUT_CAL_GAIN",
    0x39: "IOUT_CAL_OFFSET", 0x3A: "FAN_CONFIG_1_2", 0x3B: "FAN_COMMAND_1", 0x3C: "FAN_COMMAND_2",
    0x3D: "FAN_CONFIG_3_4", 0x3E: "FAN_COMMAND_3", 0x3F: "FAN_COMMAND_4", 0x40: "VOUT_OV_FAULT_LIMIT",
    0x41: "VOUT_OV_FAULT_RESPONSE", 0x42: "VOUT_OV_WARN_LIMIT", 0x43: "VOUT_UV_WARN_LIMIT", 0x44: "VOUT_UV_FAULT_LIMIT",
    0x45: "VOUT_UV_FAULT_RESPONSE", 0x46: "IOUT_OC_FAULT_LIMIT", 0x47: "IOUT_OC_FAULT_RESPONSE",
    0x48: "IOUT_OC_LV_FAULT_LIMIT", 0x49: "IOUT_OC_LV_FAULT_RESPONSE", 0x4A: "IOUT_OC_WARN_LIMIT",
    0x4B: "IOUT_UC_FAULT_LIMIT", 0x4C: "IOUT_UC_FAULT_RESPONSE", 0x4F: "OT_FAULT_LIMIT", 0x50: "OT_FAULT_RESPONSE",
    0x51: "OT_WARN_LIMIT", 0x52: "UT_WARN_LIMIT", 0x53: "UT_FAULT_LIMIT", 0x54: "UT_FAULT_RESPONSE",
    0x55: "VIN_OV_FAULT_LIMIT", 0x56: "VIN_OV_FAULT_RESPONSE", 0x57: "VIN_OV_WARN_LIMIT", 0x58: "VIN_UV_WARN_LIMIT",
    0x59: "VIN_UV_FAULT_LIMIT", 0x5A: "VIN_UV_FAULT_RESPONSE", 0x5B: "IIN_OC_FAULT_LIMIT",
    0x5C: "IIN_OC_FAULT_RESPONSE", 0x5D: "IIN_OC_WARN_LIMIT", 0x5E: "POWER_GOOD_ON", 0x5F: "POWER_GOOD_OFF",
    0x60: "TON_DELAY", 0x61: "TON_RISE", 0x62: "TON_MAX_FAULT_LIMIT", 0x63: "TON_MAX_FAULT_RESPONSE",
    0x64: "TOFF_DELAY", 0x65: "TOFF_FALL", 0x66: "TOFF_MAX_WARN_LIMIT", 0x68: "POUT_OP_FAULT_LIMIT",
    0x69: "POUT_OP_FAULT_RESPONSE", 0x6A: "POUT_OP_WARN_LIMIT", 0x6B: "PIN_OP_WARN_LIMIT", 0x78: "STATUS_BYTE",
    0x79: "STATUS_WORD", 0x7A: "STATUS_VOUT", 0x7B: "STATUS_IOUT", 0x7C: "STATUS_INPUT", 0x7D: "STATUS_TEMPERATURE",
    0x7E: "STATUS_CML", 0x7F: "STATUS_OTHER", 0x80: "STATUS_MFR_SPECIFIC", 0x81: "STATUS_FANS_1_2",
    0x82: "STATUS_FANS_3_4", 0x83: "READ_KWH_IN", 0x84: "READ_KWH_OUT", 0x85: "READ_KWH_CONFIG", 0x86: "READ_EIN",
    0x87: "READ_EOUT", 0x88: "READ_VIN", 0x89: "READ_IIN", 0x8A: "READ_VCAP", 0x8B: "READ_VOUT", 0x8C: "READ_IOUT",
    0x8D: "READ_TEMPERATURE_1", 0x8E: "READ_TEMPERATURE_2", 0x8F: "READ_TEMPERATURE_3", 0x90: "READ_FAN_SPEED_1",
    0x91: "READ_FAN_SPEED_2", 0x92: "READ_FAN_SPEED_3", 0x93: "READ_FAN_SPEED_4", 0x94: "READ_DUTY_CYCLE",
    0x95: "READ_FREQUENCY", 0x96: "READ_POUT", 0x97: "READ_PIN", 0x98: "PMBUS_REVISION", 0x99: "MFR_ID",
    0x9A: "MFR_MODEL", 0x9B: "MFR_REVISION", 0x9C: "MFR_LOCATION", 0x9D: "MFR_DATE", 0x9E: "MFR_SERIAL",
    0x9F: "APP_PROFILE_SUPPORT", 0xA0: "MFR_VIN_MIN", 0xA1: "MFR_VIN_MAX", 0xA2: "MFR_IIN_MAX", 0xA3: "MFR_PIN_MAX",
    0xA4: "MFR_VOUT_MIN", 0xA5: "MFR_VOUT_MAX", 0xA6: "MFR_IOUT_MAX", 0xA7: "MFR_POUT_MAX", 0xA8: "MFR_TAMBIENT_MAX",
    0xA9: "MFR_TAMBIENT_MIN", 0xAA: "MFR_EFFICIENCY_LL", 0xAB: "MFR_EFFICIENCY_HL", 0xAC: "MFR_PIN_ACCURACY",
    0xAD: "IC_DEVICE_ID", 0xAE: "IC_DEVICE_REV", 0xB0: "USER_DATA_00", 0xB1: "USER_DATA_01", 0xB2: "USER_DATA_02",
    0xB3: "USER_DATA_03", 0xB4: "USER_DATA_04", 0xB5: "USER_DATA_05", 0xB6: "USER_DATA_06", 0xB7: "USER_DATA_07",
    0xB8: "USER_DATA_08", 0xB9: "USER_DATA_09", 0xBA: "USER_DATA_10", 0xBB: "USER_DATA_11", 0xBC: "USER_DATA_12",
    0xBD: "USER_DATA_13", 0xBE: "USER_DATA_14", 0xBF: "USER_DATA_15", 0xC0: "MFR_MAX_TEMP_1", 0xC1: "MFR_MAX_TEMP_2",
    0xC2: "MFR_MAX_TEMP_3", 0xFE: "MFR_SPECIFIC_COMMAND_EXT", 0xFF: "PMBUS_COMMAND_EXT",
}

# The bytes of a plain write's payload; of a send 0.
WRITES = {
    0x00: 1, 0x01: 1, 0x03: 0, 0x10: 1, 0x15: 0, 0x16: 0, 0x21: 2, 0x24: 2, 0x25: 2, 0x26: 2, 0x2B: 2, 0x7A: 1, 0x7E: 1,
}

# The bytes of a plain read's payload.
READS = {
    0x00: 1, 0x01: 1, 0x10: 1, 0x19: 1, 0x20: 1, 0x21: 2, 0x24: 2, 0x25: 2, 0x26: 2, 0x2B: 2, 0x78: 1, 0x79: 2, 0x7A: 1,
    0x7E: 1, 0x88: 2, 0x8B: 2, 0x8C: 2, 0x8D: 2, 0x98: 1,
}

# The same of writes by PAGE_PLUS_WRITE.
CARRIED_WRITES = {
    0x01: 1, 0x03: 0, 0x10: 1, 0x15: 0, 0x16: 0, 0x21: 2, 0x24: 2, 0x25: 2, 0x26: 2, 0x2B: 2, 0x7A: 1, 0x7E: 1,
}

# The same of reads by PAGE_PLUS_READ.
CARRIED_READS = {
    0x01: 1, 0x10: 1, 0x19: 1, 0x20: 1, 0x21: 2, 0x24: 2, 0x25: 2, 0x26: 2, 0x2B: 2, 0x78: 1, 0x79: 2, 0x7A: 1, 0x7E: 1,
    0x88: 2, 0x8B: 2, 0x8C: 2, 0x8D: 2, 0x98: 1,
}

# The names of a status register's bits, from the highest down.
FLAGS = {
    0x78: [
        "BUSY", "OFF", "VOUT_OV_FAULT", "IOUT_OC_FAULT", "VIN_UV_FAULT", "TEMPERATURE", "CML", "NONE_OF_THE_ABOVE",
    ],
    0x79: [
        "VOUT", "IOUT_POUT", "INPUT", "MFR_SPECIFIC", "POWER_GOOD#", "FANS", "OTHER", "UNKNOWN", "BUSY", "OFF",
        "VOUT_OV_FAULT", "IOUT_OC_FAULT", "VIN_UV_FAULT", "TEMPERATURE", "CML", "NONE_OF_THE_ABOVE",
    ],
    0x7A: [
        "VOUT_OV_FAULT", "VOUT_OV_WARNING", "VOUT_UV_WARNING", "VOUT_UV_FAULT", "VOUT_MAX_MIN", "TON_MAX_FAULT",
        "TOFF_MAX_WARNING", "TRACKING",
    ],
    0x7E: [
        "COMMAND", "DATA", "PEC", "MEMORY", "PROCESSOR", "bit 2", "COMMUNICATION", "OTHER",
    ],
    0x7B: [
        "IOUT_OC_FAULT", "IOUT_OC_LV_FAULT", "IOUT_OC_WARNING", "IOUT_UC_FAULT", "CURRENT_SHARE_FAULT",
        "POWER_LIMITING", "POUT_OP_FAULT", "POUT_OP_WARNING",
    ],
    0x7C: [
        "VIN_OV_FAULT", "VIN_OV_WARNING", "VIN_UV_WARNING", "VIN_UV_FAULT", "UNIT_OFF_LOW_VIN", "IIN_OC_FAULT",
        "IIN_OC_WARNING", "PIN_OP_WARNING",
    ],
    0x7D: [
        "OT_FAULT", "OT_WARNING", "UT_WARNING", "UT_FAULT", "bit 3", "bit 2", "bit 1", "bit 0",
    ],
    0x7F: [
        "bit 7", "bit 6", "INPUT_A_FUSE", "INPUT_B_FUSE", "INPUT_A_ORING", "INPUT_B_ORING", "OUTPUT_ORING",
        "FIRST_TO_ASSERT_SMBALERT",
    ],
    0x80: [
        "bit 7", "bit 6", "bit 5", "bit 4", "bit 3", "bit 2", "bit 1", "bit 0",
    ],
    0x81: [
        "FAN_1_FAULT", "FAN_2_FAULT", "FAN_1_WARNING", "FAN_2_WARNING", "FAN_1_SPEED_OVERRIDDEN",
        "FAN_2_SPEED_OVERRIDDEN", "AIRFLOW_FAULT", "AIRFLOW_WARNING",
    ],
    0x82: [
        "FAN_3_FAULT", "FAN_4_FAULT", "FAN_3_WARNING", "FAN_4_WARNING", "FAN_3_SPEED_OVERRIDDEN",
        "FAN_4_SPEED_OVERRIDDEN", "bit 1", "bit 0",
    ],
}

# What bytes say: the first and the last byte, and the words.
WORDS = {
    0x01: [
        (0x00, 0x3F, "off"), (0x40, 0x7F, "soft off"), (0x80, 0x8F, "on"),
        (0x90, 0x93, "on, margin low, reserved fault bits"), (0x94, 0x9B, "on, margin low"),
        (0x9C, 0x9F, "on, margin low, reserved fault bits"), (0xA0, 0xA3, "on, margin high, reserved fault bits"),
        (0xA4, 0xAB, "on, margin high"), (0xAC, 0xAF, "on, margin high, reserved fault bits"),
        (0xB0, 0xBF, "on, AVSBus"),
    ],
    0x10: [
        (0x00, 0x00, "all writes"),
        (0x20, 0x20, "writes of WRITE_PROTECT, OPERATION, PAGE, ON_OFF_CONFIG and VOUT_COMMAND"),
        (0x40, 0x40, "writes of WRITE_PROTECT, OPERATION and PAGE"), (0x80, 0x80, "writes of WRITE_PROTECT"),
    ],
    0x20: [
        (0x00, 0x00, "ULINEAR16 0"), (0x01, 0x01, "ULINEAR16 1"), (0x02, 0x02, "ULINEAR16 2"),
        (0x03, 0x03, "ULINEAR16 3"), (0x04, 0x04, "ULINEAR16 4"), (0x05, 0x05, "ULINEAR16 5"),
        (0x06, 0x06, "ULINEAR16 6"), (0x07, 0x07, "ULINEAR16 7"), (0x08, 0x08, "ULINEAR16 8"),
        (0x09, 0x09, "ULINEAR16 9"), (0x0A, 0x0A, "ULINEAR16 10"), (0x0B, 0x0B, "ULINEAR16 11"),
        (0x0C, 0x0C, "ULINEAR16 12"), (0x0D, 0x0D, "ULINEAR16 13"), (0x0E, 0x0E, "ULINEAR16 14"),
        (0x0F, 0x0F, "ULINEAR16 15"), (0x10, 0x10, "ULINEAR16 -16"), (0x11, 0x11, "ULINEAR16 -15"),
        (0x12, 0x12, "ULINEAR16 -14"), (0x13, 0x13, "ULINEAR16 -13"), (0x14, 0x14, "ULINEAR16 -12"),
        (0x15, 0x15, "ULINEAR16 -11"), (0x16, 0x16, "ULINEAR16 -10"), (0x17, 0x17, "ULINEAR16 -9"),
        (0x18, 0x18, "ULINEAR16 -8"), (0x19, 0x19, "ULINEAR16 -7"), (0x1A, 0x1A, "ULINEAR16 -6"),
        (0x1B, 0x1B, "ULINEAR16 -5"), (0x1C, 0x1C, "ULINEAR16 -4"), (0x1D, 0x1D, "ULINEAR16 -3"),
        (0x1E, 0x1E, "ULINEAR16 -2"), (0x1F, 0x1F, "ULINEAR16 -1"), (0x20, 0x3F, "VID"), (0x40, 0x40, "DIRECT"),
        (0x60, 0x7F, "half"), (0x80, 0x80, "ULINEAR16 0 relative"), (0x81, 0x81, "ULINEAR16 1 relative"),
        (0x82, 0x82, "ULINEAR16 2 relative"), (0x83, 0x83, "ULINEAR16 3 relative"),
        (0x84, 0x84, "ULINEAR16 4 relative"), (0x85, 0x85, "ULINEAR16 5 relative"),
        (0x86, 0x86, "ULINEAR16 6 relative"), (0x87, 0x87, "ULINEAR16 7 relative"),
        (0x88, 0x88, "ULINEAR16 8 relative"), (0x89, 0x89, "ULINEAR16 9 relative"),
        (0x8A, 0x8A, "ULINEAR16 10 relative"), (0x8B, 0x8B, "ULINEAR16 11 relative"),
        (0x8C, 0x8C, "ULINEAR16 12 relative"), (0x8D, 0x8D, "ULINEAR16 13 relative"),
        (0x8E, 0x8E, "ULINEAR16 14 relative"), (0x8F, 0x8F, "ULINEAR16 15 relative"),
        (0x90, 0x90, "ULINEAR16 -16 relative"), (0x91, 0x91, "ULINEAR16 -15 relative"),
        (0x92, 0x92, "ULINEAR16 -14 relative"), (0x93, 0x93, "ULINEAR16 -13 relative"),
        (0x94, 0x94, "ULINEAR16 -12 relative"), (0x95, 0x95, "ULINEAR16 -11 relative"),
        (0x96, 0x96, "ULINEAR16 -10 relative"), (0x97, 0x97, "ULINEAR16 -9 relative"),
        (0x98, 0x98, "ULINEAR16 -8 relative"), (0x99, 0x99, "ULINEAR16 -7 relative"),
        (0x9A, 0x9A, "ULINEAR16 -6 relative"), (0x9B, 0x9B, "ULINEAR16 -5 relative"),
        (0x9C, 0x9C, "ULINEAR16 -4 relative"), (0x9D, 0x9D, "ULINEAR16 -3 relative"),
        (0x9E, 0x9E, "ULINEAR16 -2 relative"), (0x9F, 0x9F, "ULINEAR16 -1 relative"),
    ],
    0x98: [
        (0x00, 0x00, "Part I 1.0, Part II 1.0"), (0x01, 0x01, "Part I 1.0, Part II 1.1"),
        (0x02, 0x02, "Part I 1.0, Part II 1.2"), (0x03, 0x03, "Part I 1.0, Part II 1.3"),
        (0x10, 0x10, "Part I 1.1, Part II 1.0"), (0x11, 0x11, "Part I 1.1, Part II 1.1"),
        (0x12, 0x12, "Part I 1.1, Part II 1.2"), (0x13, 0x13, "Part I 1.1, Part II 1.3"),
        (0x20, 0x20, "Part I 1.2, Part II 1.0"), (0x21, 0x21, "Part I 1.2, Part II 1.1"),
        (0x22, 0x22, "Part I 1.2, Part II 1.2"), (0x23, 0x23, "Part I 1.2, Part II 1.3"),
        (0x30, 0x30, "Part I 1.3, Part II 1.0"), (0x31, 0x31, "Part I 1.3, Part II 1.1"),
        (0x32, 0x32, "Part I 1.3, Part II 1.2"), (0x33, 0x33, "Part I 1.3, Part II 1.3"),
    ],
}

# The unit of a reading.
UNITS = {
    0x88: "V", 0x8C: "A", 0x8D: "C",
}

# Codes of a voltage in the output's format.
VOLTAGES = [
    0x21, 0x24, 0x25, 0x26, 0x2B, 0x8B,
]

# Codes of a block of text.
TEXTS = [
    0x99, 0x9A, 0x9B, 0x9C, 0x9D, 0x9E, 0xAD, 0xAE,
]

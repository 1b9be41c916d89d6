"""The decoder for sigrok: gathers the bytes of packets from the decoder `i2c`, and puts what packets.py tells of them."""
import re

import sigrokdecode as srd

from .packets import FAULT, KNOWN, OTHER, Reader, addresses_of, labels, pec, readings_of, spaced, vouts_of
from .pages import Pages, is_of_several

# Annotations by their places below.
PACKET, OTHERS, FAULTY, NONE, BYTE, PEC_RIGHT, PEC_WRONG, WRONG_PAGE = range(8)
UNHEARD, CUT, ALONE = "no device acknowledged the address", "no stop", "a read alone"
CLASSES = {KNOWN: PACKET, OTHER: OTHERS, FAULT: FAULTY}


class Decoder(srd.Decoder):
    api_version = 3
    id = "pmbus"
    name = "PMBus"
    longname = "Power Management Bus"
    desc = "Commands of power converters over SMBus packets with packet error code."
    license = "none chosen"
    inputs = ["i2c"]
    outputs = []
    tags = ["Embedded/industrial"]
    options = (
        {"id": "address", "desc": "Address of the device, two hexadecimal digits (empty: all)", "default": ""},
        {"id": "vout", "desc": "Format of a voltage whose mode wasn't read, as ulinear16/-12 or 58/linear11+direct/1/0/3", "default": ""},
        {"id": "parts", "desc": "Addresses of parts that SMBus keeps for something else, as 61+28", "default": ""},
        {"id": "muxes", "desc": "Addresses of muxes, as 70+71", "default": ""},
        {"id": "readings", "desc": "Formats of READ_VIN, READ_IOUT and READ_TEMPERATURE_1, as 8D/direct/1/0/3+linear11", "default": ""},
    )
    annotations = (
        ("packet", "Packet"),
        ("other", "Packet of another code, length or address"),
        ("fault", "Faulty packet"),
        ("none", "No packet"),
        ("byte", "Byte"),
        ("pec-right", "Right PEC"),
        ("pec-wrong", "Wrong PEC"),
        ("wrong-page", "Wrong page"),
    )
    annotation_rows = (
        ("packets", "Packets", (PACKET, OTHERS, FAULTY, NONE)),
        ("bytes", "Bytes", (BYTE, PEC_RIGHT, PEC_WRONG)),
        ("warnings", "WRONG PAGE?", (WRONG_PAGE,)),
    )

    def __init__(self):
        self.reset()

    def reset(self):
        self.reader, self.pages, self.parts, self.first = None, None, None, 0

    def start(self):
        self.out_ann = self.register(srd.OUTPUT_ANN)
        address, vout, readings, parts, muxes = (self.options[name] for name in ("address", "vout", "readings", "parts", "muxes"))
        if address and not re.fullmatch("(0[xX])?[0-7][0-9A-Fa-f]", address):
            raise ValueError("address: give two hexadecimal digits, as 58")
        if vouts_of(vout) is None:
            raise ValueError("vout: give linear11, ulinear16/N or direct/M/B/R, or of an address 58/linear11; + parts them")
        if readings_of(readings) is None:
            raise ValueError("readings: give linear11 or direct/M/B/R, or of a code 8D/linear11, or of an address 58/8D/linear11; + parts them")
        for name in "parts", "muxes":
            if addresses_of(self.options[name]) is None:
                raise ValueError("%s: give addresses from 08 to 77 without 0C, as 70+71" % name)
        self.address = int(address, 16) if address else None
        self.reader, self.pages = Reader(vout, readings, parts, muxes), Pages()

    def decode(self, ss, es, data):
        """What the decoder `i2c` says, one after another. A part is a list of bytes, each with its samples and whether it
        was acknowledged."""
        kind, value = data
        if kind == "START":
            if self.parts:
                self.told(ss, CUT)
            self.parts, self.first = [[]], ss
        elif self.parts is None:
            return
        elif kind == "START REPEAT":
            self.parts.append([])
        elif kind == "BITS":
            self.parts[-1].append([sum(bit[0] << place for place, bit in enumerate(value)), ss, es, True])
        elif kind == "NACK" and self.parts[-1]:
            self.parts[-1][-1][3] = False
        elif kind == "STOP":
            self.told(es, None)
            self.parts = None

    def told(self, last, ending):
        """Puts what a packet says, from its start to its end."""
        parts = [[it[0] for it in part] for part in self.parts]
        is_elsewhere = bool(self.address is not None and parts[0] and parts[0][0] >> 1 != self.address)
        refusal = self.refusal(parts, ending)
        if is_elsewhere or refusal:
            self.pages.count += not is_elsewhere
            if refusal != UNHEARD:
                is_lost = is_of_several(parts) or bool(parts) and self.reader.ends_all(parts[0], len(parts) > 1)
                self.pages.no_packet(parts, is_lost)
                self.reader.no_packet(parts, is_lost)
        if is_elsewhere:
            return
        if refusal:
            shown = " / ".join(spaced(part) for part in parts)
            self.put(self.first, last, self.out_ann, [NONE, ["%s: %s" % (refusal, shown), refusal]])
            return
        told = self.reader.tell(parts[0], parts[1] if len(parts) > 1 else None, self.refused())
        wrong = self.pages.packet(told, parts[0])
        if wrong:
            self.put(self.first, last, self.out_ann, [WRONG_PAGE, ["WRONG PAGE? packets %d and %d" % wrong, "WRONG PAGE?"]])
        self.put(self.first, last, self.out_ann, [CLASSES[told.kind], [told.text, told.short]])
        self.put_bytes(parts, told)

    def refusal(self, parts, ending):
        """Why bytes are no packet."""
        if len(parts) == 1 and [it[3] for it in self.parts[0]] == [False]:
            return UNHEARD
        if ending:
            return ending
        if not all(parts):
            return "a part with no byte"
        if len(parts) > 2:
            return "%d parts" % len(parts)
        if parts[0][0] & 1:
            return ALONE
        return "the second part is no read of the device" if len(parts) == 2 and parts[1][0] != parts[0][0] + 1 else None

    def refused(self):
        """The place of the first byte that wasn't acknowledged, and whether it is the answer's; None if each was, but for the last one
        that the host reads."""
        for at, part in enumerate(self.parts):
            for place, it in enumerate(part):
                if not it[3] and not (at and place and place == len(part) - 1):
                    return place, bool(at)
        return None

    def put_bytes(self, parts, told):
        """A word below each byte, and what the last one is as a PEC, where it stands for one."""
        is_right = told.pec
        said = [word for part in labels(parts[0], parts[1] if len(parts) > 1 else None, told.is_special) for word in part]
        places = [it for part in self.parts for it in part]
        if is_right is not None:
            _, first, last, _ = places.pop()
            message = [byte for part in parts for byte in part]
            if is_right:
                shown = [PEC_RIGHT, ["PEC right", "PEC"]]
            else:
                shown = [PEC_WRONG, ["PEC %02X, %02X would be right" % (message[-1], pec(message[:-1])), "PEC wrong"]]
            self.put(first, last, self.out_ann, shown)
        for word, (_, first, last, _) in zip(said, places):
            self.put(first, last, self.out_ann, [BYTE, [word]])

"""What `sigrok-cli -i FILE -P i2c:scl=SCL:sda=SDA:address_format=unshifted -A i2c=addr-data` prints."""
from __future__ import annotations

import re
from collections.abc import Iterable, Iterator

from .times import Clock, NoCapture
from .transfer import Transfer

LINE = re.compile(r"(?:(?:^| )(i2c-\d+): |^|[ :])(Start repeat|Start|Stop|NACK|(Address|Data) (read|write): ([0-9A-Fa-f]{2}))\s*$")


def transfers(lines: Iterable[str], clock: Clock | None = None) -> Iterator[Transfer]:
    """Each transfer as it ends: by a stop, or by the next start, which leaves it without a stop. NoCapture if a second decoder of
    I2C begins, whose bytes would be taken for those of the first."""
    transfer: Transfer | None = None
    decoder: str | None = None
    for number, line in enumerate(lines, 1):
        found = LINE.search(line)
        if not found:
            continue
        name, kind, of, direction, digits = found.groups()
        decoder = decoder or name
        if name and name != decoder:
            raise NoCapture(f"line {number} is of {name}, and the lines before are of {decoder}: keep the lines of one")
        if kind == "Start":
            if transfer:
                yield transfer
            transfer = Transfer(clock.of_samples(line, number) if clock else None)
        if transfer is None:
            continue
        if kind in ("Start", "Start repeat"):
            transfer.begin()
        elif kind == "NACK":
            transfer.is_refused()
        elif kind == "Stop":
            transfer.ending = None
            yield transfer
            transfer = None
        else:
            if of == "Address" and (int(digits, 16) & 1) != (direction == "read"):
                raise NoCapture(f"line {number}: the address has no direction bit: give address_format=unshifted")
            transfer.add(int(digits, 16))
    if transfer:
        yield transfer

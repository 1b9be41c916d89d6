"""Times with their unit, as 12ms or 5s."""
from __future__ import annotations

import re

TIME = re.compile("([0-9]{1,9}) ?(ms|s)")
MILLISECONDS = {"ms": 1, "s": 1000}


def milliseconds(text: object) -> int | None:
    """The milliseconds of a text; None of another one."""
    found = TIME.fullmatch(text.strip()) if isinstance(text, str) else None
    return None if found is None else int(found[1]) * MILLISECONDS[found[2]]

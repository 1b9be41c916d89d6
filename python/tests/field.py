"""The part of trials/field for the tests: limits that trip a rail, a RUN pin, busy times and the rest of what data sheets say. It is the C of
that folder, built once and loaded beside the package's library, which has the model part that it stands on."""
import atexit
import ctypes
import errno
import functools
import os
import shutil
import subprocess
import tempfile

from pmhost import _library, pec

from . import runs

HERE = os.path.dirname(os.path.abspath(__file__))
ROOT = os.path.dirname(os.path.dirname(HERE))
SOURCES = [os.path.join(ROOT, "trials", "field", name) for name in ("field.c", "frames.c")]
INCLUDE = os.path.join(ROOT, "crates", "pm_device_c", "include")
ADDRESS, ANSWER = 0x58, 40
# What became of a frame, as the kernel's adapters say it.
ENDS = {1: errno.ENXIO, 2: errno.EREMOTEIO}


@functools.cache
def library():
    """The part's calls. It is built at its first use."""
    folder = tempfile.mkdtemp()
    atexit.register(shutil.rmtree, folder, ignore_errors=True)
    path = os.path.join(folder, "libfield.so")
    subprocess.run(["gcc", "-std=c11", "-Wall", "-Wextra", "-Werror", "-O1", "-shared", "-fPIC", f"-I{INCLUDE}", *SOURCES, "-o", path], check=True)
    ctypes.CDLL(_library.PATH, mode=ctypes.RTLD_GLOBAL)
    found = ctypes.CDLL(path)
    found.field_size.restype = ctypes.c_uint64
    found.field_set.argtypes = [ctypes.c_void_p, ctypes.c_uint8, ctypes.c_char_p, ctypes.c_int64]
    found.field_get.argtypes = [ctypes.c_void_p, ctypes.c_uint8, ctypes.c_char_p, ctypes.POINTER(ctypes.c_int64)]
    found.field_hear.argtypes = [ctypes.c_void_p, ctypes.c_char_p, ctypes.c_uint64, ctypes.c_uint8, ctypes.c_char_p,
                                 ctypes.POINTER(ctypes.c_uint64)]
    for name in ("field_set", "field_get", "field_hear", "field_new"):
        getattr(found, name).restype = ctypes.c_uint8
    return found


class Field:
    """A part. `set` and `get` take a register or a field of trials/field/field.h by its name, of which `words` are those at first. Each transfer takes
    `transfer_us` of the tests' clock."""

    def __init__(self, address=ADDRESS, outputs=2, **words):
        self.address, self.outputs, self.lines, self.refusal = address, outputs, [], errno.EREMOTEIO
        self._memory = ctypes.create_string_buffer(library().field_size())
        assert library().field_new(self._memory, address, outputs) == 0
        self.now()
        for name, value in words.items():
            self.set(name, value)

    @property
    def converter(self):
        """What the rows of data/ set words of."""
        return self

    def now(self):
        """The part's clock is that of the tests."""
        self.set("now", int(runs.CLOCK.until() * 1_000_000))

    def set(self, name, value, output=0):
        assert library().field_set(self._memory, output or 0, str(name).encode(), value) == 0, name

    def get(self, name, output=0):
        found = ctypes.c_int64()
        assert library().field_get(self._memory, output, name.encode(), ctypes.byref(found)) == 0, name
        return found.value

    def volts(self, output=0):
        """The microvolts that a rail is at now."""
        self.now()
        return self.get("microvolts", output)

    def restart(self):
        self.now()
        library().field_restart(self._memory)

    def hear(self, frame, ending):
        """The bytes of an answer, or None where the part doesn't acknowledge the frame."""
        self.now()
        self.lines.append(" ".join(f"{byte:02X}" for byte in frame) + (" /" if ending == "restart" else ""))
        answer, length = ctypes.create_string_buffer(ANSWER), ctypes.c_uint64()
        ended = library().field_hear(self._memory, bytes(frame), len(frame), ending == "restart", answer, ctypes.byref(length))
        runs.CLOCK.now += self.get("transfer_us") / 1e6
        self.refusal = ENDS.get(ended, errno.EREMOTEIO)
        return None if ended else list(answer.raw[:length.value])

    def is_at(self, address):
        """Whether it acknowledges its address."""
        return address == self.address

    def word(self):
        return f"{self.get('VOUT_COMMAND'):04X}"


class Early(Field):
    """A part whose rails trip earlier than VOUT_UV_FAULT_LIMIT says, which is read as 0E00."""

    def hear(self, frame, ending):
        answer = super().hear(frame, ending)
        if answer and list(frame[1:3]) == [0x06, 2] and frame[4] == 0x44:
            came = [*answer[:2], 0x00, 0x0E]
            return [*came, pec(bytes([*frame, *came]))]
        return answer


class Lowered(Field):
    """A part whose VOUT_OV_FAULT_LIMIT another master lowers to 0F00 once it was read."""

    def hear(self, frame, ending):
        answer = super().hear(frame, ending)
        if answer and list(frame[1:3]) == [0x06, 2] and frame[4] == 0x40:
            self.set("VOUT_OV_FAULT_LIMIT", 0x0F00, frame[3])
        return answer


class FieldBus:
    """The bus of a part, for a host in Python."""

    def __init__(self, part):
        self.part = part

    def write(self, frame):
        if self.part.hear(frame, "stop") is None:
            raise OSError(self.part.refusal, os.strerror(self.part.refusal))
        return True

    def read(self, request, count):
        answer = self.part.hear(request, "restart")
        if answer is None:
            raise OSError(self.part.refusal, os.strerror(self.part.refusal))
        return bytes(answer[1:count + 1])

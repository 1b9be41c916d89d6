#!/usr/bin/env python3
"""Puts a module into the running kernel, or takes it out, in a guest that has no insmod.

    kernel_module.py in FILE [NAME=VALUE ..]
    kernel_module.py out NAME
"""
import ctypes
import os
import sys

# The kernel's numbers of these calls on x86-64.
FINIT_MODULE, DELETE_MODULE = 313, 176


def call(*words):
    library = ctypes.CDLL(None, use_errno=True)
    if library.syscall(*words):
        number = ctypes.get_errno()
        raise OSError(number, os.strerror(number))


def put_in(path, *parameters):
    file = os.open(path, os.O_RDONLY)
    try:
        call(FINIT_MODULE, file, " ".join(parameters).encode(), 0)
    finally:
        os.close(file)


def take_out(name):
    call(DELETE_MODULE, name.encode(), os.O_NONBLOCK)


def main():
    if len(sys.argv) < 3 or sys.argv[1] not in ("in", "out"):
        sys.exit(__doc__.strip())
    try:
        put_in(*sys.argv[2:]) if sys.argv[1] == "in" else take_out(sys.argv[2])
    except OSError as fault:
        sys.exit(f"{sys.argv[2]}: {fault.strerror}")


if __name__ == "__main__":
    main()

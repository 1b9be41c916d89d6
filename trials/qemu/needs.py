"""What a trial wants of the machine."""
import os
import shutil
import sys

# The package of Debian 12 that has each program.
PACKAGES = {"qemu-system-arm": "qemu-system-arm", "qemu-system-x86_64": "qemu-system-x86", "dpkg-deb": "dpkg", "apt-get": "apt", "cpio": "cpio",
            "gcc": "gcc", "arm-linux-gnueabihf-gcc": "gcc-arm-linux-gnueabihf", "/usr/arm-linux-gnueabihf/lib/libc.a": "libc6-dev-armhf-cross"}


def are_there(*tools, has_package=True):
    """Whether all of these are there, and the package's library where it is wanted: a line says what isn't, and what to do."""
    lacking = [f"{tool}: install {PACKAGES[tool]}" for tool in tools if not (shutil.which(tool) or os.path.exists(tool))]
    if has_package:
        try:
            import pmhost.part  # noqa: F401
        except ImportError as fault:
            lacking.append(str(fault))
    for each in lacking:
        print(f"{os.path.basename(sys.argv[0])}: this machine lacks {each}", file=sys.stderr)
    return not lacking

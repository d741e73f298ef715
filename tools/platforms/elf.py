"""What the beginning of a program says of it, in the form ELF."""

import struct

# What e_machine says of the processors that programs are made for, as `uname -m` calls them.
MACHINES = {62: "x86_64", 183: "aarch64"}
# What p_type says of the part that names a loader.
PT_INTERP = 3


def is_elf(data):
    """Whether these are the bytes of a program of 64 bits, and not of a script."""
    return data[:6] == b"\x7fELF\x02\x01"


def machine_of(data):
    """The processor that it is for, or None for one that none is made for."""
    return MACHINES.get(struct.unpack_from("<H", data, 18)[0])


def is_static(data):
    """Whether it has no loader, so that it needs no file of the system, and nothing can be loaded before its C library."""
    start, size, count = struct.unpack_from("<Q", data, 32) + struct.unpack_from("<HH", data, 54)
    return PT_INTERP not in (struct.unpack_from("<I", data, start + size * at)[0] for at in range(count))

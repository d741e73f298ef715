"""That a static program runs on a kernel of before Linux 3.17, which has no call for random bytes."""

import ctypes
import os
import struct
import subprocess

from testing import programs
from testing.network import RESULT, Skipped, expect

NO_NEW_PRIVILEGES, SET_FILTER, FILTER = 38, 22, 2
LOAD, JUMP_IF_EQUAL, RETURN = 0x20, 0x15, 0x06
ALLOWED, FAULT, NO_SUCH_CALL = 0x7FFF0000, 0x00050000, 38
# The numbers of getrandom, by processor.
GETRANDOM = {"x86_64": 318, "aarch64": 278}
TOP = os.path.dirname(os.path.dirname(os.path.dirname(os.path.abspath(__file__))))


def without_random_bytes(number):
    """What has the kernel know no call of a number, for this process and what it starts."""
    steps = (LOAD, 0, 0, 0), (JUMP_IF_EQUAL, 0, 1, number), (RETURN, 0, 0, FAULT | NO_SUCH_CALL)
    steps = *steps, (RETURN, 0, 0, ALLOWED)
    code = ctypes.create_string_buffer(b"".join(struct.pack("HBBI", *step) for step in steps))
    whole = ctypes.create_string_buffer(struct.pack("HxxxxxxP", len(steps), ctypes.addressof(code)))
    control = ctypes.CDLL(None, use_errno=True).prctl

    def refuse():
        if control(NO_NEW_PRIVILEGES, 1, 0, 0, 0) or control(SET_FILTER, FILTER, whole, 0, 0):
            raise OSError(ctypes.get_errno(), "no call can be refused")
        # That it is refused is seen, too.
        try:
            os.getrandom(1)
        except OSError:
            return
        raise OSError("random bytes come as before")

    refuse.kept = code, whole
    return refuse


def runs_without_random_bytes(program):
    if not programs.is_static(programs.BEHIND.get(program[-1], program[-1])):
        raise Skipped("a program that isn't static has what its C library has")
    if os.uname().machine not in GETRANDOM:
        raise Skipped("the number of the call isn't known")
    refuse, pipe = without_random_bytes(GETRANDOM[os.uname().machine]), subprocess.PIPE
    words = [*program, "--replay", "--map", "/t=coap://127.0.0.1:5690/temp"]
    with open(os.path.join(TOP, "examples", "first-run.events"), "rb") as file:
        what = {"input": file.read(), "stdout": pipe, "stderr": pipe, "timeout": 20}
    wanted = subprocess.run(words, **what)
    expect("how many datagrams are sent", 2, wanted.stdout.count(b"\n"))
    done = subprocess.run(words, **what, preexec_fn=refuse)
    expect("status and texts", (0, wanted.stdout, b""), (done.returncode, done.stdout, done.stderr), *RESULT)

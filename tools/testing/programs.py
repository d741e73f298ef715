"""What processor a program is for, how it is started here, and how one is made that can be refused memory or what it sends,
whose clock goes at another speed, whose random bytes are counted, or whose writes are interrupted."""

import atexit
import os
import shutil
import subprocess
import tempfile
import threading
from collections import namedtuple

from platforms import elf
from testing.network import Skipped

TOP = os.path.dirname(os.path.dirname(os.path.dirname(os.path.abspath(__file__))))
# What stands between a program and the C library: the name of its source beside this file, the variable that has the path
# of the program, and the functions of the C library that it stands for.
Shim = namedtuple("Shim", "name variable functions")
REFUSING, PACING = Shim("refusing", "REFUSED", ("malloc", "realloc")), Shim("pacing", "PACED", ("clock_gettime",))
DRAWING, DENYING = Shim("drawing", "DRAWN", ("getrandom",)), Shim("denying", "DENIED", ("sendto",))
INTERRUPTING = Shim("interrupting", "INTERRUPTED", ("write",))
# How each program that was tested is started with each shim, the programs behind scripts that start them, and the folder
# with all of these.
SHIMMED, BEHIND, FOLDER, LOCK = {}, {}, [], threading.Lock()


def folder():
    """A folder for as long as this test runs."""
    if not FOLDER:
        FOLDER.append(tempfile.mkdtemp(prefix="coap-proxyd-test-"))
        atexit.register(shutil.rmtree, FOLDER[0])
    return FOLDER[0]


def beginning(path):
    """The first bytes of a program."""
    with open(path, "rb") as file:
        return file.read(4096)


def machine_of(path):
    """The processor that a program is for; that of this machine for a script."""
    data = beginning(path)
    return elf.machine_of(data) if elf.is_elf(data) else os.uname().machine


def is_static(path):
    """Whether nothing can be loaded before the C library of a program."""
    data = beginning(path)
    return elf.is_elf(data) and elf.is_static(data)


def is_emulated(path):
    """Whether a program is for another processor than that of this machine."""
    return machine_of(BEHIND.get(path, path)) != os.uname().machine


def started(path):
    """What starts a program: itself, or a script that has qemu run it, if it is for another processor."""
    if not is_emulated(path):
        return path
    names = [f"qemu-{machine_of(path)}{end}" for end in ("-static", "")]
    emulator = next(filter(None, map(shutil.which, names)), None)
    if emulator is None:
        raise Skipped(f"{path} is for another processor, and there is no {names[0]} (Debian's qemu-user-static)")
    script = os.path.join(tempfile.mkdtemp(dir=folder()), "emulated")
    with open(script, "w") as file:
        file.write(f'#!/bin/sh\nexec "{emulator}" "{path}" "$@"\n')
    os.chmod(script, 0o755)
    BEHIND[script] = path
    return script


# Shims


def compiler_for(machine):
    """A C compiler for a machine, if there is one."""
    own = ("cc", "gcc", "clang") if machine == os.uname().machine else ()
    return next(filter(shutil.which, (*own, f"{machine}-linux-gnu-gcc")), None)


def run(words, shim):
    """Runs a command that makes something with a shim, which is skipped where it can't be made here."""
    done = subprocess.run(words, stdin=subprocess.DEVNULL, stdout=subprocess.PIPE, stderr=subprocess.STDOUT, text=True)
    if done.returncode:
        name = os.path.basename(words[0])
        raise Skipped(f"{name} makes nothing that is {shim.variable.lower()}: {done.stdout.strip()[-300:]}")


def source_of(shim):
    """The source of a shim."""
    return os.path.join(TOP, "tools", "testing", f"{shim.name}.c")


def link_with(path, shim):
    """Links the object file of a static program once more, with a shim."""
    machine, objects = machine_of(path), f"{path}.o"
    if not os.path.exists(objects):
        raise Skipped(f"{objects} isn't there, which a program that is {shim.variable.lower()} is linked from")
    program = os.path.join(tempfile.mkdtemp(dir=folder()), shim.name)
    compiler = compiler_for(machine)
    if compiler is None:
        linker = os.path.join(TOP, "tools", "platforms", f"link-{shim.name}")
        if not os.path.exists(linker):
            raise Skipped(f"there is no C compiler for {machine}")
        run([linker, machine, program, objects], shim)
    else:
        wraps = "".join(f",--wrap={function}" for function in shim.functions)
        options = ["-O1", "-static-pie", "-DLINKED_IN", f"-Wl{wraps}"]
        options += ["-Wl,--wrap=main"] if machine == "aarch64" else []
        run([compiler, *options, "-o", program, objects, source_of(shim)], shim)
    return program


def compile_library(shim):
    """Compiles a shim as a library that is loaded before the C library."""
    compiler = compiler_for(os.uname().machine)
    if compiler is None:
        raise Skipped("there is no C compiler")
    library = os.path.join(tempfile.mkdtemp(dir=folder()), f"{shim.name}.so")
    run([compiler, "-O1", "-shared", "-fPIC", "-o", library, source_of(shim)], shim)
    return library


def shimmed(program, shim):
    """The settings of the environment, and the program, by which a program has a shim. Each is made once."""
    path = os.path.realpath(BEHIND.get(program, program))
    with LOCK:
        if (path, shim) not in SHIMMED:
            if is_static(path):
                linked = link_with(path, shim)
                SHIMMED[path, shim] = [f"{shim.variable}={linked}"], started(linked)
            else:
                SHIMMED[path, shim] = [f"{shim.variable}={path}", f"LD_PRELOAD={compile_library(shim)}"], program
        return SHIMMED[path, shim]

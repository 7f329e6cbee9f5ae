"""The library's calls for the Python tests, through ctypes. The archive is that of `make lib`, or lies in the folder that
MITONGORY_LIB_DIR names; a shared object is made of it in target/."""

import array
import ctypes
import os
import subprocess
import sys

TOP = os.path.dirname(os.path.dirname(os.path.abspath(__file__)))
NO_CELLS = 101


def build():
    """A shared object of the whole archive."""
    folder = os.environ.get("MITONGORY_LIB_DIR")
    if not folder:
        made = subprocess.run(["make", "-s", "lib"], cwd=TOP, stdout=subprocess.PIPE, stderr=subprocess.STDOUT, check=False)
        if made.returncode:
            sys.exit(made.stdout.decode(errors="replace") + "tests: make lib failed")
        folder = os.path.join(TOP, "target", "lib")
    out = os.path.join(TOP, "target", "python")
    os.makedirs(out, exist_ok=True)
    shared = os.path.join(out, "libmitongory.so")
    archive = os.path.join(folder, "libmitongory.a")
    subprocess.run(
        ["gcc", "-shared", "-o", shared, "-Wl,--whole-archive", archive, "-Wl,--no-whole-archive"], check=True
    )
    return shared


def load(name, arguments):
    """The call of that name, which takes arguments of these types."""
    call = getattr(ctypes.CDLL(build()), name)
    call.restype = ctypes.c_uint32
    call.argtypes = arguments
    return call


BUFFER = [ctypes.c_void_p, ctypes.c_size_t]


def lent(code, values):
    """A buffer of these values, and the two arguments that lend it. No values are lent as NULL."""
    buffer = array.array(code, values)
    return buffer, [buffer.buffer_info()[0] if values else None, len(values)]


def dirty(rng, count, bits):
    return [rng.getrandbits(bits) for _ in range(count)]

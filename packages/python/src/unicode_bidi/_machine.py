"""Whether this machine can run the library: 64-bit Linux with glibc, on a processor of the level x86-64-v2."""
from __future__ import annotations

import os
import re
import sys
from typing import FrozenSet, Optional

#: The instructions of x86-64-v2 beyond x86-64: how Linux names them in /proc/cpuinfo, and how people do.
PROCESSOR_FLAGS = {
    "cx16": "CMPXCHG16B",
    "lahf_lm": "LAHF",
    "pni": "SSE3",
    "popcnt": "POPCNT",
    "sse4_1": "SSE4.1",
    "sse4_2": "SSE4.2",
    "ssse3": "SSSE3",
}


def problem_of(system: str, machine: str, bits: int, c_library: Optional[str],
               flags: Optional[FrozenSet[str]]) -> Optional[str]:
    """Returns why a machine can't run the library, in one sentence, or None if it can.

    ``c_library`` is such as ``"glibc 2.36"``, or None if it is not glibc. ``flags`` are the processor's, or None if they
    are unknown. Then the loader of glibc 2.33 or later still checks them, because the library names its level.
    """
    if not system.startswith("linux"):
        return f"unicode_bidi runs on Linux only, and this system is {system}."
    if machine not in ("x86_64", "AMD64") or bits != 64:
        return f"unicode_bidi needs a 64-bit Python on an x86-64 processor, and this is a {bits}-bit Python on {machine}."
    if c_library is None or not c_library.startswith("glibc "):
        return "unicode_bidi needs the C library glibc, and this Python uses another one."
    missing = [] if flags is None else [name for flag, name in PROCESSOR_FLAGS.items() if flag not in flags]
    if missing:
        return f"unicode_bidi needs a processor of the level x86-64-v2, and this one has no {', '.join(missing)}."
    return None


def c_library_name() -> Optional[str]:
    """Returns the name and version of glibc, such as ``"glibc 2.36"``, or None if the C library is another one."""
    try:
        return os.confstr("CS_GNU_LIBC_VERSION")
    except (AttributeError, OSError, ValueError):
        return None


def processor_flags(path: str = "/proc/cpuinfo") -> Optional[FrozenSet[str]]:
    """Returns the flags of the first processor, or None if the system does not tell them. Reads no further than these."""
    try:
        with open(path, encoding="latin-1") as lines:
            for line in lines:
                name, _, value = line.partition(":")
                if name.strip() == "flags":
                    return frozenset(value.split())
    except OSError:
        pass
    return None


def problem_here() -> Optional[str]:
    """Returns why this machine can't run the library, in one sentence, or None if it can."""
    machine = os.uname().machine if hasattr(os, "uname") else "an unknown processor"
    bits = 64 if sys.maxsize > 2**32 else 32
    return problem_of(sys.platform, machine, bits, c_library_name(), processor_flags())


def problem_of_loader(message: str) -> str:
    """Returns in one sentence why the loader rejected the library, by the loader's own message."""
    if "ISA level" in message:
        return "unicode_bidi needs a processor of the level x86-64-v2, and the loader says that this one is older."
    needed = re.search(r"version `GLIBC_([0-9.]+)' not found", message)
    if needed:
        return f"unicode_bidi needs glibc {needed.group(1)} or later, and this machine has {c_library_name()}."
    return f"unicode_bidi can't load its library: {message}."

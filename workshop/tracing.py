"""Runs a program as a traced child, counts its calls of the C library, and refuses one of them.

Linux on x86-64 alone. A breakpoint stands at each function that allocates, reads or writes. It is
set when the child reaches its own first instruction, since the C library is loaded by then.
"""

from __future__ import annotations

import ctypes
import os
import signal
import struct
from collections.abc import Sequence
from pathlib import Path
from typing import Any, TypeAlias

TRACE_ME, CONTINUE, STEP, GET_REGISTERS, SET_REGISTERS = 0, 7, 9, 12, 13
BREAKPOINT = b"\xcc"
ENTRY_KEY = 9
ENOMEM = 12

# A call by its kind and its number among those of this kind, counted from 1.
Call: TypeAlias = tuple[str, int]

# The functions of each kind of call, and what a refused one answers. A refused read or write is
# one of no file, so that the C library itself says why.
ALLOCATIONS = {"malloc": 0, "calloc": 0, "realloc": 0, "aligned_alloc": 0, "posix_memalign": ENOMEM}
STREAMS = ("read", "write")

# What the child is started with in the place of this process's environment.
NO_VARIABLES: dict[str, str] = {}

LIBC = ctypes.CDLL(None, use_errno=True)
LIBC.ptrace.argtypes = [ctypes.c_long, ctypes.c_long, ctypes.c_void_p, ctypes.c_void_p]
LIBC.ptrace.restype = ctypes.c_long


class Registers(ctypes.Structure):
    """The registers of a child, as the kernel lays them out."""

    _fields_ = [
        (name, ctypes.c_ulonglong)
        for name in (
            "r15 r14 r13 r12 rbp rbx r11 r10 r9 r8 rax rcx rdx rsi rdi orig_rax rip cs eflags rsp "
            "ss fs_base gs_base ds es fs gs"
        ).split()
    ]


def trace(request: int, pid: int, data: Any = None) -> None:
    if LIBC.ptrace(request, pid, None, data) < 0:
        raise OSError(ctypes.get_errno(), f"ptrace request {request}")


def symbols(path: str, names: set[str]) -> dict[str, int]:
    """Where functions of a library begin in it, by their names."""
    data = open(path, "rb").read()
    (section_at,) = struct.unpack_from("<Q", data, 40)
    size, count = struct.unpack_from("<HH", data, 58)
    sections = [
        struct.unpack_from("<IIQQQQIIQQ", data, section_at + i * size) for i in range(count)
    ]
    found: dict[str, int] = {}
    for _, kind, _, _, offset, length, link, _, _, width in sections:
        if kind != 11:
            continue
        texts = sections[link][4]
        for at in range(offset, offset + length, width):
            name_at, _, _, section, value, _ = struct.unpack_from("<IBBHQQ", data, at)
            name = data[texts + name_at : data.index(b"\0", texts + name_at)].decode()
            if section and name in names:
                found[name] = value
    return found


class Child:
    """A stopped child."""

    def __init__(self, pid: int) -> None:
        self.pid = pid
        self.memory = os.open(f"/proc/{pid}/mem", os.O_RDWR)

    def close(self) -> None:
        os.close(self.memory)

    def entry(self) -> int:
        """Where the program's own first instruction is."""
        with open(f"/proc/{self.pid}/auxv", "rb") as file:
            pairs = struct.iter_unpack("<QQ", file.read())
        return next(int(value) for key, value in pairs if key == ENTRY_KEY)

    def library(self) -> tuple[str, int]:
        """The path of the C library, and where it begins in memory."""
        with open(f"/proc/{self.pid}/maps", encoding="ascii") as file:
            for line in file:
                if "/libc.so" in line or "/libc-" in line:
                    return line.split()[-1], int(line.split("-")[0], 16)
        raise OSError("no C library")

    def write(self, at: int, data: bytes) -> bytes:
        """Writes bytes, and gives those that stood there."""
        held = os.pread(self.memory, len(data), at)
        os.pwrite(self.memory, data, at)
        return held

    def registers(self) -> Registers:
        registers = Registers()
        trace(GET_REGISTERS, self.pid, ctypes.byref(registers))
        return registers

    def resume(self, request: int = CONTINUE) -> int | None:
        """Runs on; how the child ended, or None where it stopped again."""
        trace(request, self.pid)
        _, status = os.waitpid(self.pid, 0)
        if os.WIFSTOPPED(status):
            return None
        return os.waitstatus_to_exitcode(status)

    def step_past(self, at: int, held: bytes, registers: Registers) -> int | None:
        """Does the instruction under a breakpoint."""
        registers.rip = at
        trace(SET_REGISTERS, self.pid, ctypes.byref(registers))
        self.write(at, held)
        ended = self.resume(STEP)
        if ended is None:
            self.write(at, BREAKPOINT)
        return ended

    def answer(self, registers: Registers, value: int) -> None:
        """Leaves a function at its first instruction, with this answer."""
        (back,) = struct.unpack("<Q", os.pread(self.memory, 8, registers.rsp))
        registers.rip, registers.rsp, registers.rax = back, registers.rsp + 8, value
        trace(SET_REGISTERS, self.pid, ctypes.byref(registers))


def start(command: Sequence[str], stdin: Path, stdout: Path, stderr: Path) -> Child:
    """Starts the command as a traced child, stopped before its first instruction."""
    pid = os.fork()
    if pid == 0:
        os.dup2(os.open(stdin, os.O_RDONLY), 0)
        for number, path in ((1, stdout), (2, stderr)):
            os.dup2(os.open(path, os.O_WRONLY | os.O_CREAT | os.O_TRUNC), number)
        trace(TRACE_ME, 0)
        os.execve(command[0], list(command), NO_VARIABLES)
    os.waitpid(pid, 0)
    child = Child(pid)
    entry = child.entry()
    held = child.write(entry, BREAKPOINT)
    child.resume()
    registers = child.registers()
    registers.rip = entry
    trace(SET_REGISTERS, pid, ctypes.byref(registers))
    child.write(entry, held)
    return child


def run_refusing(
    command: Sequence[str], stdin: Path, stdout: Path, stderr: Path, refused: Call | None
) -> tuple[int, dict[str, int]]:
    """Runs the command, and refuses the call `refused`: a kind and its number, counted from 1.

    Gives the exit status, and how many calls of each kind there were.
    """
    child = start(command, stdin, stdout, stderr)
    path, base = child.library()
    functions = {base + at: name for name, at in symbols(path, {*ALLOCATIONS, *STREAMS}).items()}
    held = {at: child.write(at, BREAKPOINT) for at in functions}
    calls = dict.fromkeys(("allocation", "read", "write"), 0)
    ended = child.resume()
    while ended is None:
        registers = child.registers()
        at = registers.rip - 1
        name = functions.get(at)
        if name is None:
            os.kill(child.pid, signal.SIGKILL)
            raise OSError(f"the child stopped at {at:x}")
        kind = name if name in STREAMS else "allocation"
        calls[kind] += 1
        if (kind, calls[kind]) == refused and kind == "allocation":
            child.answer(registers, ALLOCATIONS[name])
        else:
            if (kind, calls[kind]) == refused:
                registers.rdi = 2**32 - 1
            ended = child.step_past(at, held[at], registers)
        if ended is None:
            ended = child.resume()
    child.close()
    return ended, calls

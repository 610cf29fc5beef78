"""A small program of ELF for x86-64 that runs a script: what stands in for the proved one where a
check may prove nothing."""

import struct
from pathlib import Path

BASE = 0x400000
HEADER, SEGMENT, SECTION = 64, 56, 64
LOGIC = "dac8208d650f15bf" + 48 * "0"

# It calls execve: bash, the script, and the words that it was given behind its own name.
CODE = bytes.fromhex(
    "488b0c24"  # mov rcx, [rsp]: how many words there are
    "488d54cc10"  # lea rdx, [rsp + 8 * rcx + 16]: the environment behind them
    "488d3d00000000"  # lea rdi, [rip + bash]
    "48893c24"  # mov [rsp], rdi
    "488d0500000000"  # lea rax, [rip + script]
    "4889442408"  # mov [rsp + 8], rax
    "4889e6"  # mov rsi, rsp
    "b83b000000"  # mov eax, 59
    "0f05"  # syscall
    "0f0b"  # ud2
)
BASH_AT, SCRIPT_AT = 12, 23


def code_for(script: Path) -> bytes:
    """The machine code, with the two texts behind it to which it points."""
    bash = b"/bin/bash\0"
    code = bytearray(CODE)
    code[BASH_AT : BASH_AT + 4] = struct.pack("<i", len(CODE) - (BASH_AT + 4))
    code[SCRIPT_AT : SCRIPT_AT + 4] = struct.pack("<i", len(CODE) + len(bash) - (SCRIPT_AT + 4))
    return bytes(code) + bash + bytes(script) + b"\0"


def program_that_runs(script: Path, logic: str | None = LOGIC) -> bytes:
    """A program for `bash SCRIPT WORD ..`, with .comment as the toolchain writes it for a logic."""
    texts = b"\0Linker: none\0" + (f"rattle logic={logic}\0".encode() if logic else b"")
    names = b"\0.comment\0.shstrtab\0"
    code = code_for(script)
    texts_at = HEADER + SEGMENT + len(code)
    names_at = texts_at + len(texts)
    table_at = names_at + len(names)
    header = struct.pack(
        "<16sHHIQQQIHHHHHH", b"\x7fELF\2\1\1", 2, 62, 1, BASE + HEADER + SEGMENT, HEADER, table_at,
        0, HEADER, SEGMENT, 1, SECTION, 3, 2,
    )
    segment = struct.pack("<IIQQQQQQ", 1, 5, 0, BASE, BASE, texts_at, texts_at, 4096)
    sections = bytes(SECTION) + b"".join(
        struct.pack("<IIQQQQIIQQ", name, 1, 0, 0, at, size, 0, 0, 1, 0)
        for name, at, size in ((1, texts_at, len(texts)), (10, names_at, len(names)))
    )
    return header + segment + code + texts + names + sections

"""What the server is told of a caller's terminal."""

from __future__ import annotations

import array
import contextlib
import fcntl
import os
import termios

from sshmux_tools.protocol import uint32



# What a terminal is set to (RFC 4254, section 8): each opcode with its name in termios.

CONTROL_CHARACTERS = {
    1: "VINTR", 2: "VQUIT", 3: "VERASE", 4: "VKILL", 5: "VEOF", 6: "VEOL", 7: "VEOL2",
    8: "VSTART", 9: "VSTOP", 10: "VSUSP", 11: "VDSUSP", 12: "VREPRINT", 13: "VWERASE",
    14: "VLNEXT", 16: "VSWTC", 18: "VDISCARD",
}  # fmt: skip
INPUT_FLAGS = {
    30: "IGNPAR", 31: "PARMRK", 32: "INPCK", 33: "ISTRIP", 34: "INLCR", 35: "IGNCR",
    36: "ICRNL", 37: "IUCLC", 38: "IXON", 39: "IXANY", 40: "IXOFF", 41: "IMAXBEL", 42: "IUTF8",
}  # fmt: skip
LOCAL_FLAGS = {
    50: "ISIG", 51: "ICANON", 52: "XCASE", 53: "ECHO", 54: "ECHOE", 55: "ECHOK", 56: "ECHONL",
    57: "NOFLSH", 58: "TOSTOP", 59: "IEXTEN", 60: "ECHOCTL", 61: "ECHOKE", 62: "PENDIN",
}  # fmt: skip
OUTPUT_FLAGS = {
    70: "OPOST", 71: "OLCUC", 72: "ONLCR", 73: "OCRNL", 74: "ONOCR", 75: "ONLRET",
}  # fmt: skip
CONTROL_FLAGS = {90: "CS7", 91: "CS8", 92: "PARENB", 93: "PARODD"}
END_OF_MODES, INPUT_SPEED, OUTPUT_SPEED = 0, 128, 129
DISABLED_CHARACTER = 255

# Python's termios doesn't name this one everywhere.
IUTF8 = 0o40000

SPEEDS = {
    getattr(termios, name): int(name[1:])
    for name in dir(termios)
    if name[0] == "B" and name[1:].isdigit()
}


def terminal_modes(descriptor: int | None) -> bytes:
    """The encoded modes of a terminal; none where there isn't one."""
    if descriptor is None:
        return bytes([END_OF_MODES])
    try:
        input_, output, control, local, *speeds, characters = termios.tcgetattr(descriptor)
    except termios.error:
        return bytes([END_OF_MODES])
    modes = {INPUT_SPEED: SPEEDS.get(speeds[0], 0), OUTPUT_SPEED: SPEEDS.get(speeds[1], 0)}
    nothing = os.fpathconf(descriptor, "PC_VDISABLE")
    for opcode, name in CONTROL_CHARACTERS.items():
        if hasattr(termios, name):
            character = ord(characters[getattr(termios, name)])
            modes[opcode] = DISABLED_CHARACTER if character == nothing else character
    for names, flags in (
        (INPUT_FLAGS, input_),
        (LOCAL_FLAGS, local),
        (OUTPUT_FLAGS, output),
        (CONTROL_FLAGS, control),
    ):
        for opcode, name in names.items():
            flag = getattr(termios, name, IUTF8 if name == "IUTF8" else None)
            if flag is not None:
                modes[opcode] = int(flags & flag != 0)
    encoded = (bytes([opcode]) + uint32(value) for opcode, value in modes.items())
    return b"".join(encoded) + bytes([END_OF_MODES])


def terminal_size(descriptor: int | None) -> bytes:
    """The encoded size, in characters and in pixels; all is 0 where it isn't known."""
    size = array.array("H", [0, 0, 0, 0])
    if descriptor is not None:
        with contextlib.suppress(OSError):
            fcntl.ioctl(descriptor, termios.TIOCGWINSZ, size)
    rows, columns, width, height = size
    return uint32(columns, rows, width, height)

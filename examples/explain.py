"""What a record of an event log means, in words: for make.py."""

WINDOWS = {0: "controller", 1: "timers"}
WIDTHS = {0: (4,), 1: (4, 8)}
REGISTERS = {0x000: "capabilities", 0x010: "configuration", 0x020: "status", 0x0F0: "main counter"}
INDEXES = {0x00: "id", 0x01: "version", 0x02: "arbitration"}


# ---- where an access goes


def disallowed(window, width, offset):
    """Why the board refuses an access at this place, or None. The tests are in the board's order."""
    place = f"offset 0x{offset:0{3 if window == 1 else 2}x}"
    if window not in WINDOWS:
        return f"width {width}, {place}"
    if width not in WIDTHS[window]:
        return f"width {width}, which isn't allowed, {place}"
    if window == 1 and offset % width:
        return f"width {width}, {place}, no multiple of {width}"
    if window == 1 and offset >= 0x400:
        return f"{place}, beyond the timers"
    return f"{place}, no register" if window == 0 and offset not in (0x00, 0x10) else None


def indexed(index):
    """The controller's register that an index chooses."""
    if 0x10 <= index <= 0x3F:
        return f"entry {(index - 0x10) // 2} {'high' if index % 2 else 'low'} word"
    return INDEXES.get(index, f"index 0x{index:02x}, no register")


def of_timer(whole):
    """The number of the timer that has a register at this offset, and whether that is its comparator."""
    inside = 0x100 <= whole < 0x160 and whole % 0x20 in (0, 8)
    return ((whole - 0x100) // 0x20, whole % 0x20 == 8) if inside else None


def of_timers(whole):
    """The timers' register at this offset, or None."""
    timer = of_timer(whole)
    if timer:
        return f"timer {timer[0]} {'comparator' if timer[1] else 'configuration'}"
    return REGISTERS.get(whole)


def register(window, width, offset, index):
    """The register at a place that is allowed, or the half of one."""
    if window == 0:
        return indexed(index) if offset else "index"
    whole = of_timers(offset - offset % 8)
    if not whole:
        return f"offset 0x{offset:03x}, no register"
    return whole if width == 8 else f"{'high' if offset % 8 else 'low'} half of {whole}"


# ---- what a written value says, or None where it is only a number


def low_word(value):
    mode = value >> 8 & 7
    parts = [f"vector 0x{value & 0xFF:02x}", "level" if value >> 15 & 1 else "edge"]
    parts += ["active low"] * (value >> 13 & 1) + ["logical"] * (value >> 11 & 1)
    return ", ".join(parts + [f"delivery mode {mode:03b}"] * (mode != 0) + ["masked"] * (value >> 16 & 1))


def configuration(value):
    bits = ((2, "interrupt enable"), (3, "periodic"), (6, "set-comparator"), (8, "32-bit mode"))
    parts = ["level type" if value >> 1 & 1 else "edge type"]
    return ", ".join(parts + [said for bit, said in bits if value >> bit & 1] + [f"route {value >> 9 & 0x1F}"])


def to_controller(offset, index, value):
    if offset == 0:
        return indexed(value & 0xFF)
    if 0x10 <= index <= 0x3F:
        return f"destination {value >> 24 & 0xFF}" if index % 2 else low_word(value)
    return None


def to_timers(whole, high, value):
    """A value for the register at this offset; `high`: for its high half."""
    timer = of_timer(whole)
    if whole == 0x0F0 or timer and timer[1]:
        return str(value) if value > 9 and not high else None
    if not of_timers(whole):
        return None
    # no bit that can be written is in the capabilities, or in the high half of the status and the configurations
    if whole == 0x000 or high:
        return "changes nothing"
    if whole == 0x010:
        return "enable" if value & 1 else "disable"
    if whole == 0x020:
        return "clear " + (", ".join(f"timer {m}" for m in range(3) if value >> m & 1) or "nothing")
    return configuration(value)


def meaning(window, width, offset, index, value):
    if width == 4 and value >= 2**32:
        return "more than 4 bytes"
    if window == 0:
        return to_controller(offset, index, value)
    return to_timers(offset - offset % 8, offset % 8 == 4, value)


# ---- records


def accessed(word, index, window, width, offset, value=None):
    name = WINDOWS.get(window, f"window {window}, which doesn't exist")
    wrong = disallowed(window, width, offset)
    said = f"{word} {name}, {wrong or register(window, width, offset, index)}"
    if value is None:
        return said
    # a value that isn't taken is shown as the log has it, in 8 bytes
    meant = None if wrong else meaning(window, width, offset, index, value)
    return f"{said}: 0x{value:0{16 if wrong else 2 * width}x}" + (f" ({meant})" if meant else "")


def explained(word, values, index):
    """One record in words; `index` is the controller's as the records before have left it."""
    if word in ("read", "write"):
        return accessed(word, index, *values)
    if word == "wire":
        pin, level = values
        return f"wire of pin {pin} " + {0: "low", 1: "high"}.get(level, f"to level {level}, which doesn't exist")
    if word == "end":
        return f"end of interrupt, vector {values[0]} (0x{values[0]:02x})"
    return f"advance by {values[0]} ticks" if word == "advance" else "delivery step"

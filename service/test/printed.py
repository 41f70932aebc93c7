"""The text of a publication as newspapers print it (docs/FORMATS.md, "Printed publications"), written and read by plain Python. Tests compare
the proved `ksi_print` with it."""
from datetime import datetime, timezone
from typing import List, Tuple, Union

DIGITS = "0123456789ABCDEFX"
VALUES = {digit: value for value, digit in enumerate(DIGITS)}
BLANKS = {ord(blank): None for blank in " \t\r\n"}
CHARACTERS = 135
FIRST_LINE = 30
SUM = 10
"""The characters of the last two groups."""
LINES = (3, 8, 8, 2)
"""The groups of each line after the first one."""


def date(second: int) -> str:
    if second >= 253402300800:
        return "AFTERTHEYEAR9999"
    return datetime.fromtimestamp(second, timezone.utc).strftime("%Y%m%dT%H%M%SZ")


def group(digits: str) -> str:
    """Four digits and their check character."""
    total = sum(weight * DIGITS.index(digit) for weight, digit in zip((5, 4, 3, 2), digits))
    return digits + DIGITS[-total % 17]


def fours(digits: str) -> List[str]:
    return [digits[at:at + 4] for at in range(0, len(digits), 4)]


def printed(second: int, root: str) -> str:
    """The text of a second and of a root, which is 64 hex digits."""
    data = fours(f"{second:012d}{root.upper()}")
    total = sum(weight * int(four, 16) for weight, four in zip(range(len(data), 0, -1), data))
    groups = [group(four) for four in data + fours(f"{total:08X}")]
    text = f"KSI PUBLICATION {date(second)}\n"
    for count in LINES:
        text += " ".join(groups[:count]) + "\n"
        groups = groups[count:]
    return text


def is_right(five: str) -> bool:
    a, b, c, d, e = (VALUES.get(character, 17) for character in five)
    return max(a, b, c, d) < 16 and e < 17 and (5 * a + 4 * b + 3 * c + 2 * d + e) % 17 == 0


def bare_of(text: str) -> str:
    """The text without spaces and line breaks, in upper case."""
    return text.translate(BLANKS).upper()


def read(text: str) -> Union[str, Tuple[int, str]]:
    """The second and the root of a text, or the line of its first fault."""
    return read_bare(bare_of(text))


def read_bare(bare: str) -> Union[str, Tuple[int, str]]:
    if len(bare) != CHARACTERS:
        return f"not 135 characters {len(bare)}"
    fives = [bare[at:at + 5] for at in range(FIRST_LINE, CHARACTERS, 5)]
    for number, five in enumerate(fives, 1):
        if not is_right(five):
            return f"group {number} is wrong"
    digits = "".join(five[:4] for five in fives)
    second = sum(int(digit, 16) * 10 ** (11 - place) for place, digit in enumerate(digits[:12]))
    root = digits[12:76].lower()
    again = bare_of(printed(second, root)) if second < 10 ** 12 else ""
    if again == bare:
        return second, root
    return "date differs" if again[-SUM:] == bare[-SUM:] else "check sum differs"

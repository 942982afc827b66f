"""The forms of a line of cases and of printed values."""

import json
import pathlib
import sys

VALUES = pathlib.Path(__file__).resolve().parent / "values"


def values(name):
    """The published values of a file of values/."""
    return json.loads((VALUES / f"{name}.json").read_text(encoding="utf-8"))


# Whether what is published twice is held against each other, which `make.py --check` asks for. Else a value that is
# changed changes its own lines alone.
is_checking = False


def agree(worked_out, published, name):
    """What is worked out of some published values is what others say, where that is to be held against each other."""
    if is_checking and worked_out() != published:
        sys.exit(f"{name}: published values contradict each other")


def live_calls():
    """The calls and replies of the recorded link between Samba's client and its controller, in their order (`live call,
    ..`)."""
    return [case for case in values("stubs")["stubs"] if case["name"].startswith("live call")]


# The machine account's secret on that link.
LIVE_SECRET = "41" * 16


def line(operation, *words):
    """A line of cases: the operation and its values. Bytes are written in hex, numbers as they stand, and `-` for what
    is empty."""
    return " ".join([operation] + [word_of(word) for word in words])


def word_of(word):
    """A value as a word of a line."""
    if isinstance(word, (bytes, bytearray)):
        word = word.hex()
    text = str(word)
    assert " " not in text, text
    return text or "-"


def utf16(text):
    """A text as 16-bit units, little-endian, in hex."""
    return text.encode("utf-16-le", "surrogatepass").hex()


# What `{:?}` prints.


def array(hex_text):
    """Bytes, given in hex, as a list of numbers."""
    return "[" + ", ".join(str(byte) for byte in bytes.fromhex(hex_text)) + "]"


def option(value, form=str):
    """An optional value, in the form of what it holds."""
    return "None" if value is None else f"Some({form(value)})"


def ok(text):
    """A good result."""
    return f"Ok({text})"


def err(text):
    """A refusal."""
    return f"Err({text})"


def struct(name, /, **fields):
    """A struct with named fields, in their order."""
    return name + " { " + ", ".join(f"{key}: {value}" for key, value in fields.items()) + " }"


def blob(hex_text):
    """A `Blob` of bytes that are given in hex."""
    return struct("Blob", bytes=array(hex_text))


def items(texts):
    """A `List` of items."""
    return struct("List", items="[" + ", ".join(texts) + "]")


def units(text):
    """A `Units` of a text."""
    return units_of(utf16(text))


def units_of(hex_text):
    """A `Units` of 16-bit units, little-endian, that are given in hex."""
    data = bytes.fromhex(hex_text)
    numbers = [str(data[i] | data[i + 1] << 8) for i in range(0, len(data), 2)]
    return struct("Units", units="[" + ", ".join(numbers) + "]")

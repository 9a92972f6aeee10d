"""The text of readings: a line that a person or a program writes, and the frame that tells it to the engine."""

import re

from wire.trace import named

LONGEST = 200
NO_SENSOR, STATUS_NO_SENSOR = 6, 5
DIGITS = 5

VALUE = re.compile(r"([+-]?)([0-9]*)(?:\.([0-9]*))?(?:[Ee]([+-]?[0-9]+))?")


class NotUnderstood(Exception):
    """A line that says nothing to the box, with the reason."""


def help_text(kinds):
    """What is understood, for a model with these kinds."""
    return """\
CHANNEL KIND STATUS VALUE   a reading, its value in hPa (1 PKR 0 1.5E-4)
  kinds, by name or number from 0 on: %s
  status: 0 good data, 1 underrange, 2 overrange, 3 sensor error, 4 sensor off, 5 no sensor, 6 identification error
CHANNEL off                 no sensor on that channel (2 off)
cycle                       a power cycle: readings are gone, and settings that were not saved
help                        this text
quit                        the box ends""" % ", ".join(kinds)


def reasons(kinds):
    """Why a model with these kinds refuses what it is told, by the number of the answer."""
    return {
        4: "this model has no such channel",
        5: "no reading is so: kind 0 to %d, status 0 to 6, exponent -20 to 20; "
        "noSEn has status 5 and the value 0, noid status 6, and no other kind has these" % (len(kinds) - 1),
    }


def text(line):
    """The text of a line of bytes; one that does not end may be cut, 1.0 for 1.013E3, and says nothing."""
    body, end, _ = line.partition(b"\n")
    body = (body[:-1] if body.endswith(b"\r") else body).replace(b"\t", b" ")
    if len(body) > LONGEST:
        raise NotUnderstood("a line of more than %d characters" % LONGEST)
    if not end:
        raise NotUnderstood("'%s' does not end and may be cut" % named(body))
    return named(body)


def _byte(word, what):
    """A whole number that fits a byte of a frame; whether the box has it, the box decides."""
    if not re.fullmatch("[0-9]+", word) or int(word) > 255:
        raise NotUnderstood("%s '%s' is no whole number from 0 to 255" % (what, word))
    return int(word)


def _kind(word, kinds):
    names = [name.lower() for name in kinds]
    if word.lower() in names:
        return names.index(word.lower())
    if not word.isdigit():
        raise NotUnderstood("kind '%s' is no number and none of this model's: %s" % (word, ", ".join(kinds)))
    return _byte(word, "kind")


def value(word):
    """Sign, mantissa of five digits and exponent of a number; no digit of it is lost."""
    match = VALUE.fullmatch(word)
    whole, part = (match.group(2), match.group(3) or "") if match else ("", "")
    if not whole + part:
        raise NotUnderstood("value '%s' is no number such as 1.013E3" % word)
    digits = (whole + part).lstrip("0")
    if not digits:
        return 0, 0, 0
    if len(digits.rstrip("0")) > DIGITS:
        raise NotUnderstood("value '%s' has more than five digits; round it as you see fit" % word)
    exponent = int(match.group(4) or "0") - len(part) + len(digits) - 1
    # before it becomes a byte, where 261 would be 5
    if not -128 <= exponent <= 127:
        raise NotUnderstood("value '%s' is %sE%+d, beyond any reading" % (word, digits[0], exponent))
    return int(match.group(1) == "-"), int(digits.rstrip("0").ljust(DIGITS, "0")), exponent


def _reading(channel, kind, status, sign, mantissa, exponent):
    parts = bytes([2, channel, kind, status, sign])
    return parts + mantissa.to_bytes(3, "big") + exponent.to_bytes(1, "big", signed=True)


def frame(line, kinds):
    """The frame of a line that is a reading or a power cycle, for a model with these kinds."""
    words = line.split()
    if words == ["cycle"]:
        return bytes([5])
    if len(words) == 2 and words[1] == "off":
        return _reading(_byte(words[0], "channel"), NO_SENSOR, STATUS_NO_SENSOR, 0, 0, 0)
    if not words:
        raise NotUnderstood("an empty line")
    if len(words) != 4:
        raise NotUnderstood("'%s' is no reading, which has a channel, a kind, a status and a value" % line)
    channel, kind, status = _byte(words[0], "channel"), _kind(words[1], kinds), _byte(words[2], "status")
    return _reading(channel, kind, status, *value(words[3]))

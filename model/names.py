"""The texts that name things: target paths, roles, digests, dates."""
import calendar
import re

# The largest of a version and a length.
LARGEST_NUMBER = 2**32 - 1


def is_target_path(text):
    """Segments between single slashes, none of them empty, `.` or `..`."""
    if not re.fullmatch(r"[A-Za-z0-9._/-]{1,200}", text):
        return False
    return all(segment not in ("", ".", "..") for segment in text.split("/"))


def is_role_name(text):
    return re.fullmatch(r"[a-z0-9][a-z0-9_-]{0,31}", text) is not None


def is_hex(value, digits):
    """Lower-case hex digits of this count."""
    return type(value) is str and re.fullmatch("[0-9a-f]{%d}" % digits, value) is not None


def is_whole(value, smallest, largest):
    return type(value) is int and smallest <= value <= largest


def moment_of(text):
    """The seconds since 1970 of the one form of a date and time (TUF 1.0, section 4.2.1), or None."""
    if type(text) is not str:
        return None
    parts = re.fullmatch(r"([0-9]{4})-([0-9]{2})-([0-9]{2})T([0-9]{2}):([0-9]{2}):([0-9]{2})Z", text)
    if parts is None:
        return None
    year, month, day, hour, minute, second = map(int, parts.groups())
    if not (1970 <= year <= 9998 and 1 <= month <= 12 and hour <= 23 and minute <= 59 and second <= 59):
        return None
    if not 1 <= day <= calendar.monthrange(year, month)[1]:
        return None
    return calendar.timegm((year, month, day, hour, minute, second))


def asked(text):
    """The path and the digest, or None, that a name of a consistent snapshot asks for (TUF 1.0, section 6.2)."""
    folder, slash, last = text.rpartition("/")
    parts = re.fullmatch(r"([0-9a-f]{64})\.(.+)", last, re.DOTALL)
    if parts is None:
        return text, None
    return folder + slash + parts[2], parts[1]

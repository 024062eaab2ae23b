"""What patterns and prefixes of digests cover (TUF 1.0, section 4.5)."""
import hashlib
import re
from functools import lru_cache


def is_pattern(text):
    return re.fullmatch(r"[A-Za-z0-9._/*?-]{1,200}", text) is not None


def is_prefix(text):
    return re.fullmatch(r"[0-9a-f]{1,64}", text) is not None


def matches(pattern, text, crosses_slashes):
    """`*` takes any run of bytes, `?` takes one, and any other byte takes itself. Without `crosses_slashes` the two take no
    slash."""

    def is_free(place):
        return place < len(text) and (crosses_slashes or text[place] != "/")

    @lru_cache(maxsize=None)
    def goes_on(at, place):
        if at == len(pattern):
            return place == len(text)
        if pattern[at] == "*":
            return goes_on(at + 1, place) or (is_free(place) and goes_on(at, place + 1))
        if pattern[at] == "?":
            return is_free(place) and goes_on(at + 1, place + 1)
        return place < len(text) and text[place] == pattern[at] and goes_on(at + 1, place + 1)

    return goes_on(0, 0)


def matches_segmented(pattern, path):
    return matches(pattern, path, False)


def matches_flat(pattern, path):
    return matches(pattern, path, True)


def prefix_covers(prefix, path):
    return hashlib.sha256(path.encode()).hexdigest().startswith(prefix)

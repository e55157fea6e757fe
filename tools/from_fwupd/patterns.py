"""Which patterns the document has: globs and regular expressions without groups and counts."""
import string

LONGEST = 255
REPEATS = "*+?"
OUTSIDE = "(){}]"


def is_plain(text):
    return len(text) <= LONGEST and all(" " <= it <= "~" for it in text)


def is_glob(text):
    """Whether a text is a glob of the document."""
    return is_plain(text) and not any(it in "[]\\" for it in text)


def is_regex(text):
    """Whether a text is a regular expression of the document."""
    if not is_plain(text):
        return False
    at, begins, repeatable = 0, True, False
    while at < len(text):
        it, after = text[at], text[at + 1:at + 2]
        if it in OUTSIDE or it in REPEATS and not repeatable or it == "^" and not begins:
            return False
        if it == "$" and after not in ("", "|"):
            return False
        if it == "[":
            at = class_end(text, at)
            if at is None:
                return False
        elif it == "\\":
            if after == "" or after not in string.punctuation:
                return False
            at += 2
        else:
            at += 1
        begins, repeatable = it == "|", it not in "|^$" + REPEATS
    return True


def class_end(text, at):
    """Returns the place behind the class that begins here, or None where it is none of the document."""
    at += 1
    if text[at:at + 1] == "^":
        at += 1
    first = True
    while text[at:at + 1] != "]" or first:
        low, at = member(text, at, first)
        if low is None:
            return None
        if text[at:at + 1] == "-" and text[at + 1:at + 2] != "]":
            # A range from or to a bare `-` reads in two ways, so it is left out.
            if "-" in (low, text[at + 1:at + 2]):
                return None
            high, at = member(text, at + 1, False)
            if high is None or high < low:
                return None
        first = False
    return at + 1


def member(text, at, first):
    """Returns the byte that a member of a class stands for and the place behind it, or None."""
    it, after = text[at:at + 1], text[at + 1:at + 2]
    if it == "\\":
        return (after, at + 2) if after and after in string.punctuation else (None, at)
    if it in ("", "[", "]") or it == "-" and not first and after != "]":
        return None, at
    return it, at + 1

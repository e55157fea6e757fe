"""What can't be carried over into the document: each kind once, with its count and its reason."""

from .texts import as_line


class Leftovers:
    """Counts what was left out, by kind, in the order in which the kinds came first."""

    def __init__(self):
        self._kinds = {}

    def add(self, kind, why):
        """Counts one more of this kind, which is left out for this reason."""
        kind = as_line(kind)
        count, _ = self._kinds.get(kind, (0, why))
        self._kinds[kind] = (count + 1, why)
    def lines(self):
        return [f"{kind} ({count}): {why}" for kind, (count, why) in self._kinds.items()]

    def members(self):
        """Returns the list for the document, where it stands as a member that is passed over."""
        return [{"kind": kind, "count": count, "why": why} for kind, (count, why) in self._kinds.items()]

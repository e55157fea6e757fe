"""What stops the tool, each with the status that it ends with."""


class Fault(Exception):
    """An input or output that the tool can't go on with; the text says which, and what is wrong with it."""

    status = 3


class UnreadableFault(Fault):
    """A file that can't be read."""

    status = 4


class UnwritableFault(Fault):
    """A file or folder that can't be written."""

    status = 5

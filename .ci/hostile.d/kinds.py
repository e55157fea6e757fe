"""A kind of tries, and where one is made."""
import shutil
from dataclasses import dataclass
from pathlib import Path
from typing import Callable, Optional

TOP = Path(__file__).resolve().parent.parent.parent


@dataclass
class Kind:
    """A kind of tries. A try of it is made by its number, and by random numbers that follow from the seed, the kind
    and that number; what is wrong is its answer. It may be skipped with a word, by `Skipped`."""

    name: str
    attempt: Callable
    # How many tries there are, where the kind has an end.
    count: Optional[int] = None
    group: str = ""


class Skipped(Exception):
    """A try that can't be made on this machine, and why."""


class Site:
    """Where one worker makes its tries: a program, and a folder of its own."""

    def __init__(self, program, folder):
        self.program, self.home, self.folder = program, Path(folder), Path(folder) / "site"
        self.kept = {}
        # Another user has to come this far.
        self.home.chmod(0o755)
        self.fresh()

    def fresh(self):
        """Returns the folder as the first install has it, without a history. What was noted of the history that was here
        goes with it."""
        self.kept.pop("made", None)
        self.kept.pop("told", None)
        if self.folder.is_dir():
            shutil.rmtree(self.folder)
        payloads = TOP / "examples/first-install/payloads"
        shutil.copytree(payloads, self.folder / "payloads")
        return self.folder

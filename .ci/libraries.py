"""The repository's crates for the checks beside the gate: checks of a crate over the libraries that the gate built."""
import os
import shutil
import subprocess
from pathlib import Path

TOP = Path(__file__).resolve().parent.parent
KIT = Path(os.path.realpath(shutil.which("rt") or "rt")).parent.parent


def read_crates():
    """Returns what stands in crates.txt: of each crate, the libraries that it uses."""
    crates = {}
    for line in (TOP / "crates.txt").read_text().splitlines():
        head, colon, uses = line.partition("#")[0].partition(":")
        if colon:
            crates[head.split()[0]] = uses.split()
    return crates


def below(crates, uses):
    """Returns the repository's libraries among these and below them, each after those that it uses."""
    found = {}
    for use in uses:
        if use in crates:
            found.update(dict.fromkeys([*below(crates, crates[use]), use]))
    return list(found)


def library(name):
    return TOP / "crates" / name / "out" / "rlib" / f"{name}.rlib"


def is_fresh(name):
    """Whether a library is there, and no older than the texts that it was built from."""
    parts = [TOP / "crates" / name / it for it in ("src", "specs", "proofs")]
    texts = [it for part in parts for it in part.rglob("*") if it.suffix in (".rt", ".antt")]
    return library(name).is_dir() and max(it.stat().st_mtime for it in texts) <= library(name).stat().st_mtime


def lacking(crates, uses):
    """Returns the libraries that the gate has yet to build."""
    return [it for it in below(crates, uses) if not is_fresh(it)]


def check(crates, name, uses, folder, *flags):
    """Checks the library in a folder, which uses these others, and returns the prover's status and what it says."""
    words = [KIT / "bin" / "rattle", "check", "--crate-name", name, "src/lib.rt", "-L", f"dependency={KIT / 'rlibs'}"]
    for use in dict.fromkeys(["std", *uses]):
        words += ["--extern", f"{use}={library(use) if use in crates else KIT / 'rlibs' / f'{use}.rlib'}"]
    for use in below(crates, uses):
        words += ["-L", f"dependency={library(use).parent}"]
    words += ["--antt-project", KIT / "rattle" / "logic" / "antt-project.json", "--logic-built", KIT / "logic_built"]
    words += ["--links", f"{name}=", "--jobs", "1", *flags]
    how = {"cwd": folder, "stdin": subprocess.DEVNULL, "stdout": subprocess.PIPE, "stderr": subprocess.STDOUT}
    ran = subprocess.run([str(it) for it in words], errors="replace", **how)
    return ran.returncode, ran.stdout.rstrip("\n").split("\n")

"""A real fwupd for the check `from-fwupd`: its tool, and a daemon of its own behind a bus and a socket of its own.

It reads and writes in a scratch folder alone: its settings and its state are there, and in place of /sys it sees an
empty folder, so that it finds no device of this machine but the processor. Its virtual device and the recordings of
devices that the package fwupd-tests ships need none.
"""
import contextlib
import os
import shutil
import subprocess
import time
from pathlib import Path

TESTS = Path("/usr/share/installed-tests/fwupd")
DAEMON = Path("/usr/libexec/fwupd/fwupd")
SETTINGS = "[fwupd]\nTestDevices=true\nAllowEmulation=true\n"
OUTSIDE = ("SYSFSDIR", "SYSFSDMIDIR", "SYSFSDRIVERDIR", "SYSFSFWATTRIBDIR", "SYSFSFWDIR", "SYSFSSECURITYDIR",
           "SYSFSTPMDIR", "ACPITABLESDIR", "DEBUGFSDIR")
BUS = """<!DOCTYPE busconfig PUBLIC "-//freedesktop//DTD D-Bus Bus Configuration 1.0//EN"
 "http://www.freedesktop.org/standards/dbus/1.0/busconfig.dtd">
<busconfig><type>session</type><listen>unix:path={}</listen><auth>EXTERNAL</auth><policy context="default">
<allow send_destination="*" eavesdrop="true"/><allow eavesdrop="true"/><allow own="*"/></policy></busconfig>
"""
WAIT_SECONDS = 60


class RealFwupd:
    """What runs fwupd in a scratch folder."""

    def __init__(self, room):
        self.room = Path(room)
        for it in ("etc/fwupd", "var/lib/fwupd", "run", "empty"):
            (self.room / it).mkdir(parents=True)
        (self.room / "etc/fwupd/fwupd.conf").write_text(SETTINGS)
        (self.room / "bus.conf").write_text(BUS.format(self.room / "bus"))
        self.env = {**os.environ, "NO_COLOR": "1", "FWUPD_SYSCONFDIR": str(self.room / "etc"),
                    "FWUPD_LOCALSTATEDIR": str(self.room / "var"), "FWUPD_RUNDIR": str(self.room / "run"),
                    "FWUPD_LOCKDIR": str(self.room / "run"), "FWUPD_DBUS_SOCKET": str(self.room / "socket"),
                    "DBUS_SYSTEM_BUS_ADDRESS": f"unix:path={self.room / 'bus'}",
                    **{f"FWUPD_{it}": str(self.room / "empty") for it in OUTSIDE}}

    def call(self, *words):
        """Runs a program of fwupd, and returns what it wrote, or None where it failed."""
        try:
            ran = subprocess.run(words, env=self.env, stdin=subprocess.DEVNULL, capture_output=True, timeout=WAIT_SECONDS)
        except subprocess.TimeoutExpired:
            return None
        return ran.stdout if ran.returncode == 0 else None

    @contextlib.contextmanager
    def daemon(self):
        """Gives whether a daemon answers, and stops it afterwards."""
        if not DAEMON.exists() or shutil.which("dbus-daemon") is None:
            yield False
            return
        how = {"env": self.env, "stdin": subprocess.DEVNULL, "stdout": subprocess.DEVNULL, "stderr": subprocess.DEVNULL}
        words = ["dbus-daemon", f"--config-file={self.room / 'bus.conf'}", "--nofork", "--nopidfile"]
        with ended(subprocess.Popen(words, **how)) as bus:
            came(self.room / "bus", bus)
            with ended(subprocess.Popen([*self.without_libusb(), str(DAEMON)], **how)) as daemon:
                answers = came(self.room / "socket", daemon)
                yield answers and self.call("fwupdmgr", "get-devices", "--json") is not None
                self.call("fwupdmgr", "quit")

    def without_libusb(self):
        """Returns the words that refuse the first netlink address which the daemon takes.

        Where libusb takes the address of the process for itself, the daemon can't have it for its udev part, which
        loads the recordings.
        """
        if shutil.which("strace") is None:
            return []
        return ["strace", "-f", "-qq", "-e", "trace=bind", "-e", "inject=bind:error=ENOBUFS:when=1", "-o", "/dev/null"]


def came(path, process):
    """Whether a process makes this file, soon."""
    until = time.monotonic() + WAIT_SECONDS
    while not path.exists() and process.poll() is None and time.monotonic() < until:
        time.sleep(0.1)
    return path.exists()


@contextlib.contextmanager
def ended(process):
    """Sees to it that a process that was started here ends."""
    try:
        yield process
    finally:
        with contextlib.suppress(subprocess.TimeoutExpired):
            process.terminate()
            process.wait(5)
        process.kill()
        process.wait()

"""Runs commands that may take only so long, and ends each with all that it started."""
import os
import signal
import subprocess
import sys
import tempfile
import threading
import time

# the seconds that a command has to end what it started
PATIENCE = 5


class Late(Exception):
    """A command did not end in time, or was ended from outside; with what it had said."""


def has_ended(number, waits=False):
    """Whether a child has ended. It stays to be waited for, so its number is still its own, and that of its group."""
    how = os.WEXITED | os.WNOWAIT | (0 if waits else os.WNOHANG)
    return os.waitid(os.P_PID, number, how) is not None


def kill_group(number, patience=0):
    """Ends a child that nobody has waited for, and what of its group is left. It has so many seconds to end by itself what is not."""
    if patience and not has_ended(number):
        os.kill(number, signal.SIGTERM)
        end = time.monotonic() + patience
        while not has_ended(number) and time.monotonic() < end:
            time.sleep(0.02)
    try:
        os.killpg(number, signal.SIGKILL)
    except ProcessLookupError:
        # it has not begun its group yet
        os.kill(number, signal.SIGKILL)
    except PermissionError:
        pass


def leave(*_):
    """What SIGTERM does to a script that has commands to end."""
    sys.exit(128 + signal.SIGTERM)


class Call(subprocess.Popen):
    """A command in a session of its own."""

    def __init__(self, words, **more):
        self.alone = threading.Lock()
        super().__init__([str(word) for word in words], start_new_session=True, **more)

    def end(self, patience=0):
        """Ends the command and its group, if it has not been waited for."""
        with self.alone:
            if self.returncode is None:
                kill_group(self.pid, patience)

    def close(self):
        """Ends what the command has left behind, and waits for it."""
        with self.alone:
            if self.returncode is None:
                kill_group(self.pid, 0 if has_ended(self.pid) else PATIENCE)
                self.wait()
        self.stdout.close()


class Calls:
    """Commands, of which each may take so many minutes."""

    def __init__(self, minutes):
        self.minutes, self.running, self.is_over, self.lock = minutes, set(), False, threading.Lock()

    def end_all(self, *_):
        """Ends all that run, and begins nothing more: what a signal from outside does."""
        self.is_over = True
        for call in list(self.running):
            call.end(PATIENCE)

    def start(self, words, **more):
        with self.lock:
            if self.is_over:
                raise Late("ended from outside")
            call = Call(words, **more)
            self.running.add(call)
            return call

    def run(self, words, take=None, **more):
        """Answers the status, the output and the standard error of a command. Each line of its output is given to `take`."""
        late, said = threading.Event(), []
        with tempfile.TemporaryFile("w+", errors="replace") as errors:
            how = {"stdin": subprocess.DEVNULL, "stdout": subprocess.PIPE, "stderr": errors, "text": True, "errors": "replace"}
            call = self.start(words, **how, **more)
            timer = threading.Timer(self.minutes * 60, lambda: (late.set(), call.end(PATIENCE)))
            timer.start()
            try:
                for line in call.stdout:
                    said.append(line)
                    if take:
                        take(line)
                has_ended(call.pid, waits=True)
            finally:
                timer.cancel()
                call.close()
                self.running.discard(call)
            errors.seek(0)
            faults = errors.read()
        if late.is_set() or self.is_over:
            why = f"it did not end within {self.minutes} minutes" if late.is_set() else "it was ended from outside"
            raise Late(f"{why}\n{''.join(said[-20:])}{faults[-2000:]}")
        return call.returncode, "".join(said), faults

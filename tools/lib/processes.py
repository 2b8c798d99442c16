"""The processes that a tool starts. Each leads a session of its own, and ends with all that it has started when a signal ends the tool."""

import contextlib
import os
import signal
import subprocess
import time

ENDING = (signal.SIGTERM, signal.SIGINT, signal.SIGHUP, signal.SIGQUIT)
PATIENCE = 2  # seconds between the request to end and the end


class Ended(BaseException):
    """A signal ends the tool."""

    def __init__(self, number):
        super().__init__(number)
        self.status = 128 + number  # as shells say


class OutOfMemory(Exception):
    """What has ended since memory ran out, as far as can be seen."""


class Signals:
    """What was received while nothing may be interrupted."""

    def __init__(self):
        self.depth, self.pending = 0, None

    def watch(self):
        """From now on a signal raises Ended, unless whoever started the tool has it ignored, as nohup does."""
        for number in ENDING:
            if signal.getsignal(number) is not signal.SIG_IGN:
                signal.signal(number, self.receive)
        if signal.getsignal(signal.SIGTSTP) is signal.SIG_DFL:
            signal.signal(signal.SIGTSTP, pause)

    def receive(self, number, _frame):
        for each in ENDING:
            signal.signal(each, signal.SIG_IGN)  # what is left to do is short
        self.pending = number
        self.end()

    @contextlib.contextmanager
    def hold(self):
        """Does something whole, and then ends if a signal came."""
        self.depth += 1
        try:
            yield
        finally:
            self.depth -= 1
        self.end()

    def end(self):
        """Ends, if a signal came and nothing is held. What runs is ended first, since others may wait for its pipes."""
        if self.pending and not self.depth:
            stop_all()
            raise Ended(self.pending)


signals = Signals()
running = []


def start(command, **how):
    """Starts a process."""
    with signals.hold():
        process = subprocess.Popen(command, start_new_session=True, **how)
        running.append(process)
    return process


def wait(process):
    """The status of a process at its end."""
    status = process.wait()
    with contextlib.suppress(ValueError):
        running.remove(process)
    return status


def run(command, **how):
    """Runs a process: its status, and what it writes to the streams that are pipes."""
    process = start(command, **how)
    said = process.communicate()
    return wait(process), *said


def how_ended(number):
    """What to say of a process that a signal has ended. The system kills what takes too much memory."""
    if number == signal.SIGKILL:
        return "was killed (signal 9), most likely since memory ran out"
    with contextlib.suppress(ValueError):
        return f"was ended by signal {number} ({signal.Signals(number).name})"
    return f"was ended by signal {number}"


def check_end(name, status, reason=""):
    """Raises OutOfMemory where a process has ended for that."""
    if status == -signal.SIGKILL:
        raise OutOfMemory(f"{name} {how_ended(-status)}")
    if reason.endswith(("out of memory", "Cannot allocate memory")):
        raise OutOfMemory(f"{name} ran out of memory")


def send(process, number):
    """Sends a signal to a process and to those that it has started."""
    with contextlib.suppress(OSError):
        os.killpg(process.pid, number)


def has_ended(process):
    """Whether a process has ended; its number stays in use."""
    if process.returncode is not None:
        return True
    with contextlib.suppress(ChildProcessError):
        return os.waitid(os.P_PID, process.pid, os.WEXITED | os.WNOWAIT | os.WNOHANG) is not None
    return True


def stop_all():
    """Asks what runs to end, and kills it after a while."""
    for process in running:
        send(process, signal.SIGTERM)
        send(process, signal.SIGCONT)
    last = time.monotonic() + PATIENCE
    while time.monotonic() < last and not all(map(has_ended, running)):
        time.sleep(0.01)
    for process in running:
        if process.returncode is None:
            send(process, signal.SIGKILL)


def end_all():
    """Ends what still runs, and waits for it."""
    stop_all()
    while running:
        wait(running[-1])


def pause(_number, _frame):
    """Stops what runs together with the tool, and goes on with it."""
    for process in running:
        send(process, signal.SIGSTOP)
    os.kill(os.getpid(), signal.SIGSTOP)
    for process in running:
        send(process, signal.SIGCONT)

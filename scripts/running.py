"""How scripts/prove and scripts/unproved speak, run the toolchain's command, and end at a signal."""
import contextlib
import os
import re
import shutil
import signal
import subprocess
import sys

ROOT = os.path.dirname(os.path.dirname(os.path.realpath(__file__)))
# The signals by which a user or a system ends a command.
ENDING = (signal.SIGINT, signal.SIGTERM, signal.SIGHUP)
# The seconds that a command has to end by itself when it is asked to.
PATIENCE = 10
# The commands that were started.
STARTED = []


class Stopped(BaseException):
    """A signal that ends this command."""


def say(text):
    # (standard error can be closed)
    with contextlib.suppress(OSError):
        os.write(2, os.fsencode(f"oncrpc: {text}\n"))


def give_up(why):
    say(why)
    sys.exit(3)


def heed_signals(how=signal.SIG_UNBLOCK):
    """Takes the signals that wait, or has them wait."""
    signal.pthread_sigmask(how, ENDING)


def started(words, **how):
    """A command that no signal to this one reaches by itself: 'end_all' ends it. A signal waits until it is noted."""
    heed_signals(signal.SIG_BLOCK)
    try:
        STARTED.append(subprocess.Popen(words, start_new_session=True, preexec_fn=heed_signals, **how))
    finally:
        heed_signals()
    return STARTED[-1]


def end_all():
    """Ends the commands that are still at work, and what these have started."""
    for command in STARTED:
        for number in (signal.SIGTERM, signal.SIGKILL):
            if command.poll() is None:
                with contextlib.suppress(ProcessLookupError):
                    os.killpg(command.pid, number)
                with contextlib.suppress(subprocess.TimeoutExpired):
                    command.wait(PATIENCE)


def cause_of(fault):
    """The file that could not be read or written and why; of copies, of which Python tells in words, the first."""
    if isinstance(fault, shutil.Error):
        _, file, why = fault.args[0][0]
        return f"{file}: {re.match(r'(?:.Errno [0-9]+. )?([^:]*)', why)[1]}"
    return ": ".join(filter(None, [fault.filename2 or fault.filename, fault.strerror or str(fault)]))


@contextlib.contextmanager
def naming(file):
    """Has a write that fails, as on a full disk, name its file."""
    try:
        yield
    except OSError as fault:
        fault.filename = fault.filename or file
        raise


def run_to_end(main, goes_on=""):
    """Calls 'main'. A signal, or a file that cannot be written, is one line and status 3."""

    def stop(*_):
        # (one that is noted already is passed over: Python prints a fault where it is to ignore that)
        for number in ENDING:
            signal.signal(number, lambda *_: None)
        raise Stopped

    for number in ENDING:
        # (what the caller has the command ignore, as nohup does, it ignores)
        if signal.getsignal(number) != signal.SIG_IGN:
            signal.signal(number, stop)
    try:
        try:
            # (those that came since the shell began this command have waited)
            heed_signals()
            main()
        finally:
            end_all()
    except Stopped:
        # (as it ends, Python gives signals back their power to kill, and the caller sends more until it is gone)
        heed_signals(signal.SIG_BLOCK)
        give_up(f"stopped by a signal{goes_on}")
    except OSError as fault:
        give_up(cause_of(fault))

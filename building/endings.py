"""Signals that end a program reach it where it pauses and nowhere else, so that it leaves nothing half begun."""
import contextlib
import os
import pathlib
import signal
import time

# One that whoever started the program has it pass over, as a shell does for what runs in its background, stays passed over.
ENDING = {it for it in (signal.SIGTERM, signal.SIGINT, signal.SIGHUP) if signal.getsignal(it) is not signal.SIG_IGN}


class Interrupted(Exception):
    """A signal came that ends the program."""

    def __init__(self, number):
        super().__init__(number)
        self.number = number


def hold_signals():
    """From here on they wait for the next pause. What the program starts holds them too, so that it has to end that itself."""
    signal.pthread_sigmask(signal.SIG_BLOCK, ENDING)


def release_signals():
    """They come at once again."""
    signal.pthread_sigmask(signal.SIG_UNBLOCK, ENDING)


def become(program, words):
    """The program in the place of this one, with the signals as it would have them from a shell."""
    for number in (signal.SIGPIPE, signal.SIGXFSZ):
        signal.signal(number, signal.SIG_DFL)  # Python passes them over
    release_signals()
    os.execv(program, [program, *words])


def pause(seconds):
    """Sleeps so long, or raises Interrupted."""
    came = signal.sigtimedwait(ENDING, seconds)
    if came:
        raise Interrupted(came.si_signo)


def end_as(interrupted):
    """Ends the program by its signal, so that a shell sees what ended it."""
    signal.signal(interrupted.number, signal.SIG_DFL)
    release_signals()
    os.kill(os.getpid(), interrupted.number)


def end_group(leader):
    """Ends a process that was started as the leader of a session, with all of that which stayed in it, unless it was seen to have ended."""
    if leader.returncode is None:
        with contextlib.suppress(ProcessLookupError):
            os.killpg(leader.pid, signal.SIGKILL)
        leader.wait()


def end_processes_in(folder):
    """Ends every process that works below this folder, or keeps its temporary files in it, and returns once none is left. One that is just becoming
    another program may not be seen, as it has no variables then."""
    while found := processes_in(folder):
        for process in found:
            kill(process)
        time.sleep(0.02)


def processes_in(folder):
    """The processes that work below this folder, or keep their temporary files in it, by their folders in /proc."""
    return [process for process in pathlib.Path("/proc").glob("[0-9]*") if belongs(process, str(folder))]


def kill(process):
    with contextlib.suppress(ProcessLookupError):
        os.kill(int(process.name), signal.SIGKILL)


def belongs(process, folder):
    try:
        given = (process / "environ").read_bytes().split(b"\0")
        temporary = [it.decode(errors="replace").removeprefix("TMPDIR=") for it in given if it.startswith(b"TMPDIR=")]
        return folder in temporary or any(it.startswith(f"{folder}/") for it in [*temporary, os.readlink(process / "cwd")])
    except OSError:
        return False  # it has ended, or is another user's

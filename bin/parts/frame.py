"""No command: how the commands of `bin` begin and end. A command calls `run`.

It ends with exit 1 and one line where a write or a read fails, or memory is refused, and with 2 and the first lines of its usage
where its arguments are wrong. SIGHUP, Ctrl-C and SIGTERM end it with 129, 130 and 143. What it has started and its folders
are gone then, since each is an exception in it. A standard error that is closed or full stops nothing.
"""
import contextlib
import os
import signal
import sys

BIN = os.path.dirname(os.path.dirname(os.path.realpath(__file__)))
TOP = os.path.dirname(BIN)
NAME = f"bin/{os.path.basename(sys.argv[0])}"
# What runs now, whether the main thread starts something, and the signal that has ended this command.
RUNNING, is_starting, ended_by = [], False, 0


class Refused(Exception):
    """What ends the command with exit 1 and is told in one line."""


class Wrong(Exception):
    """Wrong arguments. What is wrong with them is told before the usage, if anything is said of it."""


def text_of(path):
    with open(path, encoding="utf-8") as it:
        return it.read()


def tell(text):
    """Writes to standard error, if that can be written."""
    with contextlib.suppress(OSError):
        os.write(2, text.encode(errors="surrogateescape"))


def say(words):
    tell(f"{NAME}: {words}\n")


def put(text):
    """Writes to standard output. What was printed comes before it."""
    sys.stdout.flush()
    left = text.encode(errors="surrogateescape")
    while left:
        left = left[os.write(1, left) :]


def hold_closed():
    """What was closed fails as before when it is read or written, but no file that is opened takes its number."""
    for number, how in ((0, os.O_WRONLY), (1, os.O_RDONLY), (2, os.O_WRONLY)):
        try:
            os.fstat(number)
        except OSError:
            os.set_inheritable(os.open("/dev/null", how), True)
    if sys.stdout is None:
        sys.stdout = os.fdopen(1, "w", closefd=False)
    sys.stderr = sys.stderr or open(os.devnull, "w")


def renewed(path, text):
    """Gives a file this text: it has the old one as a whole, or the new one."""
    path = os.path.realpath(path)
    beside = f"{path}.{os.getpid()}.new"
    try:
        with open(beside, "w", encoding="utf-8") as it:
            it.write(text)
        if os.path.exists(path):
            os.chmod(beside, os.stat(path).st_mode & 0o7777)
        os.replace(beside, path)
    except BaseException as why:
        with contextlib.suppress(OSError):
            os.remove(beside)
        if isinstance(why, OSError):
            raise Refused(f"{path}: {why.strerror}") from None
        raise


@contextlib.contextmanager
def started(words, **how):
    """A command that runs while this lasts. It is ended where this one is, also from another thread."""
    global is_starting
    import subprocess
    import threading

    is_main = threading.current_thread() is threading.main_thread()
    is_starting |= is_main
    run = subprocess.Popen(words, **how)
    RUNNING.append(run)
    is_starting &= not is_main
    with run:
        try:
            if ended_by:
                stop()
            yield run
        except BaseException:
            run.terminate()
            raise
        finally:
            RUNNING.remove(run)


def ran(words, **how):
    """Runs a command, and returns its status, what it printed, and what it told where `stderr` is a pipe of its own."""
    from subprocess import DEVNULL, PIPE, STDOUT

    with started(words, **{"stdin": DEVNULL, "stdout": PIPE, "stderr": STDOUT, **how}) as run:
        said = [(it or b"").decode(errors="replace") for it in run.communicate()]
    return run.returncode, *said


def done(words, **how):
    """What a command says, which has to succeed."""
    status, said, _ = ran(words, **how)
    if status:
        sys.exit(said)
    return said


def stop():
    raise KeyboardInterrupt if ended_by == signal.SIGINT else SystemExit(128 + ended_by)


def ended(number, _):
    global ended_by
    ended_by = number
    for it in [*RUNNING]:
        it.terminate()
    if not is_starting:  # (else what is started would not be known)
        stop()


def run(main, doc):
    """Gives the arguments to `main`, and ends with the status that it returns, 0 for None. `doc` is what is told of the command:
    its first line, an empty one, and the usage."""
    hold_closed()
    for it in (signal.SIGHUP, signal.SIGINT, signal.SIGTERM):
        if signal.getsignal(it) != signal.SIG_IGN:
            signal.signal(it, ended)
    usage, status = doc.partition("\n\n")[2].strip("\n"), 1
    try:
        if sys.argv[1:] in (["-h"], ["--help"]):
            put(f"{usage}\n")
            status = 0
        else:
            found = int(main(sys.argv[1:]) or 0)
            sys.stdout.flush()
            status = found
    except Refused as why:
        say(why)
    except Wrong as why:
        tell(f"{why}\n" * bool(str(why)) + usage.partition("\n\n")[0] + "\n")
        status = 2
    except KeyboardInterrupt:
        status = 130
    except SystemExit as end:
        status = end.code if isinstance(end.code, int) else 1
        tell(f"{end.code}\n" * (end.code != status))
    except OSError as why:
        say(f"{why.filename}: {why.strerror}" if why.filename else "write failed")
    except MemoryError:
        say("no memory")
    # (nothing is left to be flushed to an output that is closed)
    os._exit(status)

"""Runs a program as Python does, watched, and tells how it ended."""
import _thread
import builtins
import os
import signal
import sys
import traceback
import types

from common.words import flush
from recording.rewriting import Finder, compiled, forget

ENDED = "the program ended"


class Outcome:
    """How a program ended: its own status, and whether it had threads."""

    def __init__(self):
        self.status, self.had_threads = 0, False


def run(program, words, named, recorder, status_of_recording):
    """Runs the program with its words. The modules that are named, and those beside it, are watched."""
    outcome, own, path = Outcome(), os.getpid(), os.path.abspath(program)
    with open(program, "rb") as file:
        code = compiled(file.read(), path)
    prepare(program, words, named, recorder)
    watch_threads(outcome)
    os.register_at_fork(after_in_child=lambda: setattr(recorder, "stopped", "a child process is not recorded"))
    for number in (signal.SIGINT, signal.SIGTERM):
        signal.signal(number, recorder.on_signal)
    leave_by(recorder, own, status_of_recording)
    module = types.ModuleType("__main__")
    module.__dict__.update(__file__=path, __builtins__=builtins, __spec__=None)
    sys.modules["__main__"] = module
    recorder.begin_module(module, os.path.splitext(os.path.basename(path))[0])
    try:
        try:
            exec(code, module.__dict__)
        finally:
            wait_for_threads()
    except BaseException as error:
        tell_error(error, recorder, outcome)
        error.__traceback__ = None     # it would hold the frames, and so their variables
    if os.getpid() != own:
        flush()
        os._exit(outcome.status)
    recorder.finish(ENDED)
    return outcome


def prepare(program, words, named, recorder):
    """Makes all look to the program as if it ran by itself, but for the modules that are watched."""
    folder = os.path.dirname(os.path.abspath(program))
    sys.argv = [program, *words]
    sys.path[0] = folder
    forget([*named, "recording", "common"])
    sys.meta_path.insert(0, Finder(folder, named, recorder.begin_module))


def watch_threads(outcome):
    """Finds out whether the program has threads."""
    begin = _thread.start_new_thread

    def start_new_thread(*given, **named):
        outcome.had_threads = True
        return begin(*given, **named)
    _thread.start_new_thread = start_new_thread
    if "threading" in sys.modules:
        sys.modules["threading"]._start_new_thread = start_new_thread


def wait_for_threads():
    """Python does so too before it ends."""
    threading = sys.modules.get("threading")
    for thread in threading.enumerate() if threading else ():
        if thread is not threading.current_thread() and not thread.daemon:
            thread.join()


def leave_by(recorder, own, status_of_recording):
    """A program that leaves by `os._exit` is recorded up to there, but for a child process."""
    leave = os._exit

    def recorded_exit(status):
        if os.getpid() == own:
            recorder.finish(f"the program left by os._exit({status})")
            status = status_of_recording()
        leave(status)
    os._exit = recorded_exit


def tell_error(error, recorder, outcome):
    """Tells an error as Python does, and the status that it would have."""
    if isinstance(error, SystemExit):
        code = error.code
        outcome.status = 0 if code is None else code if isinstance(code, int) else 1
        if not isinstance(code, (int, type(None))):
            print(code, file=sys.stderr)
    elif isinstance(error, BrokenPipeError):
        pass                   # nobody reads what the program writes, and nothing is to be said of that
    elif isinstance(error, KeyboardInterrupt) and recorder.was_interrupted:
        outcome.status = 130
    else:
        outcome.status = 1
        shown = error.__traceback__.tb_next     # without the frame of this module
        traceback.print_exception(type(error), error, shown)

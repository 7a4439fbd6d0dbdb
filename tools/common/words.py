"""What all tools have in common before they do anything: words, statuses, and how a tool ends.

A tool ends in four ways, and each but the first is told on standard error. So a fault is raised where it is found, as `Told`, with its
status and its sentences, and is told in one place.
"""
import argparse
import os
import signal
import sys

DONE, WORDS, REFUSED, FAILED = range(4)


class Told(Exception):
    """Ends the tool with this status, and has these sentences told."""

    def __init__(self, status, *sentences):
        super().__init__(status, *sentences)
        self.status, self.sentences = status, sentences


class Teller:
    """Tells the user by standard error, if that is still there."""

    def __init__(self, name):
        self.name, self.shows = name, sys.stderr is not None and sys.stderr.isatty()

    def say(self, *sentences):
        for sentence in sentences:
            self.write(f"{self.name}: {sentence}\n")

    def progress(self, text):
        """A line that is written over by the next one, on a terminal alone."""
        if self.shows:
            self.write(f"\r{self.name}: {text}\x1b[K")

    def end_progress(self):
        if self.shows:
            self.write("\r\x1b[K")

    def write(self, text):
        if sys.stderr is None:
            return
        try:
            print(text, end="", file=sys.stderr, flush=True)
        except (OSError, ValueError):
            pass


class Parser(argparse.ArgumentParser):
    """Words of a tool. All that is wrong with them ends it with status 1."""

    def __init__(self, name):
        super().__init__(prog=name, add_help=False, allow_abbrev=False)
        self.add_argument("--help", "-h", action="store_true")

    def error(self, message):
        raise Told(WORDS, f"{message}. --help tells the words")


def readable(path, called, parser):
    """The path of an input, which has to be a file: a pipe can be read once alone, and some inputs are read many times."""
    if path is None:
        parser.error(f"there is no {called}")
    if not os.path.isfile(path) or not os.access(path, os.R_OK):
        parser.error(f"there is no file {path} that can be read")
    return path


def end(name, main, words):
    """Calls `main(words, teller)`, and ends the tool by what comes of it. SIGTERM is as Ctrl-C."""
    teller = Teller(name)
    signal.signal(signal.SIGTERM, signal.default_int_handler)
    try:
        status = main(words, teller)
    except Told as told:
        teller.end_progress()
        teller.say(*told.sentences)
        status = told.status
    except KeyboardInterrupt:
        teller.end_progress()
        teller.say("it was interrupted")
        status = FAILED
    except BrokenPipeError:
        status = DONE          # nobody reads any more
    except OSError as error:
        teller.end_progress()
        teller.say(f"{error.filename}: {error.strerror}" if error.filename else error.strerror)
        status = FAILED
    flush()
    sys.exit(status)


def flush():
    """Writes what is still to be written. Where nobody reads it any more, it goes nowhere, and nothing is said of that."""
    for stream, descriptor in ((sys.stdout, 1), (sys.stderr, 2)):
        try:
            stream.flush()
        except OSError:
            os.dup2(os.open(os.devnull, os.O_WRONLY), descriptor)
        except (ValueError, AttributeError):
            pass               # the program has closed it, or put something else there

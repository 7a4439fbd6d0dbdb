"""The bytes that are written."""
from modelling.running import Report
from modelling.traces import LARGEST_NUMBER
from modelling.words import Step

DONE, USAGE, TRACE, READ_FAULT, DISK_FAULT, OUT_OF_HEAP, DISK_FULL, WRITE_FAULT, DAMAGED = 0, 1, 2, 3, 4, 5, 6, 7, 9


def text(lines):
    return "".join(line + "\n" for line in lines).encode()


def lines_of(report: Report, options: Step):
    """The lines that are written of a run."""
    for thread in report.threads:
        yield f"thread {thread.number}"
        yield from sums(thread.replies) if options.quiet else thread.replies
        yield thread.end
    if report.halt:
        yield report.halt
    if options.table:
        yield "number,phase,held,live,bodies,stubs,end"
        for number, entry in enumerate(report.journal, 1):
            yield ",".join(map(str, (number, *entry)))
    if options.log:
        yield f"log {len(report.history)}"
        yield from report.history


def sums(replies):
    """The two lines that stand for replies: how many there are, and the sum of those that are numbers."""
    numbers = sum(int(reply) for reply in replies if reply.isdigit())
    return [f"replies {len(replies)}", f"sum {numbers % (LARGEST_NUMBER + 1)}"]


def status_of(report: Report):
    """The status of a run."""
    lines = [*(thread.end for thread in report.threads), report.halt]
    if "end disk-fault" in lines or "halt disk-fault" in lines:
        return DISK_FAULT
    if any(line.startswith("end damaged") for line in lines):
        return DAMAGED
    if report.halt:
        return DISK_FULL
    return OUT_OF_HEAP if any(line.startswith("end out-of-heap") for line in lines) else DONE

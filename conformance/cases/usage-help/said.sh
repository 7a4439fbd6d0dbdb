# The page of all commands.
top=$(realpath -- "$(dirname -- "$0")/../../..")
cat <<END
melt runs traces, which are programs for a heap, over a heap of fixed size. What such a program holds and
does not use moves to a disk, the file melt.stale in the folder of the run, and comes back when it is used.

  melt step [OPTIONS] < FILE  runs a trace, event by event, in the order that its order lines tell
  melt run [OPTIONS] < FILE   runs it by threads that run at once
  melt gen OPTIONS > FILE     makes a trace from a number
  melt COMMAND --help         tells of one of these
  melt --help, -h or help     this page
  melt --version              the version, the commit, and the kit of the last build
  melt --build                builds the program, where that is to be done, and says where it is
  melt --try WORDS            runs the sources as they stand by these words, unproved and slow: it takes a minute
                              to begin, and keeps nothing

Options of step and run, each once at most, as --heap N or --heap=N:
  --heap N     words of the heap: 16 to 4194304 (65536)
  --forward N  words for objects that come back from the disk between two collections: 1 to 65536 (1024)
  --disk N     words of the disk: 2 to 268435456 (16777216)
  --mark P     hundredths of the heap in use from which on collections mark objects: 0 to 100 (50)
  --move P     hundredths from which on marked objects move to the disk, not below --mark: 0 to 100 (80)
  --every N    each thread waits for a collection after each N-th of its operations: 1 to 1048576 (none)
  --quiet      counts and sums in the place of replies
  --table      a table of the collections, after the threads
  --log        the history of the heap, at the end; of step alone

Options of gen, each of which has to be given:
  --kind K     the kind of work: list, queue, table or tree
  --seed N     where the draws begin: 0 to 18446744073709551615
  --size N     objects of each thread: 1 to 100000
  --threads N  threads: 1 to 8

Statuses:
  0    the trace was run, and each thread came to its end; or it was made
  1    these words are refused
  2    what was read is no trace
  3    standard input could not be read
  4    the disk could not be read, or could not be written
  5    a thread found no room in the heap
  6    the disk has no room for what was to move there
  7    standard output could not be written to its end
  8    no memory was found
  9    a record on the disk is damaged
  126  the program could not be built, or MELT_PROGRAM names none
  127  it is to be built, and the command rt is not there

MELT_PROGRAM=PATH has that program run, and builds nothing. Where standard error is a terminal, or with
MELT_TELL=1, lines there say what a status other than 0 means.

In $top:
  tools/record     makes a trace of a Python program
  tools/heaps      finds how much heap a trace needs
  tools/who        tells what leaks
  docs/TRACES.md   is the language of traces
  docs/FORMATS.md  has the options and the output to the letter
END

# The page of one command.
top=$(realpath -- "$(dirname -- "$0")/../../..")
cat <<END
melt run [OPTIONS] < FILE

Reads a trace from standard input, runs it over a heap, and writes a reply to each operation. Its threads run at
once, each by a thread of the machine; the order lines of the trace are not used.

Options, each once at most, as --heap N or --heap=N:
  --heap N     words of the heap: 16 to 4194304 (65536)
  --forward N  words for objects that come back from the disk between two collections: 1 to 65536 (1024)
  --disk N     words of the disk: 2 to 268435456 (16777216)
  --mark P     hundredths of the heap in use from which on collections mark objects: 0 to 100 (50)
  --move P     hundredths from which on marked objects move to the disk, not below --mark: 0 to 100 (80)
  --every N    each thread waits for a collection after each N-th of its operations: 1 to 1048576 (none)
  --quiet      counts and sums in the place of replies
  --table      a table of the collections, after the threads

Statuses:
  0    the trace was run, and each thread came to its end; or it was made
  1    these words are refused
  2    what was read is no trace
  3    standard input could not be read
  4    the disk could not be read, or could not be written
  5    a thread found no room in the heap
  6    the disk has no room for what was to move there
  7    standard output could not be written to its end
  8    no memory was found
  9    a record on the disk is damaged
  126  the program could not be built, or MELT_PROGRAM names none
  127  it is to be built, and the command rt is not there

melt --help tells of all commands. In $top are docs/TRACES.md, the language of traces, and docs/FORMATS.md.
END

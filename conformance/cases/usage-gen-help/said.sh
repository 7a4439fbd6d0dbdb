# The page of one command.
top=$(realpath -- "$(dirname -- "$0")/../../..")
cat <<END
melt gen OPTIONS > FILE

Makes a trace from a number, of 1048576 operations at most. Nothing is read.

Options, each of which has to be given, as --seed N or --seed=N:
  --kind K     the kind of work: list, queue, table or tree
  --seed N     where the draws begin: 0 to 18446744073709551615
  --size N     objects of each thread: 1 to 100000
  --threads N  threads: 1 to 8

Statuses:
  0    the trace was run, and each thread came to its end; or it was made
  1    these words are refused
  2    what was read is no trace
  3    standard input could not be read
  4    the disk could not be read, or could not be written
  5    a thread found no room in the heap
  6    the disk has no room for what was to move there
  7    standard output could not be written to its end
  8    no memory was found
  9    a record on the disk is damaged
  126  the program could not be built, or MELT_PROGRAM names none
  127  it is to be built, and the command rt is not there

melt --help tells of all commands. In $top are docs/TRACES.md, the language of traces, and docs/FORMATS.md.
END

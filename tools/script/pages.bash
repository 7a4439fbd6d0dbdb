# The pages of help, and what is said of the version.

. "$parts/options.bash"

page() {
    cat <<'END'
melt runs traces, which are programs for a heap, over a heap of fixed size. What such a program holds and
does not use moves to a disk, the file melt.stale in the folder of the run, and comes back when it is used.

  melt step [OPTIONS] < FILE  runs a trace, event by event, in the order that its order lines tell
  melt run [OPTIONS] < FILE   runs it by threads that run at once
  melt gen OPTIONS > FILE     makes a trace from a number
  melt COMMAND --help         tells of one of these
  melt --help, -h or help     this page
  melt --version              the version, the commit, and the kit of the last build
  melt --build                builds the program, where that is to be done, and says where it is
  melt --try WORDS            runs the sources as they stand by these words, unproved and slow: it takes a minute
                              to begin, and keeps nothing

Options of step and run, each once at most, as --heap N or --heap=N:
END
    page_of_run step
    echo
    echo 'Options of gen, each of which has to be given:'
    page_of_gen
    echo
    page_of_statuses
    cat <<END

MELT_PROGRAM=PATH has that program run, and builds nothing. Where standard error is a terminal, or with
MELT_TELL=1, lines there say what a status other than 0 means.

In $top:
  tools/record     makes a trace of a Python program
  tools/heaps      finds how much heap a trace needs
  tools/who        tells what leaks
  docs/TRACES.md   is the language of traces
  docs/FORMATS.md  has the options and the output to the letter
END
}

# What one command does, its options, and the statuses.
page_of() {
    case $1 in
        step) cat <<'END' ;;
melt step [OPTIONS] < FILE

Reads a trace from standard input, runs it over a heap, and writes a reply to each operation. Its threads take
turns, event by event, in the order that the order lines of the trace tell.

Options, each once at most, as --heap N or --heap=N:
END
        run) cat <<'END' ;;
melt run [OPTIONS] < FILE

Reads a trace from standard input, runs it over a heap, and writes a reply to each operation. Its threads run at
once, each by a thread of the machine; the order lines of the trace are not used.

Options, each once at most, as --heap N or --heap=N:
END
        gen) cat <<'END' ;;
melt gen OPTIONS > FILE

Makes a trace from a number, of 1048576 operations at most. Nothing is read.

Options, each of which has to be given, as --seed N or --seed=N:
END
    esac
    if [[ $1 == gen ]]; then page_of_gen; else page_of_run "$1"; fi
    echo
    page_of_statuses
    echo
    echo "melt --help tells of all commands. In $top are docs/TRACES.md, the language of traces, and docs/FORMATS.md."
}

page_of_run() {
    page_line heap N 'words of the heap'
    page_line forward N 'words for objects that come back from the disk between two collections'
    page_line disk N 'words of the disk'
    page_line mark P 'hundredths of the heap in use from which on collections mark objects'
    page_line move P 'hundredths from which on marked objects move to the disk, not below --mark'
    page_line every N 'each thread waits for a collection after each N-th of its operations'
    page_line quiet '' 'counts and sums in the place of replies'
    page_line table '' 'a table of the collections, after the threads'
    [[ $1 == run ]] || page_line log '' 'the history of the heap, at the end; of step alone'
}

page_of_gen() {
    page_line kind K 'the kind of work'
    page_line seed N 'where the draws begin'
    page_line size N 'objects of each thread'
    page_line threads N 'threads'
}

# An option, what it says, what its value may be, and in parentheses what it is where it is not given.
page_line() {
    local range=''
    [[ ${least[$1]-} ]] && range=": ${least[$1]} to ${most[$1]}"
    [[ $1 == kind ]] && range=": $(value_of kind)"
    printf '  %-12s %s%s%s\n' "--$1 $2" "$3" "$range" "${default[$1]:+ (${default[$1]})}"
}

page_of_statuses() {
    cat <<'END'
Statuses:
  0    the trace was run, and each thread came to its end; or it was made
  1    these words are refused
  2    what was read is no trace
  3    standard input could not be read
  4    the disk could not be read, or could not be written
  5    a thread found no room in the heap
  6    the disk has no room for what was to move there
  7    standard output could not be written to its end
  8    no memory was found
  9    a record on the disk is damaged
  126  the program could not be built, or MELT_PROGRAM names none
  127  it is to be built, and the command rt is not there
END
}

# The version is the first one of the list of changes.
version() {
    local line number=unknown
    while read -r line; do
        [[ $line =~ ^'## '([0-9]+(\.[0-9]+)+) ]] && number=${BASH_REMATCH[1]} && break
    done <"$top/docs/CHANGELOG.md"
    echo "melt $number"
    version_of_sources
    version_of_program
}

# The commit of a clone, or of the one from which this was installed.
version_of_sources() {
    local commit changes=''
    if [[ -s $top/commit ]]; then
        echo "commit $(<"$top/commit")"
    elif [[ -e $top/.git ]] && commit=$(git -C "$top" rev-parse --short=8 HEAD 2>/dev/null); then
        git -C "$top" diff --quiet HEAD 2>/dev/null || changes=', with changes'
        echo "commit $commit$changes"
    fi
}

version_of_program() {
    local changed=''
    if [[ ${MELT_PROGRAM-} ]]; then
        echo "runs $MELT_PROGRAM, of which nothing is known here"
    elif [[ ! -x $program ]]; then
        echo 'not built'
    else
        is_built || changed=', from sources that have changed since'
        if [[ -s $kit && ! $program -nt $kit ]]; then
            echo "built by $(<"$kit")$changed"
        else
            echo "built, and by which kit is not known here$changed"
        fi
    fi
}

# What a status means, for a person. What the program writes is never read for that.

tell() {
    local status=$1
    shift
    case $status in
        1) tell_usage "$@" ;;
        2) . "$parts/refusals.bash" && tell_refusal "$@" ;;
        3) say 'standard input could not be read' ;;
        4) tell_disk_fault ;;
        5) say "a line 'end out-of-heap HELD NEED' says that a thread ended since a 'new' or a load found no room:" \
            'registers held HELD words, which move to no disk, its object needs NEED, and the heap has fewer words than both together.' \
            'So no heap of fewer words than their sum has room there, and more may be needed after it.' \
            'tools/heaps looks for a heap that suffices: tools/heaps FILE' ;;
        6) say "a line 'halt disk-full END NEED LIMIT' says that the run was ended since a collection had to move" \
            'more than the disk has room for: the words below END are taken, it needs NEED more, and LIMIT are there.' \
            'A larger disk ends later, or not at all where what is moved has a bound: melt step --disk N' ;;
        7) say 'standard output could not be written to its end' ;;
        8) say 'no memory was found, and nothing was written' ;;
        9) say "a line 'end damaged HOME AT WORD' says that the disk, which is the file melt.stale of this folder," \
            'gave a word that cannot stand there: of the record that begins at word HOME, word AT is WORD.' ;;
    esac
}

tell_usage() {
    local lines
    if (($# == 0)); then
        . "$parts/pages.bash"
        mapfile -t lines < <(page)
        say 'there is no command' '' "${lines[@]}"
        return
    fi
    . "$parts/words.bash"
    mapfile -t lines < <(wrong_words "$@")
    ((${#lines[@]})) || lines=('the program refuses these words, and nothing is known here that would be wrong with them')
    say "${lines[@]}" 'melt --help tells of all commands, options and statuses'
}

tell_disk_fault() {
    say 'the disk, which is the file melt.stale of this folder, failed.' \
        "A line 'end disk-fault' says that the thread could not read an object from it, and" \
        "a line 'halt disk-fault' that the run was ended since it could not be made, opened or written." \
        'What is found there now, which need not be the cause:' \
        "  $(what_is melt.stale)" "  $(takes_files)" "  $(space_left)"
    [[ $(ulimit -f) == unlimited ]] || say "  a file may have at most $(ulimit -f) KB, by ulimit -f"
}

# What stands at a name.
what_is() {
    if [[ -L $1 ]]; then
        echo "$1 is a link to $(readlink -- "$1"), $(kind_of "$1")"
    else
        echo "$1 is $(kind_of "$1")"
    fi
}

kind_of() {
    if [[ -d $1 ]]; then
        echo 'a folder'
    elif [[ -f $1 ]]; then
        echo "a file of $(stat -Lc %s -- "$1") bytes"
    elif [[ -p $1 ]]; then
        echo 'a FIFO'
    elif [[ -b $1 || -c $1 ]]; then
        echo 'a device'
    elif [[ -e $1 ]]; then
        echo 'no file'
    else
        echo 'not there'
    fi
}

# Whether a file can be made in this folder, by making one.
takes_files() {
    local LC_ALL=C told
    if told=$(mktemp -- ./melt.XXXXXXXX 2>&1); then
        rm -f -- "$told"
        echo 'the folder takes a new file'
    else
        echo "the folder takes no new file: ${told##*: }"
    fi
}

# What is left of the file system of this folder, to the users of the machine.
space_left() {
    local left
    left=$(df -Pk . 2>/dev/null | awk 'NR == 2 { print $4 }')
    if [[ ! $left =~ ^[0-9]+$ ]]; then
        echo 'how much space is left is not told'
    elif ((left > 1048576)); then
        echo "more than 1 GB is left on its file system"
    else
        echo "$left KB are left on its file system"
    fi
}

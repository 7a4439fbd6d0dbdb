# What is wrong with a trace that the program refuses. The program is run once more on it, for what it writes is never read.

# How a line with this first field is written.
form_of() {
    case $1 in
        new) echo 'new R P Q, with a register R from 0 to 15, and P slots and Q number words, each from 0 to 62' ;;
        load) echo 'load R S I, with registers R and S from 0 to 15 and a slot I from 0 to 63' ;;
        store) echo 'store S I R, with registers S and R from 0 to 15 and a slot I from 0 to 63' ;;
        get) echo 'get S J, with a register S from 0 to 15 and a number word J from 0 to 63' ;;
        put) echo 'put S J V, with a register S from 0 to 15, a number word J from 0 to 63 and a number V' ;;
        gload) echo 'gload R G, with a register R from 0 to 15 and a global G below their number' ;;
        gstore) echo 'gstore G R, with a global G below their number and a register R from 0 to 15' ;;
        same | copy) echo "$1 R S, with registers R and S from 0 to 15" ;;
        drop) echo 'drop R, with a register R from 0 to 15' ;;
        repeat) echo 'repeat N, with N from 1 to 1048576' ;;
        order) echo 'order T N, with a thread T below their number and N from 1 to 1048576, in at most 65536 lines' ;;
        thread) echo 'thread T, where T is 0 for the first program and one more for each next' ;;
        collect | end | done) echo "$1, alone" ;;
        *) return 1 ;;
    esac
}

# Says what is wrong with a line, by its reason and its first field.
say_reason() {
    local form=''
    form=$(form_of "$2") && form="It is written: $form"
    case $1 in
        1) say 'The trace has more than 16777216 bytes.' ;;
        2) say 'It has a byte that may not stand in a line. Spaces and the visible characters of ASCII may.' ;;
        3) say 'The first line, blank lines and comments aside, has to be: melt 1' ;;
        4) say 'The second line, blank lines and comments aside, has to be: threads N, with N from 1 to 8' ;;
        5) say 'The third line, blank lines and comments aside, has to be: globals N, with N from 0 to 64' ;;
        6) say_place "$2" "$form" ;;
        7) say 'It has a field too few or too many.' "$form" ;;
        8) say 'A field is no number: digits, no sign, no leading zero, at most 18446744073709551615.' "$form" ;;
        9) say 'It names a register above 15.' "$form" ;;
        10) say 'A number is out of its range.' "$form" ;;
        11) say "This 'repeat' stands in four open blocks, and blocks are at most four deep." ;;
        12) say "The block that this 'end' closes has no operation." ;;
        13) say "By this 'done' the operations, with each block written out, are more than 1048576." ;;
        14) say "The trace ends before the 'done' of its last thread." ;;
    esac
}

# Says where a line with this first field may stand.
say_place() {
    case $1 in
        melt | threads | globals) say "'$1' stands once, in the first three lines, blank lines and comments aside." ;;
        order) say "An 'order' line stands in front of the first 'thread' line." ;;
        thread) say "A 'thread' line stands after the 'done' of the program before, as many as 'threads' says." ;;
        end) say "There is no open 'repeat' that this 'end' could belong to." ;;
        done) say "Here is no program that this 'done' could end, or a 'repeat' in it lacks its 'end'." ;;
        *) if [[ $2 ]]; then
            say "An operation or a 'repeat' stands between the 'thread' line and the 'done' of a program."
        else
            say "'$1' is no word of the language. The operations are:" \
                'new, load, store, get, put, gload, gstore, same, copy, drop, collect'
        fi ;;
    esac
}

# The trace once more, from where the program began to read.
read_again() {
    tail -c "+$((start + 1))" <"/proc/$$/fd/0"
}

tell_refusal() {
    local LC_ALL=C told
    if [[ -z $start ]]; then
        say 'this is no trace: the two numbers are its first bad line, or 0 for all of it, and the reason by the list in docs/TRACES.md.' \
            'Where the trace stands in a file, more is told here. To keep it in a file:' \
            '  COMMAND > my.trace' '  melt step < my.trace'
    elif [[ $(stamp_of_input) != "$stamp" ]]; then
        say 'this is no trace. Which line is bad is not told, since the file has changed while it was read'
    elif told=$(read_again | "$program" "$@" 2>/dev/null); [[ $told =~ ^'error trace '([0-9]+)' '([0-9]+)$ ]]; then
        tell_line "${BASH_REMATCH[1]}" "${BASH_REMATCH[2]}"
        say 'docs/TRACES.md has the whole language.'
    else
        say 'this is no trace. Which line is bad is not told, since it was not refused when it was read once more'
    fi
}

# Says what is wrong with the line of this number, for this reason.
tell_line() {
    local number=$1 reason=$2 line='' shown word _
    ((number)) && line=$(read_again | sed -n "${number}{p;q}" | tr '\0' '?')
    shown=${line:0:80}
    shown=${shown//[^ -~]/?}
    read -r word _ <<<"$shown"
    if ((reason == 14)); then
        say "there is no line $number"
    elif ((${#line} > 80)); then
        say "line $number begins: $shown"
    elif ((number)); then
        say "line $number is: $shown"
    fi
    say_reason "$reason" "$word"
    ((reason == 7)) && [[ $line == *'#'* ]] && say 'A comment is a line of its own, whose first field begins with #.'
    [[ $line == *$'\t'* ]] && say 'It has a tab. Put spaces in its place.'
    [[ $line == *$'\r' ]] && say "It ends in a carriage return. This takes all of them out: tr -d '\\r' < FILE > my.trace"
    [[ $line == *[$'\x80'-$'\xff']* ]] && say 'It has a letter or a mark that is not of ASCII.'
}

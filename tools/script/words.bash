# What is wrong with the words of a call. They are looked at from left to right, and the first that is wrong is told, in the
# words of docs/FORMATS.md. What the program writes is not read for that.

. "$parts/options.bash"

# A word as it can be shown: of visible characters, in quotes where it is empty or has spaces, and not too long.
shown() {
    local LC_ALL=C text=${1//[^ -~]/?}
    ((${#text} > 80)) && text=${text:0:77}...
    [[ -z $text || $text == *' '* ]] && text="'$text'"
    printf '%s' "$text"
}

# What is wrong with words that the program refuses, a sentence in each line; or nothing, where all of them are good.
wrong_words() {
    case ${1-} in
        step | run) wrong_option "$@" || wrong_parts ;;
        gen) wrong_option "$@" || missing_options ;;
        *)
            echo "$(shown "${1-}"): no command. The first word is step, run or gen"
            [[ -f ${1-} ]] && from_standard_input "$1"
            ;;
    esac
}

# Says what is wrong with the words after a command, or keeps the values in `given` and answers 1.
wrong_option() {
    local LC_ALL=C command=$1 word name
    shift
    declare -gA given=()
    while (($#)); do
        word=$1
        name=${word%%=*}
        name=${name#--}
        shift
        wrong_name "$command" "$word" "$name" && return
        if is_flag "$name"; then
            given[$name]=given
        elif [[ $word == *=* ]]; then
            wrong_value "$name" "${word#*=}" "$(shown "$word")" && return
        else
            missing_value "$name" "$@" || wrong_value "$name" "$1" "--$name $(shown "$1")" && return
            shift
        fi
    done
    return 1
}

# Says why a word is no option of the command, or answers 1.
wrong_name() {
    local command=$1 word=$2 name=$3 owners=''
    [[ $word == --* && $name =~ ^[a-z]+$ ]] && owners=${commands_of[$name]-}
    word=$(shown "$word")
    if [[ $word == --help ]]; then
        echo "--help: no option. It stands alone, or alone after a command"
    elif [[ -z $owners ]]; then
        echo "$word: no option of $command. Its options are $(options_of "$command")"
        [[ -f $2 ]] && from_standard_input "$2"
    elif [[ " $owners " != *" $command "* ]]; then
        echo "$word: an option of ${owners/ / and }, and not of $command. Its options are $(options_of "$command")"
    elif is_flag "$name" && [[ $word == *=* ]]; then
        echo "$word: a flag, which has no value"
    elif [[ ${given[$name]+given} ]]; then
        echo "--$name is given twice"
    else
        return 1
    fi
    return 0
}

# Says that the next word is no value of an option, or that there is none; or answers 1.
missing_value() {
    local name=$1 next=${2-}
    if (($# == 1)); then
        echo "--$name lacks its value: $(value_of "$name")"
    elif [[ $next =~ ^-[0-9]+$ ]]; then
        echo "--$name $(shown "$next"): $(value_of "$name"), without a sign"
    elif [[ $next == -?* ]]; then
        echo "--$name lacks its value: $(value_of "$name"). $(shown "$next") is none, for no value begins with a hyphen"
    else
        return 1
    fi
}

# Says what the value of an option may be, where it is none, or keeps it and answers 1.
wrong_value() {
    local name=$1 value=$2 shown=$3
    if [[ $name == kind ]]; then
        [[ $value == list || $value == queue || $value == table || $value == tree ]]
    else
        is_within "$value" "${least[$name]}" "${most[$name]}"
    fi && given[$name]=$value && return 1
    echo "$shown: $(value_of "$name")$(how_not "$name" "$value")"
}

# Numbers are compared as texts, for they can be greater than those of bash.
is_within() {
    [[ $1 =~ ^(0|[1-9][0-9]*)$ ]] && is_at_most "$2" "$1" && is_at_most "$1" "$3"
}

is_at_most() {
    ((${#1} < ${#2})) || { ((${#1} == ${#2})) && [[ ! $1 > $2 ]]; }
}

# How a value of an option is not written.
how_not() {
    if [[ $1 == kind ]]; then
        return
    elif [[ $2 =~ ^0[0-9]+$ ]]; then
        echo ', without a leading zero'
    elif [[ $2 =~ ^[-+][0-9]+$ ]]; then
        echo ', without a sign'
    elif [[ $2 =~ ^[0-9]+[A-Za-z%]+$ ]]; then
        echo ', without a unit'
    elif [[ ! $2 =~ ^[0-9]+$ ]]; then
        echo ', in digits alone'
    fi
}

# Says that the two parts of the heap do not go together.
wrong_parts() {
    local mark=${given[mark]-${default[mark]}} move=${given[move]-${default[move]}}
    ((mark > move)) || return 0
    if [[ ! ${given[move]+given} ]]; then
        echo "--mark $mark: above --move, which is $move where it is not given"
    elif [[ ! ${given[mark]+given} ]]; then
        echo "--move $move: below --mark, which is $mark where it is not given"
    else
        echo "--mark $mark: above --move $move. It may be $(value_of mark), and not more than --move"
    fi
}

# Says which options of gen are missing; or that the trace would be too long, for all words are good then.
missing_options() {
    local name
    for name in "${gen_options[@]}"; do
        [[ ${given[$name]+given} ]] || echo "--$name is missing: $(value_of "$name")"
    done
    ((${#given[@]} < ${#gen_options[@]})) ||
        echo "--size ${given[size]} --threads ${given[threads]}: the trace would have more than $most_operations operations"
}

# Says how a trace in a file is read.
from_standard_input() {
    printf 'A trace comes from standard input, as in: melt step < %q\n' "$1"
}

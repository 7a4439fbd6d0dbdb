# The commands of the program and their options: what each may be, and what stands where it is not given.

run_options=(heap forward disk mark move every quiet table log)
gen_options=(kind seed size threads)

# The commands that know an option.
declare -A commands_of=(
    [heap]='step run' [forward]='step run' [disk]='step run' [mark]='step run' [move]='step run' [every]='step run'
    [quiet]='step run' [table]='step run' [log]=step
    [kind]=gen [seed]=gen [size]=gen [threads]=gen
)

# The numbers that an option may be. `kind` is a name, and flags have no value.
declare -A least=([heap]=16 [forward]=1 [disk]=2 [mark]=0 [move]=0 [every]=1 [seed]=0 [size]=1 [threads]=1)
declare -A most=(
    [heap]=4194304 [forward]=65536 [disk]=268435456 [mark]=100 [move]=100 [every]=1048576
    [seed]=18446744073709551615 [size]=100000 [threads]=8
)
declare -A default=([heap]=65536 [forward]=1024 [disk]=16777216 [mark]=50 [move]=80 [every]=none)
declare -A number_of=(
    [heap]='a number of words' [forward]='a number of forwarding words' [disk]='a number of words'
    [mark]='hundredths of the heap' [move]='hundredths of the heap' [every]='a number of operations'
    [seed]='a number' [size]='a number of objects' [threads]='a number of threads'
)

most_operations=1048576

is_flag() {
    [[ $1 == quiet || $1 == table || $1 == log ]]
}

# The options of a command, as they are written.
options_of() {
    local name
    local -a found=()
    for name in "${run_options[@]}" "${gen_options[@]}"; do
        [[ " ${commands_of[$name]} " == *" $1 "* ]] && found+=("--$name")
    done
    listed , "${found[@]}"
}

# Words with a comma between them, or `and`, or `or`, before the last one.
listed() {
    local last=$1 text=$2
    shift 2
    while (($#)); do
        if (($# == 1)) && [[ $last != , ]]; then text+=" $last $1"; else text+=", $1"; fi
        shift
    done
    printf '%s\n' "$text"
}

# What the value of an option may be.
value_of() {
    if [[ $1 == kind ]]; then
        echo 'list, queue, table or tree'
    else
        echo "${number_of[$1]} from ${least[$1]} to ${most[$1]}"
    fi
}

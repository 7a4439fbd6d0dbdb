# Proves and builds the program, or tries its sources.

need_rt() {
    command -v rt >/dev/null && return
    say "$1, and the command rt, which does that, is not on PATH"
    exit 127
}

# The crates at and below the program, lowest first.
crates() {
    awk -F: '
        { sub(/#.*/, "") }
        NF > 1 { split($1, words, " "); needs[words[1]] = $2 }
        function visit(name, deps, count, k) {
            if (!(name in needs) || name in seen) return
            seen[name]
            count = split(needs[name], deps, " ")
            for (k = 1; k <= count; k++) visit(deps[k])
            print name
        }
        END { visit("melt_top") }' "$top/crates.txt"
}

# `rt run` builds and then runs, so it is given a trace without operations; what that prints is dropped.
build_crate() {
    cd -- "$top/crates/$1" || return
    if [[ $1 == melt_top ]]; then
        printf 'melt 1\nthreads 1\nglobals 0\nthread 0\ndone\n' | rt run -- step >/dev/null && [[ -x $program ]]
    else
        rt lib </dev/null >&2
    fi
}

# Writes to a terminal, each second, for how long a crate is being built: over its line, as long as this script runs.
tick() {
    local line=$1 since=$SECONDS
    while kill -0 $$ 2>/dev/null; do
        printf '\r%s%4d s' "$line" $((SECONDS - since)) >&2
        sleep 1
    done
}

# Builds a crate, and writes how long that took after its line.
build_told() {
    local line=$1 name=$2 since=$SECONDS ticker='' status
    if [[ -t 2 ]]; then
        tick "$line" & ticker=$!
    else
        printf '%s' "$line" >&2
    fi
    (build_crate "$name") 2>>"$log"
    status=$?
    if [[ $ticker ]]; then
        { kill "$ticker" && wait "$ticker"; } 2>/dev/null
        printf '\r%s' "$line" >&2
    fi
    if ((status == 0)); then printf '%4d s\n' $((SECONDS - since)); else printf 'failed\n'; fi >&2
    return "$status"
}

build() {
    local names name begun log=$folder/out/build.log place=0
    need_rt 'the program has to be built'
    mapfile -t names < <(crates)
    ((${#names[@]})) && mkdir -p -- "$folder/out" && begun=$(mktemp -- "$folder/out/begun.XXXXXX") && : >"$log" || exit 126
    trap 'rm -f -- "$begun"' EXIT
    say 'proving and building the program, which can take half an hour and more the first time' \
        "what the prover says: $log"
    [[ -t 2 ]] && say 'meanwhile ./melt --try WORDS runs the sources unproved, from another terminal'
    for name in "${names[@]}"; do
        ((++place))
        if ! build_told "$(printf 'melt: %2d of %d  %-15s' "$place" "${#names[@]}" "$name")" "$name"; then
            say "the program could not be built; $log says why"
            exit 126
        fi
    done
    rt version >"$kit" || rm -f -- "$kit"
    mv -- "$begun" "$mark"
    trap - EXIT
}

# Runs the sources by these words, in the crate's own folder, as `rt try` wants it. What it says of the run goes to standard error.
try_sources() {
    ((${#sources[@]})) || { say 'there are no sources here that could be run' && exit 126; }
    need_rt 'the sources are to be run'
    say 'running the sources as they stand: unproved and slow. It takes a minute to begin, and nothing is kept'
    cd -- "$folder" && exec rt try -- "$@"
}

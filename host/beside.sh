# Sourced by run.sh: the tests of packages, as `cargo test` runs them, but each test program is a process of its own and there are as many
# at a time as processors. The longest do not wait for each other.
#
#   test_of -p PACKAGE .. | --workspace [WORDS of cargo's]

# What there is to run, in cargo's words, a line for each: a package's programs under tests/, the tests in its sources, its documentation's.
# Those of a machine that is emulated are left out, as cargo leaves them out.
parts_of() {
    with='' names=''
    while [ $# -gt 0 ]; do
        case $1 in
        -p) names="$names $2" && shift ;;
        --workspace) names=' every package' ;;
        *) with="$with $1" ;;
        esac
        shift
    done
    for toml in */Cargo.toml; do
        name=$(sed -n 's/^name = "\(.*\)"$/\1/p' "$toml" | head -n 1)
        case "$names " in *" $name "* | ' every package ') ;; *) continue ;; esac
        folder=${toml%/*}
        for program in "$folder"/tests/*.rs; do
            [ ! -f "$program" ] || echo "-p $name --test $(basename "$program" .rs)$with"
        done
        if [ -f "$folder/src/main.rs" ]; then echo "-p $name --bins$with"; fi
        if [ -f "$folder/src/lib.rs" ]; then
            grep -q '^test = false$' "$toml" || echo "-p $name --lib$with"
            case $with in *--target*) ;; *) grep -q '^doctest = false$' "$toml" || echo "-p $name --doc$with" ;; esac
        fi
    done
}

# The longest begin first: those of the trace program and of waveforms.
longest_first() { awk '/--test (play|wave)( |$)/ { print; next } { rest = rest $0 "\n" } END { printf "%s", rest }'; }

# What each prints is shown once all have ended, one after the other.
test_of() {
    $CARGO test --offline --no-run "$@" || return 1
    said=$(mktemp -d) || return 1
    export said
    # shellcheck disable=SC2016
    parts_of "$@" | longest_first | nl -n rz | xargs -P "$(nproc)" -L 1 sh -c 'n=$1 && shift && $CARGO test --offline --no-fail-fast "$@" >"$said/$n" 2>&1' sh
    ended=$?
    cat "$said"/*
    rm -rf "$said"
    return "$ended"
}

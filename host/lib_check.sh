# Sourced by lib.sh: a target's library held to what all libraries must do, and the size of its code. `ready` has set cc, run and bare.

# A program in C on the library: program FOLDER SOURCE.
program() {
    beside='' name=$(basename "$2" .c)
    [ -z "$bare" ] || beside="-ffreestanding -nostdlib -Wl,-z,noexecstack -T host/examples/bare/$bare.ld -Ihost/examples/bare host/examples/bare/start.c host/examples/bare/few.c"
    # shellcheck disable=SC2086
    ${cc} -std=gnu99 -O2 -Wall -Wextra -Werror -Ihost "$2" $beside "$1/libcard.a" ${bare:+-lgcc} -Wl,--gc-sections -o "$1/$name" >&2 ||
        fail "$2 is not compiled for $1"
}

# Runs a program of a target and prints what it writes: ran FILE.
ran() {
    if [ -z "$bare" ]; then
        $run "$1"
    else
        # shellcheck disable=SC2086
        timeout 900 $run -nographic -monitor none -serial none -chardev stdio,id=out -semihosting-config enable=on,target=native,chardev=out -kernel "$1"
    fi
}

# Whether a program of the library writes what a file has: same TARGET PROGRAM FILE.
same() {
    ran "$folder/$2" >"$folder/$2.out" && cmp -s "$folder/$2.out" "$3" && return
    diff "$3" "$folder/$2.out" >&2
    fail "$1: $2 does not write what $3 has"
}

# Measures the stack of every call on a target; `table` prints what was measured, as the page has it: an eighth more than measured, and then
# up to a multiple of 64.
stacks=''
stack() {
    ready "$1"
    for_target "$1"
    program "$folder" host/checks/c/stack.c
    ran "$folder/stack" >"$folder/stack.out" || fail "$1: the measure of the stack does not run"
    stacks="$stacks $folder/stack.out"
}
table() {
    # shellcheck disable=SC2086
    awk '
        FNR == 1 { n = split(FILENAME, path, "/"); head = head " | " path[n - 1]; line = line "---|" }
        { if (!($1 in row)) order[++count] = $1; row[$1] = row[$1] " | " int($2 * 9 / 512 + 1) * 64 }
        END { print "| Call" head " |"; print "|---|" line; for (i = 1; i <= count; i++) print "| `" order[i] "`" row[order[i]] " |" }' $stacks
}

# Whether no call takes more stack than the page says, and none much less; of a target that it has no column for it says nothing.
as_the_page_says() {
    awk -v column="$1" -F '[|` ]+' '
        NR == FNR && $2 == "Call" { for (i = 3; i < NF; i++) if ($i == column) at = i; next }
        NR == FNR { if (at && $2 ~ /^card_/) page[$2] = $at; next }
        { split($0, row, " ") }
        at && (!(row[1] in page) || row[2] > page[row[1]] || (page[row[1]] - row[2] > 128 && 3 * row[2] < 2 * page[row[1]])) {
            print "lib: " column ": " row[1] " takes " row[2] " bytes of stack, and docs/FIRMWARE.md says " page[row[1]]
            bad = 1
        }
        END { exit bad }' docs/FIRMWARE.md "$folder/stack.out" >&2 || exit 1
}

# Whether the library has the functions that the header declares, each once, and nothing else that a program could link to.
as_declared() {
    sed -n 's/^\(uint32_t\|card_len\) \(card_[a-z_]*\)(.*/\2/p' host/card.h | LC_ALL=C sort >"$folder/declared"
    "${cc%%gcc*}nm" -g --defined-only "$made_lib" | awk 'NF == 3 { print $3 }' | LC_ALL=C sort >"$folder/exported"
    diff "$folder/declared" "$folder/exported" >&2 || fail "$1: the library has other functions than its header declares"
}

check() {
    stack "$1"
    as_the_page_says "$1"
    if "${cc%%gcc*}nm" "$made_lib" | grep -q ' [bBcCdD] '; then fail "$1: the library has words of its own, and its pages say that it has none"; fi
    as_declared "$1"
    for source in host/checks/c/soak.c host/examples/pops.c; do program "$folder" "$source"; done
    same "$1" soak host/checks/c/soak.txt
    same "$1" pops host/examples/pops.txt
    printf '%s: soak %s; the example and the stack as their pages have them\n' "$1" "$(sed -n 's/^.*: \(.* hash .*\)/\1/p' "$folder/soak.out" | tail -n 1)"
}

# The bytes of code that a program gets of the library which calls these functions: bytes FUNCTION..
bytes() {
    called=''
    for function; do called="$called -Wl,-u,$function"; done
    # shellcheck disable=SC2086
    $cc -nostdlib -static -Wl,-e,"$1" -Wl,--gc-sections,--unresolved-symbols=ignore-all $called "$made_lib" -o "$folder/part" &&
        "${cc%%gcc*}size" "$folder/part" | awk 'NR == 2 { print $1 }'
    rm -f "$folder/part"
}

# A line for each part of the library, as the page has it. What a queue's name begins may be another's: the tree's own calls are all but check
# and mend, the clocked tree's not the heap's.
size() {
    ready "$1"
    for_target "$1"
    all=$("${cc%%gcc*}nm" "$made_lib" | sed -n 's/.* T \(card_.*\)/\1/p')
    calls() { echo "$all" | grep "^card_$1" | grep -v "_words${2:+\|$2}"; }
    # shellcheck disable=SC2046,SC2086
    {
        echo "$1, the tree: $(bytes $(calls tree_ 'check\|mend'))"
        echo "$1, check and mend: $(bytes $(calls 'tree_\(check\|mend\)'))"
        echo "$1, the cluster heap: $(bytes $(calls cluster_))"
        echo "$1, the packed heap: $(bytes $(calls packed_))"
        echo "$1, the bucket queue: $(bytes $(calls bucket_))"
        echo "$1, several ports: $(bytes $(calls ports_))"
        echo "$1, fair ranks: $(bytes $(calls fair_))"
        echo "$1, the clocked tree: $(bytes $(calls clocked_ cluster))"
        echo "$1, the clocked cluster heap: $(bytes $(calls clocked_cluster_))"
        echo "$1, the lines: $(bytes $(calls lines_ clock))"
        echo "$1, the clocked lines: $(bytes $(calls lines_clock_))"
        echo "$1, all of the library: $(bytes $all)"
    }
}

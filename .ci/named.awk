# Holds the log of an edit's check to what the edit names:
#
#   awk -v crate=CRATE -v label=LABEL -v refused=yes -f .ci/named.awk part=1 EDIT part=2 LOG
#
# An edit says of each of its mistakes, in comment lines right above the replacements, which it is and what must fail for it, a function
# or a law with its file, one or more:
#
#   # mistake: a full queue answers empty
#   # fails: fn push_full
#   # fails: push-full proofs/Exactly.antt
#
# (The word `mistake:` may be left out, the file may stand in brackets, and several names in one line with commas between them.) A line
# is printed for each that did not fail, and the last one is 'N passed, M failed', a named failure being one. It must fail by a fact of its
# own. A law or function that could not be checked because another one failed has not failed itself, nor has one that no longer has the
# shape which its proof was written for.

function problem(text) {
    printf "must-fail %s/%s: %s\n", crate, label, text
    failed++
}

# The edit. After a replacement a comment begins the next mistake; of a mistake the first comment counts.
part == 1 && /^# fails: / {
    if (mistake == "") problem("no mistake is named for '" $0 "'")
    gsub(/[()]/, "")
    k = split(substr($0, 10), names, /, */)
    for (i = 1; i <= k; i++) {
        sub(/^and /, "", names[i])
        must[++n] = names[i]
        told[n] = mistake
    }
    named = 1
    next
}
part == 1 && /^#/ {
    if (replaced || /^# mistake: /) {
        if (mistake != "" && !named) problem("nothing is named that must fail for: " mistake)
        mistake = ""
        named = replaced = 0
    }
    if (mistake == "" && /^# /) {
        mistake = substr($0, 3)
        sub(/^mistake: /, "", mistake)
    }
    next
}
part == 1 && /^new:/ {
    if (!named) problem("a replacement without a mistake and what must fail for it: " $0)
    replaced = 1
}
part == 1 { next }

# The log: the first error of each law, and of each function's folder of proofs; what is said of each function.
/^[^ ]*:[0-9]+:[0-9]+: error: / {
    file = $0
    sub(/:[0-9]+:[0-9]+: error: .*/, "", file)
    sub(/^\.\//, "", file)
    text = $0
    sub(/^[^ ]*:[0-9]+:[0-9]+: error: /, "", text)
    law = ""
    if (match(text, /^`[^`]*`: /)) {
        law = substr(text, 2, RLENGTH - 4)
        text = substr(text, RLENGTH + 1)
    }
    # what cites a law that failed
    if (text ~ /was not admitted|^[0-9]+ declarations? that depends? on `.*, (was|were) not checked/) next
    if (law == "" && file ~ /^(src|specs)\// || text ~ / has no `|has no (field|member|such|child|module|constructor|clause|case|implicit)|not in scope|is no name|operand is missing|expected the end|cannot continue/) kind = "shape"
    else kind = "fact"
    if (first == "") {
        first = kind
        said = file ": " law ": " text
    }
    if (!((law " " file) in error)) error[law " " file] = kind
    folder = file
    sub(/\/[^\/]*$/, "", folder)
    if (!(folder in error)) error[folder] = kind
    # of functions that call each other the goals stand in one folder, each goal with its function's name
    if (folder ~ /(^|\/)\+[^\/]*$/ && !((folder "/" law) in goal)) goal[folder "/" law] = kind
}
/^fn [^ ]*: (not proved|no proof)/ {
    name = $2
    sub(/:$/, "", name)
    verdict[name] = $0
}

# Whether the line on a function says that a goal of its own was not proved. CYCLE is the folder of those that call each other, if it is one.
function goal_left(line, f,    cycle) {
    if (line !~ /`search` did not prove/) return 0
    if (!match(line, /\/\+[^\/]*\/Answers\.antt/)) return 1
    cycle = substr(line, RSTART + 2, RLENGTH - 15)
    sub(/^.*`search` did not prove/, "", line)
    return cycle == f || index(line, "`" f "-") > 0
}

# What became of function F: "fact", "shape", or "" where it did not fail by itself.
function function_failed(f,    name, path, where, one) {
    for (name in verdict) {
        path = substr(name, length(crate) + 1)
        if (substr(path, length(path) - length(f) - 1) != "::" f) continue
        # crate::a::f has its proofs in proofs/a/f/; if it calls itself in proofs/a/+f/, or with others in a folder with their cycle's name
        gsub(/::/, "/", path)
        where = "proofs" path
        sub(/[^\/]*$/, "", where)
        sub(/.*\//, "", path)
        if (goal_left(verdict[name], path)) return "fact"
        if ((where path) in error) return error[where path]
        if ((where "+" path) in error) return error[where "+" path]
        for (one in goal) if (index(one, where "+") == 1 && index(one, "/" path "-") > 0) return goal[one]
    }
    return ""
}

END {
    if (mistake != "" && !named) problem("nothing is named that must fail for: " mistake)
    if (!n) problem("nothing is named that must fail")
    if (first == "shape") problem("the first error is one of shape only: " substr(said, 1, 200))
    for (i = 1; i <= n; i++) {
        if (must[i] ~ /^fn /) kind = function_failed(substr(must[i], 4))
        else kind = error[must[i]]
        if (refused != "yes") problem("`" must[i] "`: the edit was not refused: " told[i])
        else if (kind == "fact") passed++
        else if (kind == "shape") problem("`" must[i] "` failed by its shape only: " told[i])
        else problem("`" must[i] "` did not fail: " told[i])
    }
    printf "%d passed, %d failed\n", passed, failed
    exit failed > 0
}

# Of what rt check says of a crate: each goal that is not proved, and each error of a proof, that is more than one of shape, one a line.
# The line begins with the file of the proof, written or not.

# of shape: what a proof names is not there; that a declaration was not checked only follows from an earlier refusal
/^(\.\/)?proofs\/.*: error: / {
    if ($0 !~ /that can be named from here|has no field|is not in scope|(was|were) not checked|was not admitted/) { sub(/^\.\//, ""); print }
    next
}

# what is left of a goal, and values at which it is false
/^note: `[^`]*` of [^ ]*\/Answers\.antt must prove: / { left[place($0)] = behind($0, " must prove: ") }
/^note: `[^`]*` of [^ ]*\/Answers\.antt may be false: / { values[place($0)] = behind(before($0, ": help: "), " the known facts allow ") }

# the notes on a function's goals come before its own line
/^note: .*: it is not proved that .* allow values at which this goal is false/ { wrong[++wrongs] = "`" before(behind($0, "(`"), "`)") "`" }
/^(fn|struct|enum|impl|trait) / {
    if ($0 ~ /: no proof: expected answers in .*; `search` did not prove `/) {
        file = before(behind($0, ": no proof: expected answers in ./"), ";")
        count = split(before(behind($0, "; `search` did not prove "), ";"), goals, ", ")
        for (n = 1; n <= count; n++) { open[++opens] = file " " goals[n] }
        for (n = 1; n <= wrongs; n++) { values[file " " wrong[n]] = "values that the facts known there allow" }
    } else if ($0 ~ /: not proved/) {
        # a file of the proof has an error, of shape perhaps, but what is false no proof closes
        path = behind(before($2, ":$"), "::")
        gsub(/::/, "/", path)
        for (n = 1; n <= wrongs; n++) { print "proofs/" path "/Answers.antt: " wrong[n] " is not proved, and false at values that the facts known there allow" }
    }
    wrongs = 0
}
END { for (n = 1; n <= opens; n++) { print told(open[n]) } }

function behind(text, mark,    at) {
    at = index(text, mark)
    return at ? substr(text, at + length(mark)) : text
}
function before(text, mark,    at) {
    if (mark == ":$") { sub(/:$/, "", text); return text }
    at = index(text, mark)
    return at ? substr(text, 1, at - 1) : text
}
# the file of the proof and the goal that a note speaks of
function place(note,    words) {
    split(note, words, " ")
    return words[4] " " words[2]
}
function told(at,    words) {
    split(at, words, " ")
    return words[1] ": " words[2] " is not proved" (at in values ? ", and false at " values[at] : "") (at in left ? ": " left[at] : "")
}

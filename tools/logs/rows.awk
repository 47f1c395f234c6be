# The log of a trace, for ./log: what both benches share. Places are 1,024 times the number of the command. Beside this
# file stands the one that says which command is a call's moment: figure-2.awk or figure-6.awk. The environment has
# `sizes`, the first line of the schedule text, and `named`, with which a note begins.

# so many words, all k
function words(k, w,    line) {
    for (; w > 0; w--) line = line " " k
    return line
}

# a row: a call of p that is answered by command number k and took effect at number e
function call(p, kind, k, truth, e, told) {
    rows[++calls] = p " " kind " " started[p] * 1024 " " k * 1024 " " truth " " e * 1024 told
}

# 'said' becomes the words of the answer on this line, its letter the second; 'shown' those behind its count
function read_answer(    i) {
    split(substr($0, index($0, " answers ") + 9), said, " ")
    shown = ""
    for (i = 4; i in said; i++) shown = shown " " said[i]
}

function note(what) {
    print ENVIRON["named"] what >"/dev/stderr"
}

BEGIN {
    split(ENVIRON["sizes"], of, " ")
    value = of[3]
}
# what the program says of the run, and its last line
/^(open|trouble):/ || /^refused [0-9]+:/ { next }
$1 == "refused" && $2 ~ /^(1|2|10|11|12|14)$/ && $3 == 0 { refused = $0 }
$1 == "refused" || $1 == "end" { next }
$3 == "start" {
    started[$2] = $1
    offered[$2] = $5
    next
}

# Lines of a trace (docs/TRACE.md), chosen: those of the entries `from` to `to` and of the process `process`, each where
# it is given; with `fold`, whole words that one line of Figure 2 moves one after another become one line. The last line
# is always printed.

# what waits for its next half word: the words that are folded, then a low half
function put() {
    if (folded) print entries() " " moved " BUF[" buffer "][" places() "] " act values
    if (low) print low
    folded = 0
    low = ""
}

function entries() { return begun "-" ended }
function places() { return first == word ? word : first "-" word }

function half(    part) {
    split($4, part, /[][]+/)
    if ($5 == "low") low_half(part[2], part[3] + 0)
    else high_half(part[2], part[3] + 0)
}

# a low half goes on with the words before it, or ends them
function low_half(b, k) {
    if (low || !folded || $2 " " $3 != moved || b != buffer || $6 != act || k != word + 1) put()
    low = $0
    low_entry = $1
    low_value = $7
    low_key = $2 " " $3 " " b " " k " " $6
}

# a high half completes its word; one that is not 0, or has not its low half before it, stands alone
function high_half(b, k,    field) {
    if (!low || low_key != $2 " " $3 " " b " " k " " $6 || $7 != "0") {
        put()
        print
        return
    }
    if (!folded) {
        begun = low_entry
        moved = $2 " " $3
        buffer = b
        act = $6
        first = k
        values = ""
    }
    folded = 1
    low = ""
    ended = $1
    word = k
    values = values " " low_value
    if (NF == 7) return
    for (field = 8; field <= NF; field++) values = values " " $field
    put()
}

$1 == "end" || $1 == "refused" {
    put()
    print
    next
}
(from != "" && $1 + 0 < from + 0) || (to != "" && $1 + 0 > to + 0) || (process != "" && $2 != process) { next }
fold && $4 ~ /^BUF/ {
    half()
    next
}
{
    put()
    print
}
END { put() }

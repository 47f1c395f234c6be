# The moments of Figure 6, Moir's: of an SC that succeeds its CAS on the header, line 19; of a WLL that names a process
# line 10, with the words that the record has there; of every other call its answer. An SC that is open after its CAS
# counts as answered true at its last step.
{ step[$2] = $1 }
$3 == 10 {
    effect[$2] = $1
    found[$2] = value
}
$3 == 19 && $10 == "true" {
    effect[$2] = stored[$2] = $1
    value = offered[$2]
}
/ answers / {
    read_answer()
    if (said[2] == "L") call($2, 1, $1, 0, $1, shown)
    if (said[2] == "N") {
        call($2, 1, $1, 0, effect[$2], words(found[$2], of[2]))
        note("call " calls " of the log is a WLL that named process " said[4] ": its words are not compared")
    }
    if (said[2] == "S") call($2, 2, $1, said[4], said[4] ? effect[$2] : $1, words(offered[$2], of[2]))
    if (said[2] == "V") call($2, 3, $1, said[4], $1, words(0, of[2]))
    delete stored[$2]
}
END {
    for (p = 0; p < 16 && p < of[1]; p++) {
        if (!(p in stored)) continue
        call(p, 2, step[p], 1, stored[p], words(offered[p], of[2]))
        note("call " calls " of the log is the SC of process " p " that is open: its CAS on the header succeeded")
    }
}

# The moments of Figure 2: of an LL line 2, or line 5 where it was helped and the VL of line 7 is true, or else its
# helper's VL of line 14; of an SC line 19, of a VL line 23, where they answer.
$3 == 2 || $3 == 5 { effect[$2] = $1 }
$3 == 7 && / VL false/ { effect[$2] = handed[$2] }
$3 == 14 && / X VL true/ { checked[$2] = $1 }
$3 == 15 && / true links/ {
    helped = $4
    gsub(/[^0-9]/, "", helped)
    handed[helped] = checked[$2]
}
/ answers / {
    read_answer()
    if (said[2] == "L") call($2, 1, $1, 0, effect[$2], shown)
    if (said[2] == "S") call($2, 2, $1, said[4], $1, words(offered[$2], of[2]))
    if (said[2] == "V") call($2, 3, $1, said[4], $1, words(0, of[2]))
}

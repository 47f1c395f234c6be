# The log, or status 1 where no command was carried out for a fault of the text.
END {
    if (refused) {
        note("the schedule was not carried out: " refused)
        exit 1
    }
    printf "%s %s\n%s\n", of[1], of[2], substr(words(of[3], of[2]), 2)
    for (i = 1; i <= calls; i++) print rows[i]
}

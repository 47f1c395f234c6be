# The crate `first` and those that it rests on, of crates.txt, a line for each.
/^[^#:]+:/ {
    sub(/#.*/, "")
    name = $0
    sub(/[ :].*/, "", name)
    sub(/^[^:]*:/, "")
    deps[name] = $0
}
END {
    left[1] = first
    for (last = 1; last > 0; ) {
        name = left[last--]
        if (!(name in deps) || name in seen) continue
        seen[name] = 1
        print name
        many = split(deps[name], some, " ")
        for (i = 1; i <= many; i++) left[++last] = some[i]
    }
}

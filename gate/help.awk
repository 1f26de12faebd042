# Prints what to run in the first hour, and then a Makefile's targets, grouped by purpose, from its
# lines 'NAME: .. ## PURPOSE: WHAT IT DOES'.
BEGIN {
    count = split("try build use check measure", purposes, " ")
}
/^[a-z-]+:.* ## [a-z]+: / {
    name = substr($0, 1, index($0, ":") - 1)
    text = substr($0, index($0, " ## ") + 4)
    purpose = substr(text, 1, index(text, ":") - 1)
    lines[purpose] = lines[purpose] sprintf("  make %-13s %s\n", name, substr(text, length(purpose) + 3))
}
END {
    print "the first hour, which CONTRIBUTING.md describes:"
    print "  make build         prove the program once"
    print "  rt check           in crates/NAME, after each change: prove what has changed"
    print "  rt try --test      in crates/NAME_tests: run tests before they are proved"
    print "  make quick CRATE=NAME    check the crate, its tests and the pages, in two minutes"
    for (number = 1; number <= count; number++)
        printf "%s:\n%s", purposes[number], lines[purposes[number]]
}

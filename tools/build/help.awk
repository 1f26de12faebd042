# Makes the text that a program's --help prints, as C strings:
#
#     awk -v program=lrup-check -f tools/build/help.awk man/lrup-*.1
#
# The program's own page has the synopsis and, up to .Pp, what the program does. A list below a
# comment like 'help of lrup-solve, lrup-check' is used, too: each item up to the end of its first
# sentence.

# Returns the line without macros.
function plain(line,    end, name) {
    if (line !~ /^\./) return line
    if (line ~ / [.,:;]$/) {
        end = substr(line, length(line))
        line = substr(line, 1, length(line) - 2)
    }
    if (line ~ /^\.Nm/) line = program
    if (line ~ /^\.Ql /) line = "'" substr(line, 5) "'"
    if (line ~ /^\.Op /) line = "[" substr(line, 5) "]"
    if (line ~ /^\.Xr /) sub(/ [0-9]$/, "", line)
    sub(/^\.((It|Xr|Pa|Ev|Cm) )?/, "", line)
    gsub(/Fl /, "-", line)
    gsub(/ Ns /, "", line)
    gsub(/ , /, ", ", line)
    while (match(line, /Ar [A-Za-z|. ]+/)) {
        name = toupper(substr(line, RSTART + 3, RLENGTH - 3))
        gsub(/ \| /, "|", name)
        sub(/ \.\.\./, "...", name)
        line = substr(line, 1, RSTART - 1) name substr(line, RSTART + RLENGTH)
    }
    return line end
}

function put(line) {
    gsub(/["\\]/, "\\\\&", line)
    print "\"" line "\\n\""
}

# Prints text with this indent: after the head, or below it if the head is too long.
function wrap(head, text, indent,    word, count, k, line) {
    line = head substr(indent, length(head) + 1)
    if (length(head) >= length(indent)) {
        put(head)
        line = indent
    }
    count = split(text, word, " ")
    for (k = 1; k <= count; k++) {
        if (length(line) + length(word[k]) >= 100) {
            put(line)
            line = indent
        }
        line = line (line ~ /[^ ]$/ ? " " : "") word[k]
    }
    put(line)
}

FNR == 1 { is_own = FILENAME ~ ("/" program "\\.1$") }
/^\.Sh / { section = is_own ? substr($0, 5) : ""; next }
/^\.\\" help of / { is_taken = index($0 ",", " " program ",") > 0; next }
section == "SYNOPSIS" && /^\.Nm/ { synopsis[++forms] = program; next }
section == "SYNOPSIS" { synopsis[forms] = synopsis[forms] " " plain($0) }
section == "DESCRIPTION" && /^\.Pp/ { section = "" }
section == "DESCRIPTION" { about = about " " plain($0) }
/^\.El/ { is_taken = 0 }
is_taken && /^\.It / { head[++items] = plain($0); is_open = 1; next }
is_taken && is_open { text[items] = text[items] " " plain($0); is_open = text[items] !~ /\.$/ }

END {
    for (k = 1; k <= forms; k++) put((k == 1 ? "usage: " : "       ") synopsis[k])
    wrap("", about, "")
    put("")
    for (k = 1; k <= items; k++)
        if (head[k] ~ /^-/) wrap("  " head[k], text[k], "                     ")
    put("")
    put("Status:")
    for (k = 1; k <= items; k++)
        if (head[k] !~ /^-/) wrap("  " head[k], text[k], "     ")
}

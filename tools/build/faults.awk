# Makes lrup-explain's words for faults, as entries of a C array, from lrupd's definition:
#
#     awk -f tools/build/faults.awk crates/stream_check/specs/Faults.antt

/^fault_text .* = codes "/ {
    words = $0
    sub(/^[^"]*"/, "", words)
    sub(/ ?".*/, "", words)
    name = $0
    sub(/^fault_text (\(faults\.Text texts|\(?faults)\./, "", name)
    sub(/[^A-Za-z].*/, "", name)
    gsub(/[A-Z]/, "_&", name)
    printf "[FAULT%s] = \"%s\",\n", toupper(name), words
}

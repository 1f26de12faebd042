#!/usr/bin/awk -f
# ids.awk CHECKPOINT: prints each clause's old id, and its new id, which is its index.
$1 == "c" { id = $3; next }
$1 != "p" { place++; print id ? id : place, place; id = 0 }

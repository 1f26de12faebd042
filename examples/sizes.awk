#!/usr/bin/awk -f
# sizes.awk STREAM: prints a stream's last id, which --lines has to reach, and how many literals its
# additions have, for --room.
$2 != "d" && $2 != "i" { last = $1; for (i = 2; $i != 0; i++) literals++ }
END { print last + 0, literals + 0 }

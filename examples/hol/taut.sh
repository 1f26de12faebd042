#!/bin/sh
# Makes HOL Light prove the 61 tautologies of its Minisat/taut.ml with lrup-solve, which has to be
# on the PATH. The script needs Debian's packages hol-light and libnum-ocaml-dev, and some minutes,
# most of them to start HOL Light.
set -u
command -v hol-light > /dev/null || { echo "taut.sh: no hol-light: it needs Debian's packages hol-light and libnum-ocaml-dev" >&2; exit 1; }
for command in lrup-solve python3; do
    command -v "$command" > /dev/null || { echo "taut.sh: no $command on the PATH" >&2; exit 1; }
done
here=$(CDPATH='' cd -- "$(dirname -- "$0")" && pwd) && work=$(mktemp -d) || exit 1
trap 'rm -rf "$work"' EXIT
sed '/^map (fun (p,s)/,$d' /usr/share/hol-light/Minisat/taut.ml > "$work/tautologies.ml"
cat > "$work/run.ml" << END
loads "Minisat/make.ml";;
#use "$work/tautologies.ml";;
let is_proved (p, name) =
  let found = try TEST_TAUT SAT_PROVE p with e -> (print_endline (Printexc.to_string e); false) in
  Printf.printf "\n%s: %s\n%!" name (if found then "proved" else "not proved"); found;;
let found = map is_proved all_taut;;
Printf.printf "\nc %d of %d proved\n%!" (length (filter (fun one -> one) found)) (length found);;
#quit;;
END
PATH=$here:$PATH hol-light < "$work/run.ml" > "$work/said" 2>&1
grep -E '^[^ ]+: (not )?proved$|^c ' "$work/said" || tail -5 "$work/said"
grep -q '^c 61 of 61 proved$' "$work/said"

#!/bin/sh
# Writes bash completions for the options that each program's --help names, and for the words that
# some options take:
#
#     sh tools/build/completions.sh PROGRAMS FOLDER
#
# For other words, bash completes file names. The text that explains an option may name options of
# other programs.
set -eu
[ $# -eq 2 ] || { echo "usage: sh $0 PROGRAMS FOLDER" >&2; exit 2; }
words_of() {
    case $1 in
        --expect) echo sat unsat unsat-under-assumptions ;;
        --format) echo lrat drat frat binary-lrat binary-drat ;;
        --progress) echo json ;;
    esac
}
for program in "$1"/lrup*; do
    name=${program##*/}
    options=$({ "$program" --help 2>&1 || :; } |
        sed -nE '/^(usage| +lrup)/p; s/^ {1,6}(-[^ ]*( [^ ]+)*).*/\1/p' |
        grep -oE -- '(^|[ [,|])--[a-z][a-z-]*' | sed 's/^[^-]//' | LC_ALL=C sort -u | tr '\n' ' ')
    [ -n "$options" ] || { echo "$name --help names no option" >&2; exit 1; }
    function=_$(echo "$name" | tr - _)
    {
        echo "$function() {"
        echo '    COMPREPLY=()'
        echo '    case $3 in'
        for option in $options; do
            words=$(words_of "$option")
            [ -z "$words" ] ||
                echo "        $option) COMPREPLY=(\$(compgen -W \"$words\" -- \"\$2\")); return ;;"
        done
        echo '    esac'
        echo "    case \$2 in -*) COMPREPLY=(\$(compgen -W \"${options% }\" -- \"\$2\")) ;; esac"
        echo '}'
        echo "complete -o default -F $function $name"
    } | install -m 644 /dev/stdin "$2/$name"
done

#!/bin/sh
# Copies the pages for users and the examples into FOLDER:
#
#     sh tools/build/pages.sh FOLDER
#
# All pages but those of the examples are in one folder there, and a link to a file that isn't there
# becomes plain text.
set -eu
umask 022
[ $# -eq 1 ] || { echo "usage: sh $0 FOLDER" >&2; exit 2; }
top=$(cd "$(dirname "$0")/../.." && pwd)
mkdir -p "$1"
folder=$(cd "$1" && pwd)
cd "$top"
install -m 644 README.md CHANGELOG.md docs/USING.md docs/FORMAT.md docs/EMITTING.md docs/TRUST.md docs/SECURITY.md "$folder"
find examples -name out -prune -o -name __pycache__ -prune -o -type f -print | while read -r file; do
    mode=644
    [ ! -x "$file" ] || mode=755
    install -D -m $mode "$file" "$folder/$file"
done
cd "$folder"
sed -i -e 's#](\(\.\./\)*docs/#](#g' -e 's#](\.\./README#](README#g' ./[A-Z]*.md
sed -i 's#](\(\(\.\./\)*\)docs/#](\1#g' examples/README.md examples/*/README.md
for page in ./*.md examples/README.md examples/*/README.md; do
    for target in $(grep -ohE '\]\([^)#]+' "$page" | sed 's/^](//' | sort -u); do
        case $target in http*) continue ;; esac
        [ -e "${page%/*}/$target" ] || sed -zi "s#\[\([^][]*\)\]($target[^)]*)#\1#g" "$page"
    done
done

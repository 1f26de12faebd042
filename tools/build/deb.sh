#!/bin/sh
# Makes a Debian package of the programs installed below ROOT with PREFIX=/usr, and puts it beside
# ROOT:
#
#     sh tools/build/deb.sh ROOT VERSION
#
# It adds what Debian wants of a package.
set -eu
umask 022
[ $# -eq 2 ] || { echo "usage: sh $0 ROOT VERSION" >&2; exit 2; }
for command in dpkg-deb dpkg-shlibdeps gzip; do
    command -v $command > /dev/null || { echo "make deb needs $command, of dpkg-dev" >&2; exit 1; }
done
root=$(cd "$1" && pwd)
version=$2
top=$(cd "$(dirname "$0")/../.." && pwd)
work=$(mktemp -d)
trap 'rm -rf "$work"' EXIT

documents=$root/usr/share/doc/lrupd
mkdir "$root/DEBIAN"
gzip -9n "$documents/CHANGELOG.md"
mv "$documents/CHANGELOG.md.gz" "$documents/changelog.gz"
for file in "$top"/LICENSE* "$top"/COPYING* "$top"/copyright; do
    [ ! -f "$file" ] || cat "$file" >> "$documents/copyright"
done
gzip -9nf "$root"/usr/share/man/man1/*.1

# dpkg-shlibdeps runs only in a source package, and must not get scripts.
mkdir "$work/debian"
printf 'Source: lrupd\n\nPackage: lrupd\nArchitecture: any\n' > "$work/debian/control"
depends=$(cd "$work" && find "$root/usr" -path "$root/usr/share" -prune -o ! -name lrup-recheck -type f -exec dpkg-shlibdeps -O {} + | sed -n 's/^shlibs:Depends=//p')
cat > "$root/DEBIAN/control" << END
Package: lrupd
Version: $version
Architecture: $(dpkg --print-architecture)
Maintainer: Yamsatin maintainers <maintainers@users.noreply.yamsatin.example>
Section: math
Priority: optional
Depends: $depends
Installed-Size: $(du -sk --exclude=DEBIAN "$root" | cut -f1)
Description: proved checker of the proofs of SAT solvers that share clauses
 lrupd checks the LRAT lines of one or more SAT solvers while they are written.
 The code that checks is proved: for the bytes that it is given, it answers
 's UNSATISFIABLE' only if no assignment satisfies the formula. lrup-exact, an
 untrusted filter, makes such streams from DRUP, DRAT, LRAT and FRAT proofs.
 lrup-recheck checks kept proofs again.
 lrup-model, proved as well, checks a satisfying assignment.
 lrup-trim makes unsatisfiable cores, smaller proofs and LRAT from recorded
 streams, and lrup-explain says why a line is bad. lrup-solve, if it was built,
 solves a formula and has the answer checked.
END
dpkg-deb --root-owner-group --build "$root" "$root/../lrupd_${version}_$(dpkg --print-architecture).deb"

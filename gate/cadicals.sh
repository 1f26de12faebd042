#!/bin/sh
# Fetches CaDiCaL as Debian's releases have it, as a library and as a program: FOLDER/RELEASE is for
# make's CADICAL=. Nothing is installed. A release that can't be reached is left out, and said so.
#
#     cadicals.sh FOLDER [RELEASE..]
set -eu
[ "$#" -gt 0 ] || { echo 'usage: cadicals.sh FOLDER [RELEASE..]' >&2; exit 2; }
mkdir -p "$1"
folder=$(cd "$1" && pwd)
shift
[ "$#" -gt 0 ] || set -- bookworm trixie sid
work=$(mktemp -d)
trap 'rm -rf "$work"' EXIT

# Downloads and unpacks the release's packages, with lists and state of their own.
fetch() {
    release=$1 place=$work/$1
    mkdir -p "$place/lists/partial" "$place/archives/partial" "$place/state"
    : > "$place/status"
    keys=/usr/share/keyrings/debian-archive-keyring.gpg
    echo "deb [signed-by=$keys] http://deb.debian.org/debian $release main" > "$place/sources.list"
    set -- -q -o Dir::State="$place/state" -o Dir::State::Lists="$place/lists" \
        -o Dir::State::Status="$place/status" -o Dir::Cache="$place" \
        -o Dir::Etc::SourceList="$place/sources.list" -o Dir::Etc::SourceParts=- \
        -o APT::Sandbox::User=root
    (cd "$place" && apt-get "$@" update && apt-get "$@" download cadical libcadical-dev) \
        > "$place/log" 2>&1 || return 1
    rm -rf "${folder:?}/$release"
    for package in "$place"/*.deb; do dpkg-deb -x "$package" "$folder/$release" || return 1; done
}

# A library that was made for a newer C library may call a function that this one lacks.
complete() {
    nm "$library" 2> /dev/null | grep -q ' U __isoc23_fscanf$' || return 0
    cat > "$work/scanning.c" << 'END'
#include <stdarg.h>
#include <stdio.h>
__attribute__((weak)) int __isoc23_fscanf(FILE *file, const char *format, ...) {
    va_list places;
    va_start(places, format);
    int count = vfscanf(file, format, places);
    va_end(places);
    return count;
}
END
    cc -O2 -c -o "$work/scanning.o" "$work/scanning.c" && ar r "$library" "$work/scanning.o"
}

# The program that was made for a newer C library doesn't run. Another one takes its place, with the
# same library, for what benches and tests call: cadical [-q] [-n] [--OPTION..] FORMULA [PROOF].
replace_program() {
    "$program" --version > /dev/null 2>&1 && return 0
    cat > "$work/cadical.cpp" << 'END'
#include <cadical.hpp>
#include <cstdio>
#include <cstring>
#include <vector>

int main(int count, char **words) {
    CaDiCaL::Solver solver;
    std::vector<const char *> files;
    bool prints_values = true;
    solver.set("report", 1);
    for (int k = 1; k < count; k++)
        if (words[k][0] != '-')
            files.push_back(words[k]);
        else if (strcmp(words[k], "-n") == 0)
            prints_values = false;
        else if (strcmp(words[k], "-q") == 0 ? !solver.set("quiet", 1)
                                             : !solver.set_long_option(words[k]))
            return 1;
    if (files.size() > 1) solver.trace_proof(files[1]);
    int variables;
    const char *fault = files.empty() ? "no formula" : solver.read_dimacs(files[0], variables);
    if (fault) return fprintf(stderr, "cadical: %s\n", fault), 1;
    int status = solver.solve();
    puts(status == 10 ? "s SATISFIABLE" : status == 20 ? "s UNSATISFIABLE" : "s UNKNOWN");
    prints_values &= status == 10;
    for (int variable = 1; prints_values && variable <= variables; variable++)
        printf("v %d\n", solver.val(variable) > 0 ? variable : -variable);
    if (prints_values) puts("v 0");
    if (files.size() > 1) solver.close_proof_trace();
    return status;
}
END
    c++ -O2 -I "$folder/$release/usr/include" -o "$program" "$work/cadical.cpp" "$library"
}

for release in "$@"; do
    if command -v apt-get > /dev/null && command -v dpkg-deb > /dev/null && fetch "$release"; then
        library=$(echo "$folder/$release"/usr/lib/*/libcadical.a) program=$folder/$release/usr/bin/cadical
        complete
        replace_program
        echo "$folder/$release"
    else
        echo "left out: CaDiCaL of Debian's $release can't be fetched" >&2
    fi
done

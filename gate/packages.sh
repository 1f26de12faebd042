#!/bin/sh
# Installs Debian packages, as root, or by sudo after it has said what sudo runs:
#
#     sh gate/packages.sh [PACKAGE..]
#
# Without names these are the packages that tests need besides Rattle's toolchain, a C compiler and
# Python 3; make install names those that it lacks. Packages that are already installed aren't
# changed. If none may be installed, it prints the command, and programs or tests that need them are
# left out. In CI, where such tests would fail, so does this script. pytest runs the tests of
# programs; clang's sanitizers are in a separate package.
what=programs packages=$*
[ -n "$packages" ] || what=tests packages='bzip2 cadical clang clang-format codespell cryptominisat dpkg-dev g++ libcadical-dev libclang-rt-dev libmd-dev libopenmpi-dev minisat mypy openmpi-bin picosat python3-hypothesis python3-pytest python3-pytest-rerunfailures python3-pytest-timeout python3-pytest-xdist python3-z3 strace valgrind xz-utils yosys z3 zstd'
missing=
for package in $packages; do
    dpkg-query -W -f '${db:Status-Status}' "$package" 2> /dev/null | grep -qx installed || missing="$missing $package"
done
[ -n "$missing" ] || exit 0
install="apt-get install -y --no-install-recommends$missing"
if ! command -v apt-get > /dev/null; then
    echo "$what need packages of Debian that aren't installed, or their likes:$missing"
elif [ "$(id -u)" -eq 0 ] || command -v sudo > /dev/null; then
    by=
    [ "$(id -u)" -eq 0 ] || by='sudo '
    echo "installing what $what need: $by$install"
    log=$(mktemp)
    trap 'rm -f "$log"' EXIT
    { $by apt-get update -qq; ${by:+sudo} env DEBIAN_FRONTEND=noninteractive $install -qq; } > "$log" 2>&1 && exit 0
    tail -n 5 "$log"
    echo "not installed; some $what will be left out"
else
    echo "some $what will be left out; this, as root, installs what they need: $install"
fi
[ -z "${CI:-}" ] || [ $what = programs ]

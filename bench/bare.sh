#!/usr/bin/env bash
# The limits of what the program does with a tape, as bare loops in C (bench/bare.c): a copy of the tape's bytes, a cycle at a time; three words of the
# generator for each push of each reader, as an ether draws them; the records encoded from rows of entries; and the records copied as they were in the
# cycle before, with cycle and slot written in.
# Usage: bench/bare.sh [ITEMS SLOTS CYCLES READERS]; the default is 256 403 1000 8, a tape of 424 MB. Prints a row a loop: what it did, and the least
# milliseconds of five runs. Compiled for registers of 16 bytes, as the program is. clang is taken where it
# is found, since some versions of gcc reverse the bytes of each entry one by one. Where no C compiler is found it says so, and measures nothing.
set -u
cd "$(dirname "$0")/.." || exit 1
compiler=$(command -v "${CC:-clang}" || command -v cc || command -v gcc) || { echo 'skipped: there is no C compiler'; exit 0; }
scratch=$(mktemp -d) || exit 1
trap 'rm -rf "$scratch"' EXIT
"$compiler" -O3 -o "$scratch/bare" -march=x86-64-v2 bench/bare.c 2>/dev/null || "$compiler" -O3 -o "$scratch/bare" bench/bare.c || exit 1
[ $# -eq 4 ] || set -- 256 403 1000 8
printf '%-44s %14s %-10s %10s\n' loop did of milliseconds
"$scratch/bare" "$@"

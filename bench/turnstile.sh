#!/usr/bin/env bash
# How many turns a second go through a turnstile, compared with the locks a second of std's Mutex round a value of the same type,
# with 1, 2, 4 and 8 threads; neither changes the value. Usage: bench/turnstile.sh [RUNS]. Prints a table; each figure is the
# median of the runs, the last column the time of a turn by that of a lock. The program is bench/turnstile.rt.txt.
set -u
cd "$(dirname "$0")/.." || exit 1
runs=${1:-11}
source bench/build.sh
build turnstile air_base turnstile turnstile_tests
for _ in $(seq "$runs"); do "$program"; done | beside threads turns/s locks/s

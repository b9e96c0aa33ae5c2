#!/usr/bin/env bash
# How many commits a second go through the passes of a station, compared with those to a core in std's Mutex, with 1, 2, 4 and 8
# updaters, each in a thread of its own. Usage: bench/station.sh [RUNS]. Prints a table; each figure is the median of the runs, the
# last column the time of a station's commit by that of the other. The program is bench/station.rt.txt.
set -u
cd "$(dirname "$0")/.." || exit 1
runs=${1:-11}
source bench/build.sh
build station air_history item_catalog update_commit station station_tests
for _ in $(seq "$runs"); do "$program"; done | beside updaters station/s mutex/s

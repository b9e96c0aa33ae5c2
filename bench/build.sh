# Sourced by the benches, which run at the top of the repository.
#
# `build NAME USED..` proves and builds the program of `bench/NAME.rt.txt`, which uses these crates, in a scratch folder next to a
# copy of them and of the crates that they depend on: so the repository keeps no crate that only measures. `scratch` is that
# folder, which goes when the bench ends, and `program` the program. A proof of its function F is `bench/NAME_proof_F.antt.txt`,
# what holds between the rounds of its loops `bench/NAME_loops_F.antt.txt`; a method is `TYPE.METHOD`. The names end with .txt, since
# `rt ci` refuses sources that are in no crate.
#
# `beside SIZE OURS OTHER` makes a table, under these heads, of lines with a size and how many a second went each way: the
# median of each over the lines of a size, and the time of ours by that of the other.

# The crates of this repository among these and below them, lowest first, as crates.txt has them
crates_below() {
    awk -v used="$*" '
        BEGIN { count = split(used, words, " "); for (k = 1; k <= count; k++) need[words[k]] = 1 }
        /^[a-z]/ { name = $1; sub(/:$/, "", name); line[++lines] = $0; crate[lines] = name }
        END {
            for (l = lines; l > 0; l--) if (crate[l] in need) { count = split(line[l], words, " "); for (k = 2; k <= count; k++) need[words[k]] = 1 }
            for (l = 1; l <= lines; l++) if (crate[l] in need) print crate[l]
        }' crates.txt
}

build() {
    local name=$1 crate proof made
    shift
    scratch=$(mktemp -d) || exit 1
    trap 'rm -rf "$scratch"' EXIT
    mkdir "$scratch/crates"
    git init -q "$scratch"
    for crate in $(crates_below "$@"); do
        cp -r "crates/$crate" "$scratch/crates/" || exit 1
        rm -rf "$scratch/crates/$crate/must-fail"
        grep "^$crate:" crates.txt >>"$scratch/crates.txt"
    done
    made=$scratch/crates/${name}_bench
    echo "${name}_bench: $*" >>"$scratch/crates.txt"
    mkdir -p "$made/src"
    cp "bench/$name.rt.txt" "$made/src/main.rt" || exit 1
    touch "$made/stdin"
    for proof in "bench/${name}"_proof_*.antt.txt; do
        [ -f "$proof" ] || continue
        crate=${proof#"bench/${name}_proof_"}
        mkdir -p "$made/proofs/${crate%.antt.txt}"
        cp "$proof" "$made/proofs/${crate%.antt.txt}/Answers.antt"
    done
    for proof in "bench/${name}"_loops_*.antt.txt; do
        [ -f "$proof" ] || continue
        crate=${proof#"bench/${name}_loops_"}
        crate=${crate%.antt.txt}
        mkdir -p "$made/proofs/${crate//.//}"
        cp "$proof" "$made/proofs/${crate//.//}/Invariants.antt"
    done
    (cd "$made" && rt run) >"$scratch/log" 2>&1
    program=$made/out/${name}_bench
    if [ ! -x "$program" ]; then
        cat "$scratch/log"
        exit 1
    fi
}

beside() {
    printf '%8s %12s %12s %6s\n' "$@" times
    awk '
        function median(list, n, i, j, t) {
            for (i = 1; i <= n; i++) for (j = i + 1; j <= n; j++) if (list[j] < list[i]) { t = list[i]; list[i] = list[j]; list[j] = t }
            return list[int((n + 1) / 2)]
        }
        { ours[$1, ++count[$1]] = $2; others[$1, count[$1]] = $3; if (count[$1] == 1) order[++sizes] = $1 }
        END {
            for (s = 1; s <= sizes; s++) {
                n = order[s]
                for (r = 1; r <= count[n]; r++) { a[r] = ours[n, r]; b[r] = others[n, r] }
                o = median(a, count[n]); p = median(b, count[n])
                printf "%8d %12d %12d %6.2f\n", n, o, p, p / o
            }
        }'
}

#!/bin/bash
# Checks generated logs of 1,000 to 100,000 lemmas by the built program certificate_cases, with 200 checks a run.
# Each lemma but the first uses the one before it and a clause of the chain. A text whose first lemma is wrong is read as
# the other is, and its checks end there: so the difference of two runs is that of the checks. It prints instructions, which
# valgrind counts, and the processor's time. Run it after `rt run` in crates/certificate_cases.
set -eu
top=$(cd "$(dirname "$0")/.." && pwd)
work=$top/bench/work
mkdir -p "$work"
program=$top/crates/certificate_cases/out/certificate_cases
[ -x "$program" ] || { echo "build it first: (cd crates/certificate_cases && rt run)"; exit 1; }
write() { # the number of lemmas, the hints of the first
    awk -v lemmas="$1" -v first="$2" 'BEGIN {
        printf "chain 200:\ncertificate 1 undecided\nvars %d\nlemma -0 +2 : %s\n", lemmas + 2, first
        for (i = 1; i < lemmas; i++) printf "lemma -0 +%d : L%d G%d.0\n", i + 2, i - 1, i + 1
        print "end\n."
    }'
}
TIMEFORMAT='%U %S'
seconds() { # the least of five runs, of the program alone
    for _ in 1 2 3 4 5; do
        { time "$program" < "$1" > "$work/answer"; } 2>&1
    done | awk '{ t = $1 + $2; if (NR == 1 || t < least) least = t } END { print least }'
}
instructions() { # 0 where nothing counts them
    command -v valgrind > "$work/path" || { echo 0; return; }
    valgrind --tool=cachegrind --cache-sim=no --cachegrind-out-file=/dev/null "$program" < "$1" 2>&1 > "$work/answer" |
        awk '/I *refs/ { gsub(",", "", $NF); print $NF }'
}
echo "lemmas bytes reading_instructions check_instructions instructions_a_lemma check_us ns_a_lemma"
for lemmas in 1000 10000 100000; do
    write "$lemmas" "G0.0 G1.0" > "$work/good"
    write "$lemmas" "G0.0 L0" > "$work/bad"
    whole=$(seconds "$work/good")
    grep -q '^  Undecided' "$work/answer"
    reading=$(seconds "$work/bad")
    grep -q '^  lemma 0' "$work/answer"
    bytes=$(wc -c < "$work/good")
    echo "$lemmas $bytes $whole $reading $(instructions "$work/good") $(instructions "$work/bad")" |
        awk '{ t = ($3 - $4) / 200; n = ($5 - $6) / 200; printf "%d %d %d %d %.1f %.0f %.0f\n", $1, $2, $6, n, n / $1, t * 1e6, t / $1 * 1e9 }'
done

#!/bin/sh
# Runs the built program once for each folder of examples/runs, in a copy of the run's data/, and compares the status, what is
# put on `out`, and the first line on `err` with the files there. The files are named as those beside a program's src/: args
# (a word a line), stdin, stdout, stderr, status; one that is missing is empty, or 0. Where there is a file `before`, its events are
# run first, so that there is a cluster file. Then the example of a cluster, and two runs at the limit of the input.
# Run it after `rt run` in crates/olmctl, or with the program's path as its argument.
set -eu
top=$(cd "$(dirname "$0")/.." && pwd)
program=${1:-$top/crates/olmctl/out/olmctl}
[ -x "$program" ] || { echo "build it first: (cd crates/olmctl && rt run)"; exit 1; }
work=$(mktemp -d)
trap 'rm -rf "$work"' EXIT
passed=0
failed=0
result() { # the name of a run, and what differs
    if [ -z "$2" ]; then passed=$((passed + 1)); else failed=$((failed + 1)); echo "FAILED $1:$2"; fi
}
for run in "$top"/examples/runs/*/; do
    name=$(basename "$run")
    here=$work/$name
    mkdir -p "$here/folder"
    for part in stdin stdout stderr; do
        if [ -f "$run/$part" ]; then cp "$run/$part" "$here/$part"; else : > "$here/$part"; fi
    done
    [ ! -d "$run/data" ] || cp -r "$run/data/." "$here/folder"
    [ ! -f "$run/before" ] || (cd "$here/folder" && exec "$program" run) < "$run/before" > /dev/null
    set --
    while IFS= read -r word || [ -n "$word" ]; do set -- "$@" "$word"; done < "$run/args"
    status=0
    (cd "$here/folder" && exec "$program" "$@") < "$here/stdin" > "$here/out" 2> "$here/err" || status=$?
    wrong=
    [ "$status" = "$(cat "$run/status" 2> /dev/null || echo 0)" ] || wrong="$wrong status $status"
    cmp -s "$here/out" "$here/stdout" || wrong="$wrong out"
    [ "$(head -n 1 "$here/err")" = "$(cat "$here/stderr")" ] || wrong="$wrong err"
    result "$name" "$wrong"
done
cluster=$work/cluster
cp -r "$top/examples/cluster" "$cluster"
for printed in run show decide; do # the events are run, and then the namespace `default` is shown and decided
    set -- "$printed"
    [ "$printed" = run ] || set -- "$printed" default
    wrong=
    (cd "$cluster" && exec "$program" "$@") < "$cluster/events.json" > "$work/out" || wrong=" status $?"
    cmp -s "$work/out" "$cluster/$printed.txt" || wrong="$wrong out"
    result "cluster $printed" "$wrong"
done
bytes_of_spaces() { # that many spaces are a stream without blobs, up to the limit of the input
    status=0
    head -c "$1" /dev/zero | tr '\0' ' ' | "$program" check @ > "$work/out" 2> "$work/err" || status=$?
    wrong=
    [ "$status $(cat "$work/out")$(cat "$work/err")" = "$2" ] || wrong=" $status $(cat "$work/out" "$work/err")"
    result "$1 bytes" "$wrong"
}
bytes_of_spaces 67108864 "0 packages 0 channels 0 bundles 0"
bytes_of_spaces 67108865 "8 olmctl: limit 67108864"
if [ -c /dev/full ]; then
    status=0
    "$program" resolve @ argo stable < "$top/examples/argo.json" > /dev/full 2> "$work/err" || status=$?
    wrong=
    [ "$status $(cat "$work/err")" = "4 olmctl: output failed" ] || wrong=" $status $(cat "$work/err")"
    result "full output" "$wrong"
fi
echo "$passed passed, $failed failed"
[ "$failed" = 0 ]

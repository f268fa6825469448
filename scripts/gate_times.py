#!/usr/bin/env python3
"""Tells when a run of `rt ci` came to what, from its log with the time before each line, as `HH:MM:SS line`.

Such a log is made by `rt ci 2>&1 | while IFS= read -r line; do echo "$(date +%T) $line"; done > LOG`.

    gate_times.py LOG BEGIN [CRATES]

BEGIN is the time at which the run began. For each proof of a crate or of its tests, and for its edits: when the last of its
libraries was proved (for edits the crate itself), when it was done, and the time between, in minutes and seconds. A proof took
no longer than that time; how much of it it waited for a free processor the log doesn't tell, since it has the lines of a proof
when it is done. Then when tests and programs were run, and the chain of crates that ended last: the crate that was proved last,
the library of it that was proved last, and so on down.
"""
import pathlib
import re
import sys

PROVED = re.compile(r"^rt: (\w+) proved$")
KEPT = re.compile(r"^rt: (\w+) is kept:")
TESTS = re.compile(r"^rt: (\w+): its tests are proved$")
EDIT = re.compile(r"^rt: must-fail (\w+)/")
OTHERS = {"tests run": re.compile(r"^rt: (\w+): its tests passed$"), "run": re.compile(r"^rt: (\w+) ran, ")}


def seconds(clock):
    hours, minutes, rest = clock.split(":")
    return int(hours) * 3600 + int(minutes) * 60 + int(rest)


def shown(time):
    return f"{time // 60}:{time % 60:02}"


def read_crates(path):
    """The libraries of this repository that each crate lists."""
    listed = {}
    for line in pathlib.Path(path).read_text().split("\n"):
        name, colon, libraries = line.split("#")[0].partition(":")
        if colon:
            listed[name.split()[0]] = libraries.split()
    return {name: [library for library in libraries if library in listed] for name, libraries in listed.items()}


def read_log(path, begin):
    """When each proof ended, by the crate and what was proved, and when else something was told of a crate."""
    ends, others = {}, []
    for line in pathlib.Path(path).read_text(errors="replace").split("\n"):
        clock, _, told = line.partition(" ")
        if not re.match(r"^\d\d:\d\d:\d\d$", clock):
            continue
        time = (seconds(clock) - begin) % 86400
        if found := KEPT.match(told):
            ends[found[1], "crate"] = 0
        for form, what in ((PROVED, "crate"), (TESTS, "tests"), (EDIT, "edits")):
            if found := form.match(told):
                ends[found[1], what] = time
        for what, form in OTHERS.items():
            if found := form.match(told):
                others.append((found[1], what, time))
    return ends, others


def ready_time(crates, ends, job):
    """When the last of its libraries was proved; for edits the crate itself."""
    below = [job[0]] if job[1] == "edits" else crates.get(job[0], [])
    return max((ends.get((name, "crate"), 0) for name in below), default=0)


def last_chain(crates, ends):
    """The crate that was proved last, before it the library of it that was proved last, and so on."""
    proved = {name: time for (name, what), time in ends.items() if what == "crate"}
    chain = [max(proved, key=proved.get)]
    while libraries := [library for library in crates.get(chain[0], []) if proved.get(library, 0) > 0]:
        chain.insert(0, max(libraries, key=proved.get))
    return [(name, proved[name]) for name in chain]


def main():
    log, begin = sys.argv[1], seconds(sys.argv[2])
    here = pathlib.Path(__file__).parent.parent
    crates = read_crates(sys.argv[3] if len(sys.argv) > 3 else here / "crates.txt")
    ends, others = read_log(log, begin)
    print(f"{'crate':18} {'what':6} {'ready':>6} {'done':>6} {'at most':>8}")
    for job in sorted((job for job in ends if ends[job]), key=ends.get):
        ready = ready_time(crates, ends, job)
        print(f"{job[0]:18} {job[1]:6} {shown(ready):>6} {shown(ends[job]):>6} {shown(ends[job] - ready):>8}")
    print("kept:", ", ".join(name for name, what in ends if not ends[name, what]))
    for name, what, time in others:
        print(f"{name}: {what} {shown(time)}")
    before = 0
    for name, time in last_chain(crates, ends):
        print(f"chain that ended last: {name} {shown(time)}, {shown(time - before)} after the one before")
        before = time


main()

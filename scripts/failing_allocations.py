#!/usr/bin/env python3
"""Runs the built program once for each of its allocations, which fails, over each run of examples/runs, until a run passes.

usage: scripts/failing_allocations.py [PROGRAM] [NAME ..]

Wanted: each run ends with the status and the output that it has with ample memory, or with status 5, the line `olmctl: out of
memory` or none, and a front of that output; also where every later allocation fails too. It prints for each run how many
allocations were tried, and each answer that isn't as wanted. It builds scripts/failing_allocations.c with cc.
"""
import os
import pathlib
import shutil
import subprocess
import sys
import tempfile

top = pathlib.Path(__file__).resolve().parent.parent
program = sys.argv[1] if len(sys.argv) > 1 else str(top / "crates/olmctl/out/olmctl")
runs = sorted((top / "examples/runs").iterdir())
if len(sys.argv) > 2:
    runs = [run for run in runs if run.name in sys.argv[2:]]
work = pathlib.Path(tempfile.mkdtemp())
shim = work / "failing.so"
subprocess.run(["cc", "-O2", "-shared", "-fPIC", "-o", shim, top / "scripts/failing_allocations.c", "-ldl"], check=True)


def content(run, name):
    path = run / name
    return path.read_bytes() if path.exists() else b""


def tried(run, folder, file, at, later):
    # each try begins with the same cluster file, or without one
    (folder / "cluster.olm").unlink(missing_ok=True)
    if file is not None:
        (folder / "cluster.olm").write_bytes(file)
    environment = {"LD_PRELOAD": str(shim), "FAIL_AT": str(at), "COUNT_TO": str(work / "count")}
    if later:
        environment["FAIL_ALL"] = "1"
    words = content(run, "args").decode().split("\n")[:-1]
    ran = subprocess.run([program] + words, input=content(run, "stdin"), capture_output=True, timeout=60, cwd=folder, env=environment)
    return ran.returncode, ran.stdout, ran.stderr


total = wrong = 0
for run in runs:
    folder = work / run.name
    folder.mkdir()
    if (run / "data").exists():
        shutil.copytree(run / "data", folder, dirs_exist_ok=True)
    if (run / "before").exists():
        subprocess.run([program, "run"], input=content(run, "before"), capture_output=True, timeout=60, cwd=folder)
    file = (folder / "cluster.olm").read_bytes() if (folder / "cluster.olm").exists() else None
    right = tried(run, folder, file, 0, False)
    count = int((work / "count").read_text())
    memory = 0
    for later in (False, True):
        for at in range(1, count + 1):
            answer = tried(run, folder, file, at, later)
            total += 1
            memory += answer[0] == 5
            is_front = right[1].startswith(answer[1]) and answer[2] in (b"", b"olmctl: out of memory\n")
            # clap's text may follow the line of the words, and is left away where memory runs out
            is_same = answer[:2] == right[:2] and (answer[2] == right[2] or (right[0] == 2 and right[2].startswith(answer[2])))
            if not (is_same or (answer[0] == 5 and is_front)):
                wrong += 1
                print("%s at %d%s: %r" % (run.name, at, " and later" if later else "", answer))
    print("%s: %d allocations, %d answers of want of memory" % (run.name, count, memory), flush=True)
shutil.rmtree(work)
print("%d runs, %d not as wanted" % (total, wrong))
sys.exit(wrong != 0)

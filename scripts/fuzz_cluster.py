#!/usr/bin/env python3
"""Runs random lists of a user's events over a cluster file, and compares the program with the model of cluster_model.py.

usage: scripts/fuzz_cluster.py [PROGRAM] [LISTS] [SEED]

Each list is divided over several runs on the same file. Compared: the status and every line of `run`; every byte of the cluster
file; the lines of `show` of each namespace; the answer of `decide`, whose certificate is checked by model.py against the model's
problem; and that neither `show` nor `decide` changes the file. It prints its seed, its counts and each difference.
"""
import collections
import json
import pathlib
import random
import subprocess
import sys
import tempfile

import cluster_model as m
import cluster_rows as rows
import model

top = pathlib.Path(__file__).resolve().parent.parent
program = sys.argv[1] if len(sys.argv) > 1 else str(top / "crates/olmctl/out/olmctl")
lists = int(sys.argv[2]) if len(sys.argv) > 2 else 200
seed = int(sys.argv[3]) if len(sys.argv) > 3 else 20261202
dice = random.Random(seed)

# --- the file --------------------------------------------------------------------------------------------------------------------------

STATUSES = [m.Plain, m.CatalogSource, m.Subscription, m.Csv, m.Deployment, m.Plan, m.Resolution, m.Strategy, m.Group, m.Claims, m.Lease]
WRITERS = ["User", "Resolver", "Installer", "Phases"]
STATES = ["None", "UpgradeAvailable", "UpgradePending", "AtLatestKnown"]
PHASES = ["None", "Pending", "InstallReady", "Installing", "Succeeded", "Failed", "Replacing", "Deleting"]


def number(n):
    return (n % 2 ** 64).to_bytes(8, "big")


def text(t):
    data = t if isinstance(t, bytes) else t.encode()
    return number(len(data)) + data


def option(value, spell):
    return b"\0" if value is None else b"\1" + spell(value)


def many(items, spell):
    return number(len(items)) + b"".join(spell(item) for item in items)


def spec(s):
    return text(s.package) + option(s.channel, text) + text(s.source) + text(s.source_namespace) + option(s.starting, text) + bytes([s.manual])


def crd(c):
    return b"".join(text(part) for part in c)


def outcome(o):
    assert o == ("Nothing",), "a user writes no other outcome"
    return b"\0"


def status(s):
    kind = bytes([STATUSES.index(type(s))])
    if isinstance(s, m.CatalogSource):
        return kind + number(s.priority)
    if isinstance(s, m.Subscription):
        return kind + spec(s.spec) + bytes([STATES.index(s.state)])
    if isinstance(s, m.Csv):
        return (kind + option(s.package, text) + text(s.version) + many(s.owned, crd) + many(s.needed, crd) + many(s.deployments, text)
                + option(s.replaces, text) + bytes([PHASES.index(s.phase)]))
    if isinstance(s, m.Deployment):
        return kind + bytes([["Waiting", "Ready", "Failed"].index(s.readiness)])
    if isinstance(s, m.Strategy):
        return kind + bytes([s.forward])
    if isinstance(s, m.Group):
        return kind + option(s.targets, lambda targets: many(targets, text))
    if isinstance(s, m.Resolution):
        assert s.basis == ((), (), ()), "a user's resolution rests on nothing"
        return kind + number(s.number) + number(s.budget) + bytes([s.again]) + number(0) * 3 + outcome(s.outcome) + number(0)
    return kind


def spelled(write):
    k, o = write.key, write.object
    found = bytes([WRITERS.index(write.by)]) + number(write.expect) + b"".join(text(part) for part in k)
    if o is None:
        return found + b"\0"
    assert o.stamp is None
    return found + b"\1" + text(o.body) + status(o.status) + option(o.owner, text) + b"\0" + number(o.seen)


def file_of(history):
    records = b"".join(b"\1" + text(spelled(write)) for write in history.writes)
    return b"OLMLOG01" + records + b"\0"


# --- events ----------------------------------------------------------------------------------------------------------------------------

NAMESPACES = ["default", "n1", "olm"]
FOLDER = dict(rows.FOLDER, broken={"broken/a.json": rows.package("argo", "none", rows.argo("1.0.0")).replace(b'"defaultChannel": "none"', b'"defaultChannel": "x"')}, empty={})


def some_object():
    kind = dice.choice(["Subscription", "ClusterServiceVersion", "Deployment", "CustomResourceDefinition", "ConfigMap", "InstallPlan", "CatalogSource", "Strategy", "OperatorGroup", "Claims", "Lease"])
    api = {"Deployment": "apps/v1", "Strategy": "olmctl.local/v1", "Claims": "olmctl.local/v1", "Lease": "olmctl.local/v1", "CustomResourceDefinition": "apiextensions.k8s.io/v1", "ConfigMap": "v1"}.get(kind, "operators.coreos.com/v1alpha1")
    metadata = {"name": dice.choice(["a", "b", "argo", "argo.v1.0.0", "argo-operator"])}
    if dice.random() < 0.6:
        metadata["namespace"] = dice.choice(NAMESPACES)
    body = {"apiVersion": api, "kind": kind, "metadata": metadata}
    if kind == "Subscription":
        body["spec"] = {"name": dice.choice(["argo", "db", "web"]), "source": dice.choice(["cat", "low", "high"]), "sourceNamespace": "olm"}
        if dice.random() < 0.3:
            body["spec"]["channel"] = "stable"
        if dice.random() < 0.3:
            body["spec"]["installPlanApproval"] = dice.choice(["Manual", "Automatic", "Never"])
        if dice.random() < 0.2:
            body["spec"]["startingCSV"] = dice.choice(["argo.v1.0.0", "nothing"])
    if kind == "ClusterServiceVersion":
        body["spec"] = {"version": dice.choice(["1.0.0", "x"]), "customresourcedefinitions": {"owned": [rows.CRD_REF]}}
        if dice.random() < 0.3:
            body["spec"]["replaces"] = dice.choice(["argo.v1.0.0", "a", "b"])
        if dice.random() < 0.3:
            body["spec"]["install"] = {"spec": {"deployments": [{"name": "argo-operator"}, {"name": ""}][: dice.randrange(1, 3)]}}
    if kind == "Strategy":
        metadata["name"] = dice.choice(["strategy", "strategy", "a"])
        body["spec"] = dice.choice([{}, None, {"upgradeStrategy": ""}, {"upgradeStrategy": "Default"}, {"upgradeStrategy": "TechPreviewUnsafeFailForward"}, {"upgradeStrategy": "x"}])
    if kind == "OperatorGroup":
        body["spec"] = dice.choice([{}, None, {"targetNamespaces": dice.choices(NAMESPACES, k=dice.randrange(4))}, {"targetNamespaces": None, "selector": None, "upgradeStrategy": 1},
                                    {"targetNamespaces": ["a", ""], "selector": {}}, {"selector": {}}])
    if dice.random() < 0.05:
        del body[dice.choice(["apiVersion", "metadata"])]
    if dice.random() < 0.05:
        body["apiVersion"] = "other/v1"
    return body


def some_event():
    word = dice.choice(["apply"] * 6 + ["delete", "approve", "catalog", "catalog", "ready", "retry", "restart", "release"])
    namespace = dice.choice(NAMESPACES)
    if word == "apply":
        return some_object()
    if word == "delete":
        kind = dice.choice([("apps", "Deployment"), ("", "ConfigMap"), (m.CORE, "Subscription"), (m.OWN, "Resolution"), (m.CORE, "CatalogSource"),
                            (m.OWN, "Strategy"), (m.CORE, "OperatorGroup"), (m.OWN, "Claims"), (m.OWN, "Lease")])
        return {"event": word, "group": kind[0], "kind": kind[1], "namespace": namespace, "name": dice.choice(["a", "b", "argo", "cat"])}
    if word in ("approve", "ready"):
        event = {"event": word, "namespace": namespace, "name": dice.choice(["install-1", "argo-operator", "a"])}
        return dict(event, state=dice.choice(["ready", "failed"])) if word == "ready" else event
    if word == "catalog":
        event = {"event": word, "namespace": "olm", "name": dice.choice(["cat", "low", "high"]), "path": dice.choice(sorted(FOLDER))}
        return dict(event, priority=dice.randrange(-3, 4)) if dice.random() < 0.5 else event
    if word == "retry":
        return dict({"event": word, "namespace": namespace}, **({"budget": dice.randrange(1, 50)} if dice.random() < 0.5 else {}))
    if word == "release":
        return {"event": word, "namespace": namespace}
    return {"event": word}


# --- one list --------------------------------------------------------------------------------------------------------------------------


def call(place, words, given=b""):
    done = subprocess.run([program] + words, cwd=place, input=given, capture_output=True, timeout=60)
    return done.returncode, done.stdout.decode(), done.stderr.decode()


def decided(history, namespace):
    """The lines that stand before the certificate, the status, and the problem."""
    view = history.view(namespace)
    problem, names, takens = m.problem_of(view)
    walk = model.best_walk(problem)
    if walk is None:
        return ["refused"], 1, problem
    picks = model.walk(problem, walk)[0][sum((model.MANDATORY,) in c for c in problem):]
    lines = ["chosen"]
    for pick in picks:
        form, name = names[pick]
        if form == "tip":
            lines.append("keep %s" % name)
        else:
            t = takens[name]
            lines.append("take %s/%s %s %s %s %s" % (t.catalog_namespace, t.catalog, t.package, t.channel, t.name, t.version))
    return lines, 0, problem


def differences(place):
    run, found = m.Run(FOLDER), []
    for _ in range(dice.randrange(1, 4)):
        events = [some_event() for _ in range(dice.randrange(0, 12))]
        before = len(run.lines)
        run.apply_all(events)
        given = "".join(json.dumps(e, separators=(",", ":")) + dice.choice(["", " ", "\n"]) for e in events).encode()
        wanted = (0, "".join(line + "\n" for line in run.lines[before:]), "")
        got = call(place, ["run"], given)
        if got != wanted:
            found.append(("run", given, wanted, got))
        if (place / "cluster.olm").read_bytes() != file_of(run.history):
            found.append(("file after run", given))
            return found
    for namespace in NAMESPACES + ["nothing"]:
        got, wanted = call(place, ["show", namespace]), (0, "".join(line + "\n" for line in run.show(namespace)), "")
        if got != wanted:
            found.append(("show", namespace, wanted, got))
        lines, code, problem = decided(run.history, namespace)
        got = call(place, ["decide", namespace])
        printed = got[1].split("\n")
        at = next((i for i, line in enumerate(printed) if line.startswith("certificate")), 0)
        verdict = model.verdict_of(problem, "\n".join(printed[at:]))
        kinds[lines[0]] += 1
        if printed[:at] != lines or got[0] != code or not verdict.startswith("accepted " + lines[0]):
            found.append(("decide", namespace, lines, code, got, verdict))
    if (place / "cluster.olm").read_bytes() != file_of(run.history):
        found.append(("file after show and decide",))
    kinds["writes"] += len(run.history)
    kinds["refused events"] += sum(" refused " in line for line in run.lines)
    return found


kinds, wrong = collections.Counter(), 0
print("seed %d" % seed)
for index in range(lists):
    with tempfile.TemporaryDirectory() as work:
        place = pathlib.Path(work)
        for files in FOLDER.values():
            for path, data in files.items():
                (place / path).parent.mkdir(exist_ok=True)
                (place / path).write_bytes(data)
        (place / "empty").mkdir()
        for difference in differences(place):
            wrong += 1
            print("list %d differs: %r" % (index, difference))
print("%d lists, %d differences; %s" % (lists, wrong, ", ".join("%d %s" % (n, k) for k, n in sorted(kinds.items()))))
sys.exit(1 if wrong else 0)

#!/usr/bin/env python3
"""Prints worked runs of a cluster by the model of cluster_model.py, write by write: the lines of a run, each write that a settle
makes, and what stands in the end. docs/controller-rows.md has them worked by hand.

usage: scripts/cluster_rows.py [ROW]      without ROW all of them; ends with 1 where a line isn't the wanted one
"""
import base64
import json
import sys

import cluster_model as m

CRD = {"apiVersion": "apiextensions.k8s.io/v1", "kind": "CustomResourceDefinition", "metadata": {"name": "apps.argo.io"}}
CRD_REF = {"name": "apps.argo.io", "version": "v1", "kind": "App"}


def csv(name, **more):
    spec = {"customresourcedefinitions": {"owned": [CRD_REF]}, "install": {"spec": {"deployments": [{"name": "argo-operator"}]}}, **more}
    return {"apiVersion": "operators.coreos.com/v1alpha1", "kind": "ClusterServiceVersion", "metadata": {"name": name}, "spec": spec}


def blob(value):
    return {"type": "olm.bundle.object", "value": {"data": base64.b64encode(json.dumps(value).encode()).decode()}}


def bundle(package, name, objects=(), needs=(), gives=()):
    properties = [{"type": "olm.package", "value": {"packageName": package, "version": name.split(".v")[1]}}]
    properties += [{"type": "olm.gvk", "value": {"group": "argo.io", "version": "v1", "kind": kind}} for kind in gives]
    properties += [{"type": "olm.package.required", "value": {"packageName": p, "versionRange": r}} for p, r in needs]
    return {"schema": "olm.bundle", "package": package, "name": name, "image": "q/" + name, "properties": properties + [blob(o) for o in objects]}


def package(name, channel, *bundles):
    entries = [{"name": b["name"], **({"replaces": below["name"]} if below else {})} for b, below in zip(bundles, bundles[1:] + (None,))]
    blobs = [{"schema": "olm.package", "name": name, "defaultChannel": channel}]
    blobs += [{"schema": "olm.channel", "package": name, "name": channel, "entries": entries}, *bundles]
    return "".join(json.dumps(b) + "\n" for b in blobs).encode()


def argo(version):
    name = "argo.v" + version
    return bundle("argo", name, (CRD, csv(name)), gives=("App",))


FOLDER = {
    "one": {"one/a.json": package("argo", "stable", argo("1.0.0"))},
    "two": {"two/a.json": package("argo", "stable", argo("1.2.0"), argo("1.0.0"))},
    "three": {"three/a.json": package("argo", "stable", argo("1.3.0"), argo("1.2.0"), argo("1.0.0"))},
    "low": {"low/a.json": package("db", "stable", bundle("db", "db.v1.0.0", (csv("db.v1.0.0"),)))
            + package("web", "stable", bundle("web", "web.v1.0.0", (csv("web.v1.0.0"),), needs=(("db", ">=0.0.0"),)))},
    "high": {"high/a.json": package("db", "stable", bundle("db", "db.v5.0.0", (csv("db.v5.0.0"),)))},
}


def subscription(name="argo", source="cat", manual=False):
    spec = {"name": name, "source": source, "sourceNamespace": "olm", **({"installPlanApproval": "Manual"} if manual else {})}
    return {"apiVersion": "operators.coreos.com/v1alpha1", "kind": "Subscription", "metadata": {"name": name}, "spec": spec}


def catalog(path, name="cat", **more):
    return {"event": "catalog", "namespace": "olm", "name": name, "path": path, **more}


def ready(state="ready", name="argo-operator"):
    return {"event": "ready", "namespace": "default", "name": name, "state": state}


def event(word, **fields):
    return {"event": word, **fields}


SETTLE = event("settle", namespace="default")
APPROVE = event("approve", namespace="default", name="install-1")
FIRST = [catalog("one"), subscription(), SETTLE]
UPGRADE = FIRST + [ready(), SETTLE, catalog("two"), SETTLE, ready(), SETTLE]
UPGRADE_LINES = [
    "catalog olm/cat version 1", "apply operators.coreos.com/Subscription/default/argo version 2", "settle default 16 quiet",
    "ready default/argo-operator version 19", "settle default 2 quiet", "catalog olm/cat version 22", "settle default 14 quiet",
    "ready default/argo-operator version 37", "settle default 4 quiet",
]
CRD_KEY = m.key("apiextensions.k8s.io", "CustomResourceDefinition", "", "apps.argo.io")
PLAN = "operators.coreos.com/InstallPlan/default/install-1"


def row_upgrade():
    run = m.Run(FOLDER)
    run.apply_all(UPGRADE)
    return run, UPGRADE_LINES, [
        "apps/Deployment/default/argo-operator version 37 Ready", "olmctl.local/Resolution/default/current version 39 Chosen",
        "operators.coreos.com/ClusterServiceVersion/default/argo.v1.2.0 version 38 Succeeded",
        PLAN + " version 12 Complete", "operators.coreos.com/InstallPlan/default/install-4 version 30 Complete",
        "operators.coreos.com/Subscription/default/argo version 18 AtLatestKnown",
    ]


def row_forward_upgrade():
    run = m.Run(FOLDER)
    strategy = {"apiVersion": "olmctl.local/v1", "kind": "Strategy", "metadata": {"name": "strategy"}, "spec": {"upgradeStrategy": "TechPreviewUnsafeFailForward"}}
    run.apply_all(UPGRADE[:7] + [ready("failed"), SETTLE, catalog("three"), SETTLE, strategy, SETTLE, ready(), SETTLE])
    return run, UPGRADE_LINES[:7] + [
        "ready default/argo-operator version 37", "settle default 1 quiet", "catalog olm/cat version 39", "settle default 2 quiet",
        "apply olmctl.local/Strategy/default/strategy version 42", "settle default 15 quiet", "ready default/argo-operator version 58",
        "settle default 6 quiet",
    ], None


def row_manual_approval():
    run = m.Run(FOLDER)
    run.apply_all([catalog("one"), subscription(manual=True), SETTLE, APPROVE, APPROVE, SETTLE])
    return run, [
        "catalog olm/cat version 1", "apply operators.coreos.com/Subscription/default/argo version 2", "settle default 3 quiet",
        "approve default/install-1 version 6", "approve default/install-1 refused not-waiting", "settle default 14 quiet",
    ], None


def row_resolver_by_hand():
    run, look, act = m.Run(FOLDER), event("look", worker=0), event("act", worker=0)
    run.apply_all(FIRST[:2] + [event("worker", role="resolver", namespace="default"), look, act, act, look, act])
    return run, UPGRADE_LINES[:2] + [
        "worker 0", "look 0 at 2", "act 0 put olmctl.local/Resolution/default/current version 3", "act 0 conflict 3", "look 0 at 3",
        "act 0 put %s version 4" % PLAN,
    ], None


def after_four():
    return row_resolver_by_hand()[0].history


def row_installer_by_hand():
    run, look, act = m.Run(FOLDER, after_four()), event("look", worker=0), event("act", worker=0)
    run.apply_all([event("worker", role="installer", namespace="default")] + [look, act] * 3)
    return run, [
        "worker 0", "look 0 at 4", "act 0 put %s version 5" % PLAN, "look 0 at 5", "act 0 put %s version 6" % PLAN, "look 0 at 6",
        "act 0 put %s version 7" % m.printed(CRD_KEY),
    ], None


def after_six():
    run = m.Run(FOLDER, after_four())
    run.apply_all([event("worker", role="installer", namespace="default")] + [event("look", worker=0), event("act", worker=0)] * 2)
    return run.history


def row_lost_answer():
    run, look, act = m.Run(FOLDER, after_six(), lose={0: True}.items()), event("look", worker=0), event("act", worker=0)
    delete = event("delete", group="apiextensions.k8s.io", kind="CustomResourceDefinition", namespace="", name="apps.argo.io")
    run.apply_all([event("worker", role="installer", namespace="default"), look, act, delete, event("restart"), look, act, look, act])
    return run, [
        "worker 0", "look 0 at 6", "act 0 fault", "delete %s version 8" % m.printed(CRD_KEY), "restart", "look 0 at 8",
        "act 0 put %s version 9" % PLAN, "look 0 at 9", "act 0 put %s version 10" % PLAN,
    ], None


def row_stale_installer():
    run = m.Run(FOLDER, after_six())
    roles = [event("worker", role=r, namespace="default") for r in ("installer", "installer", "resolver", "resolver")]
    run.apply_all(roles + [event("look", worker=w) for w in (0, 1, 2)] + [event("act", worker=w) for w in (0, 1, 2, 3)])
    return run, ["worker %d" % w for w in range(4)] + ["look %d at 6" % w for w in range(3)] + [
        "act 0 put %s version 7" % m.printed(CRD_KEY), "act 1 conflict 7", "act 2 idle", "act 3 no-view",
    ], None


def row_unsettled():
    run = m.Run(FOLDER)
    run.apply_all(FIRST[:2] + [event("settle", namespace="default", turns=5)])
    return run, UPGRADE_LINES[:2] + ["settle default 5 unsettled"], None


def row_two_catalogs():
    run = m.Run(FOLDER)
    run.apply_all([catalog("low", "low"), catalog("high", "high", priority=10), subscription("web", "low"), event("settle", namespace="default", turns=2)])
    steps = [s.key[3] for s in run.present(m.key(*m.KINDS[m.Plan], "default", "install-1")).status.steps]
    assert steps[0] == "db-stable-low-olm", steps
    return run, [
        "catalog olm/low version 1", "catalog olm/high version 2", "apply operators.coreos.com/Subscription/default/web version 3",
        "settle default 2 unsettled",
    ], None


def group(namespace, targets):
    spec = {"targetNamespaces": targets} if targets else {}
    return {"apiVersion": "operators.coreos.com/v1", "kind": "OperatorGroup", "metadata": {"name": "g", "namespace": namespace}, "spec": spec}


def placed_csv(namespace, name, modes):
    body = csv(name, installModes=modes)
    body["metadata"]["namespace"] = namespace
    return body


ALL_MODES = [{"type": t, "supported": True} for t in ("OwnNamespace", "SingleNamespace", "MultiNamespace", "AllNamespaces")]


def row_two_claims():
    run = m.Run(FOLDER)
    run.apply_all([CRD, group("n1", ["t"]), group("n2", None), placed_csv("n1", "a.v1.0.0", ALL_MODES), placed_csv("n2", "b.v1.0.0", ALL_MODES),
                   event("settle", namespace="n1")])
    entries = run.present(m.CLAIMS_KEY).status.entries
    assert entries == ((("argo.io", "v1", "App"), "n1", ("t",)),), entries
    run.apply_all([event("settle", namespace="n2")])
    assert run.present(m.CLAIMS_KEY).status.entries == entries
    assert run.present(m.key(*m.KINDS[m.Csv], "n2", "b.v1.0.0")).status.phase == "Pending"
    run.apply_all([event("release", namespace="n1"), event("settle", namespace="n2")])
    assert run.present(m.CLAIMS_KEY).status.entries == ((("argo.io", "v1", "App"), "n2", None),)
    return run, None, None


def row_unsupported_mode():
    run = m.Run(FOLDER)
    modes = [{"type": "MultiNamespace", "supported": False}]
    run.apply_all([CRD, group("default", ["t", "u"]), placed_csv("default", "a.v1.0.0", modes), SETTLE])
    assert run.present(m.key(*m.KINDS[m.Csv], "default", "a.v1.0.0")).status.phase == "Failed"
    return run, None, None


def row_two_leases():
    run = m.Run(FOLDER)
    lease = lambda worker, now: event("lease", worker=worker, now=now, keep=10)
    run.apply_all([event("worker", role="installer", namespace="default")] * 2 + [
        lease(0, 100), lease(1, 105), event("look", worker=0), lease(1, 200), event("act", worker=0), event("look", worker=1), event("act", worker=1),
        event("restart"), lease(1, 205), event("look", worker=1), event("act", worker=1), lease(1, 210),
    ])
    return run, [
        "worker 0", "worker 1", "lease 0 term 1 until 110", "lease 1 refused held 110", "look 0 at 1", "lease 1 term 2 until 210",
        "act 0 stale 2", "look 1 at 2", "act 1 idle", "restart", "lease 1 refused held 210", "look 1 at 2", "act 1 stale 2",
        "lease 1 term 3 until 220",
    ], None


ROWS = {name[4:].replace("_", " "): function for name, function in list(globals().items()) if name.startswith("row_")}


def told(write, version):
    """A write in one line: who, the key, the version, and the word of what is there then, with the step states of a plan."""
    if write.object is None:
        return "%d %s removes %s" % (version, write.by, m.printed(write.key))
    status = write.object.status
    more = ""
    if isinstance(status, m.Plan):
        states = [s.state if isinstance(s.state, str) else "Aimed %d" % s.state[1] for s in status.steps]
        more = " [%s]" % ", ".join(states)
    if write.object.stamp:
        more += " step %d of plan %d" % (write.object.stamp[2], write.object.stamp[1])
    return "%d %s puts %s: %s%s" % (version, write.by, m.printed(write.key), status.word, more)


def main():
    wrong = False
    for name in sys.argv[1:] or ROWS:
        run, lines, shown = ROWS[name]()
        print("== %s" % name)
        print("\n".join(run.lines))
        print("\n".join("  " + told(write, place + 1) for place, write in enumerate(run.history.writes)))
        for found, wanted in ((run.lines, lines), (run.show("default"), shown)):
            if wanted is not None and found != wanted:
                wrong = True
                print("WRONG: wanted")
                print("\n".join(wanted))
                print("\n".join(found))
    return 1 if wrong else 0


if __name__ == "__main__":
    sys.exit(main())

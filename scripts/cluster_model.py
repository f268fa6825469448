"""A plain model of a cluster and of the controller over it: objects, the history of writes, what a namespace sees, the problem of
a view, what each role may write, and runs of events with workers.

Written from the rules and not from any program: docs/objects.md, docs/histories.md, docs/view-basis.md, docs/problem.md,
docs/events.md, docs/runs.md and docs/controller.md. Catalogs are read by catalog_model.py; walks are those of model.py. A
certificate is no part of it: each accepted one is lawful, so a Resolution here keeps its outcome and no certificate.
"""
import copy
import json
from dataclasses import dataclass, field, replace
from typing import Optional

import catalog_model
import model

CORE = "operators.coreos.com"
OWN = "olmctl.local"
GLOBAL = ("olm", "openshift-marketplace")
LAST = 2 ** 64 - 1
BODY_LIMIT = 4194304
WITHOUT_NAMESPACE = ("CustomResourceDefinition", "ClusterRole", "ClusterRoleBinding", "PriorityClass")
UNDER_WAY = ("Planning", "RequiresApproval", "Installing")
CRD_GROUP = "apiextensions.k8s.io"


def in_bytes(value):
    """A value with each text as its bytes, by which names and texts are ordered."""
    return tuple(in_bytes(v) for v in value) if isinstance(value, tuple) else value.encode() if isinstance(value, str) else value


def key(group, kind, namespace, name):
    return (group, kind, namespace, name)


def printed(k):
    return "/".join(k)


# --- statuses --------------------------------------------------------------------------------------------------------------------------


@dataclass(frozen=True)
class Plain:
    word = "Plain"


@dataclass(frozen=True)
class CatalogSource:
    priority: int
    word = "Catalog"


@dataclass(frozen=True)
class Spec:
    package: str
    channel: Optional[str]
    source: str
    source_namespace: str
    starting: Optional[str]
    manual: bool


@dataclass(frozen=True)
class Subscription:
    spec: Spec
    state: str = "None"

    @property
    def word(self):
        return self.state


@dataclass(frozen=True)
class Csv:
    package: Optional[str]
    version: str
    owned: tuple
    needed: tuple
    deployments: tuple
    replaces: Optional[str]
    phase: str = "None"

    @property
    def word(self):
        return self.phase


@dataclass(frozen=True)
class Deployment:
    readiness: str = "Waiting"

    @property
    def word(self):
        return self.readiness


@dataclass(frozen=True)
class Step:
    key: tuple
    body: bytes
    made: object
    state: object = "Unknown"


@dataclass(frozen=True)
class Plan:
    number: int
    manual: bool
    approved: bool
    phase: str
    cause: object
    steps: tuple

    @property
    def word(self):
        return self.phase


@dataclass(frozen=True)
class Resolution:
    number: int
    budget: int
    again: bool
    basis: object
    outcome: tuple

    @property
    def word(self):
        return self.outcome[0]


@dataclass(frozen=True)
class Strategy:
    forward: bool
    word = "Strategy"


@dataclass(frozen=True)
class Group:
    targets: Optional[tuple]
    word = "Group"


@dataclass(frozen=True)
class Claims:
    entries: tuple
    word = "Claims"


@dataclass(frozen=True)
class Lease:
    term: int
    holder: int
    until: int
    word = "Lease"


KINDS = {
    Subscription: (CORE, "Subscription"), Csv: (CORE, "ClusterServiceVersion"), Plan: (CORE, "InstallPlan"),
    CatalogSource: (CORE, "CatalogSource"), Deployment: ("apps", "Deployment"), Resolution: (OWN, "Resolution"),
    Strategy: (OWN, "Strategy"), Group: (CORE, "OperatorGroup"), Claims: (OWN, "Claims"), Lease: (OWN, "Lease"),
}
CLAIMS_KEY = key(OWN, "Claims", "", "claims")


@dataclass(frozen=True)
class Object:
    body: bytes
    status: object
    owner: Optional[str] = None
    stamp: Optional[tuple] = None
    seen: int = 0


@dataclass(frozen=True)
class Slot:
    version: int
    object: Optional[Object]
    stamps: tuple = ()


@dataclass(frozen=True)
class Write:
    by: str
    expect: int
    key: tuple
    object: Optional[Object]


# --- bodies ----------------------------------------------------------------------------------------------------------------------------


class Refused(Exception):
    pass


def is_name(value, limit=253):
    return isinstance(value, str) and 1 <= len(value.encode()) <= limit and all(0x21 <= b <= 0x7E and b not in b'/"\\' for b in value.encode())


def is_group(value):
    return value == "" or is_name(value)


def optional(fields, name, path):
    value = fields.get(name)
    if value is None or value == "":
        return None
    if not is_name(value):
        raise Refused("bad-field %s.%s" % (path, name))
    return value


def required(fields, name, path):
    value = fields.get(name)
    if not is_name(value):
        raise Refused("bad-field %s.%s" % (path, name))
    return value


def inner(fields, name, path):
    """The object of a field around optional ones: nothing where it is absent."""
    value = fields.get(name)
    if value is None:
        return {}
    if not isinstance(value, dict):
        raise Refused("bad-field %s.%s" % (path, name))
    return value


def listed(fields, name, path):
    value = fields.get(name)
    if value is None:
        return []
    if not isinstance(value, list):
        raise Refused("bad-field %s.%s" % (path, name))
    return value


def spec_of(body):
    spec = body.get("spec")
    if not isinstance(spec, dict):
        raise Refused("bad-field .spec")
    package = required(spec, "name", ".spec")
    channel = optional(spec, "channel", ".spec")
    source = required(spec, "source", ".spec")
    source_namespace = required(spec, "sourceNamespace", ".spec")
    starting = optional(spec, "startingCSV", ".spec")
    approval = spec.get("installPlanApproval")
    if approval not in (None, "", "Automatic", "Manual"):
        raise Refused("bad-field .spec.installPlanApproval")
    return Spec(package, channel, source, source_namespace, starting, approval == "Manual")


def crds_of(fields, name, path):
    found = []
    for place, item in enumerate(listed(fields, name, path)):
        at = "%s.%s[%d]" % (path, name, place)
        if not isinstance(item, dict):
            raise Refused("bad-field " + at)
        found.append((required(item, "name", at), required(item, "version", at), required(item, "kind", at)))
    return tuple(found)


def csv_of(body):
    spec = inner(body, "spec", "")
    crds = inner(spec, "customresourcedefinitions", ".spec")
    owned = crds_of(crds, "owned", ".spec.customresourcedefinitions")
    needed = crds_of(crds, "required", ".spec.customresourcedefinitions")
    install = inner(inner(spec, "install", ".spec"), "spec", ".spec.install")
    deployments = []
    for place, item in enumerate(listed(install, "deployments", ".spec.install.spec")):
        at = ".spec.install.spec.deployments[%d]" % place
        if not isinstance(item, dict):
            raise Refused("bad-field " + at)
        deployments.append(required(item, "name", at))
    replaces = optional(spec, "replaces", ".spec")
    version = spec.get("version")
    if not isinstance(version, str) or catalog_model.version_of(version) is None:
        version = "0.0.0"
    return Csv(None, version, owned, needed, tuple(deployments), replaces)


def group_of(body):
    spec = inner(body, "spec", "")
    targets = []
    for place, name in enumerate(listed(spec, "targetNamespaces", ".spec")):
        if not is_name(name):
            raise Refused("bad-field .spec.targetNamespaces[%d]" % place)
        if name not in targets:
            targets.append(name)
    if spec.get("selector") is not None:
        raise Refused("bad-field .spec.selector")
    return Group(tuple(targets) if targets else None)


def strategy_of(body):
    word = inner(body, "spec", "").get("upgradeStrategy")
    if word not in (None, "", "Default", "TechPreviewUnsafeFailForward"):
        raise Refused("bad-field .spec.upgradeStrategy")
    return Strategy(word == "TechPreviewUnsafeFailForward")


USERS_FORBIDDEN = [KINDS[s] for s in (Plan, Resolution, CatalogSource, Claims, Lease)]
PLANS_FORBIDDEN = USERS_FORBIDDEN + [KINDS[s] for s in (Strategy, Group)]


def read_body(body, forbidden, plan_namespace=None):
    """The key and the status of a body, or Refused with its reason."""
    if len(body) > BODY_LIMIT:
        raise Refused("too-large %d" % len(body))
    try:
        value = json.loads(body)
    except ValueError:
        raise Refused("not-json")
    if not isinstance(value, dict):
        raise Refused("not-json")
    kind, api = value.get("kind"), value.get("apiVersion")
    if not is_name(kind) or not isinstance(api, str):
        raise Refused("no-kind")
    group, _, rest = api.rpartition("/") if api.count("/") <= 1 else (api.split("/", 1)[0], "/", api.split("/", 1)[1])
    if not is_group(group) or not is_name(rest):
        raise Refused("no-kind")
    metadata = value.get("metadata")
    if not isinstance(metadata, dict) or not is_name(metadata.get("name")):
        raise Refused("no-name")
    if (group, kind) in forbidden:
        raise Refused("forbidden " + kind)
    if kind in WITHOUT_NAMESPACE:
        namespace = ""
    elif plan_namespace is not None:
        namespace = plan_namespace
    else:
        namespace = optional(metadata, "namespace", ".metadata") or "default"
    readers = {
        KINDS[Subscription]: lambda: Subscription(spec_of(value)), KINDS[Csv]: lambda: csv_of(value),
        KINDS[Deployment]: Deployment, KINDS[Group]: lambda: group_of(value), KINDS[Strategy]: lambda: strategy_of(value),
    }
    return key(group, kind, namespace, metadata["name"]), readers.get((group, kind), Plain)()


# --- histories and views ---------------------------------------------------------------------------------------------------------------


class Conflict(Exception):
    pass


class History:
    def __init__(self):
        self.writes, self.states = [], [{}]

    def __len__(self):
        return len(self.writes)

    def slot(self, k):
        return self.states[-1].get(k, Slot(0, None))

    def append(self, write):
        if self.slot(write.key).version != write.expect:
            raise Conflict(self.slot(write.key).version)
        self.writes.append(write)
        old, state = self.slot(write.key), dict(self.states[-1])
        stamp = write.object.stamp if write.object else None
        state[write.key] = Slot(len(self.writes), write.object, old.stamps + ((stamp,) if stamp else ()))
        self.states.append(state)
        return len(self.writes)

    def view(self, namespace, length=None):
        length = len(self) if length is None else length
        visible = (namespace, "") + GLOBAL
        return View(namespace, length, {k: s for k, s in self.states[length].items() if k[2] in visible})


@dataclass
class View:
    namespace: str
    length: int
    slots: dict

    def slot(self, k):
        return self.slots.get(k, Slot(0, None))

    def at(self, status, name, namespace=None):
        """The object of a kind with this name, where it counts as one."""
        slot = self.slot(key(*KINDS[status], self.namespace if namespace is None else namespace, name))
        return slot.object if slot.object and isinstance(slot.object.status, status) else None

    def all(self, status, namespace=None):
        """(name, object) of each object of a kind in the namespace, by name."""
        namespace = self.namespace if namespace is None else namespace
        found = [(k[3], s.object) for k, s in self.slots.items() if k[:2] == KINDS[status] and k[2] == namespace
                 and s.object and isinstance(s.object.status, status)]
        return sorted(found, key=lambda item: item[0].encode())

    def has_crd(self, name):
        return self.slot(key(CRD_GROUP, "CustomResourceDefinition", "", name)).object is not None


# --- the problem of a view -------------------------------------------------------------------------------------------------------------


@dataclass(frozen=True)
class Tip:
    name: str
    package: Optional[str]
    version: str
    kinds: tuple
    succeeded: bool


@dataclass(frozen=True)
class Seen:
    namespace: str
    name: str
    priority: int
    version: int


@dataclass(frozen=True)
class Taken:
    catalog_namespace: str
    catalog: str
    package: str
    channel: str
    name: str
    version: str
    replaces: Optional[str]


def crd_kind(crd):
    return (crd[0].partition(".")[2], crd[1], crd[2])


def is_forward(view):
    strategy = view.at(Strategy, "strategy")
    return strategy is not None and strategy.status.forward


def may_be_upgraded(view, csv):
    return csv.phase == "Succeeded" or (csv.phase == "Failed" and is_forward(view))


def tips_of(view):
    csvs = view.all(Csv)
    replaced = [(name, csv.status.replaces) for name, csv in csvs]
    found = []
    for name, csv in csvs:
        if any(other != name and of == name for other, of in replaced):
            continue
        kinds = []
        for crd in csv.status.owned:
            if crd_kind(crd) not in kinds:
                kinds.append(crd_kind(crd))
        found.append(Tip(name, csv.status.package, csv.status.version, tuple(kinds), may_be_upgraded(view, csv.status)))
    return found


def catalogs_of(view):
    """The visible catalogs in their order, each with its catalog or None where its body is no valid one."""
    found = []
    for namespace in dict.fromkeys((view.namespace,) + GLOBAL):
        for name, source in view.all(CatalogSource, namespace):
            version = view.slot(key(*KINDS[CatalogSource], namespace, name)).version
            found.append((Seen(namespace, name, source.status.priority, version), valid_catalog(source.body)))
    return sorted(found, key=lambda item: (-item[0].priority, item[0].namespace.encode(), item[0].name.encode()))


CATALOGS = {}


def valid_catalog(body):
    if body not in CATALOGS:
        catalog = catalog_model.Catalog(body)
        CATALOGS[body] = None if catalog_model.broken(catalog) else catalog
    return CATALOGS[body]


def basis_of(view):
    return (
        tuple((name, sub.status.spec) for name, sub in view.all(Subscription)), tuple(tips_of(view)),
        tuple(seen for seen, _ in catalogs_of(view)),
    )


def entries_of(view):
    """(seen, catalog, package, channel, name) of each entry of the visible catalogs, in the order of entries."""
    found = []
    for seen, catalog in catalogs_of(view):
        for package in sorted((p["name"] for p in catalog.packages), key=str.encode) if catalog else []:
            default = catalog.default_channel(package)
            others = sorted((h["name"] for h in catalog.channels if h["package"] == package and h["name"] != default), key=str.encode)
            for channel in [default] + others:
                found += [(seen, catalog, package, channel, name) for name in catalog.order(package, channel)]
    return found


def tip_version(tip):
    return catalog_model.version_of(tip.version) or (0, 0, 0, None)


def channel_of(view, spec):
    """(seen, catalog, channel) of a subscription, or None where its catalog isn't visible or has no such package."""
    for seen, catalog in catalogs_of(view):
        if (seen.namespace, seen.name) == (spec.source_namespace, spec.source) and catalog:
            channel = spec.channel or catalog.default_channel(spec.package)
            if channel is not None and catalog.channel(spec.package, channel) is not None:
                return seen, catalog, channel
    return None


def upgrades_of(view, spec, installed):
    found = channel_of(view, spec)
    if found is None or installed is None:
        return []
    seen, catalog, channel = found
    return [(seen.namespace, seen.name, spec.package, channel, name) for name in catalog.upgrades(spec.package, channel, installed.name, tip_version(installed))]


def problem_of(view):
    """The constraints of each variable and what each variable stands for."""
    tips, entries, subs = tips_of(view), entries_of(view), view.all(Subscription)
    ids = [(seen.namespace, seen.name, package, channel, name) for seen, _, package, channel, name in entries]
    offers = []
    for seen, catalog, package, channel, name in entries:
        bundle = catalog.bundle(package, name)
        offers.append((package, catalog_model.version_of(catalog.version_text(package, name)), catalog_model.kinds_of(bundle)))
    tip_offers = [(tip.package, tip_version(tip), list(tip.kinds)) for tip in tips]
    installed = [next((t for t in tips if t.package == sub.status.spec.package), None) for _, sub in subs]

    candidates = []
    for (name, sub), tip in zip(subs, installed):
        spec, found = sub.status.spec, channel_of(view, sub.status.spec)
        in_channel = []
        if found:
            seen, catalog, channel = found
            in_channel = [ids.index((seen.namespace, seen.name, spec.package, channel, n)) for n in catalog.order(spec.package, channel)]
        if tip is None:
            chosen = [i for i in in_channel if spec.starting is None or ids[i][4] == spec.starting]
            candidates.append([("entry", i) for i in chosen])
        elif tip.succeeded:
            candidates.append([("entry", ids.index(u)) for u in upgrades_of(view, spec, tip)] + [("tip", tips.index(tip))])
        else:
            candidates.append([("tip", tips.index(tip))])

    def asked(i):
        seen, catalog, package, channel, name = entries[i]
        lists = []
        for requirement in catalog_model.requirements(catalog.bundle(package, name)):
            passing = [("tip", t) for t, offer in enumerate(tip_offers) if catalog_model.passes(requirement, offer)]
            good = [j for j, offer in enumerate(offers) if catalog_model.passes(requirement, offer)]
            passing += [("entry", j) for j in good if entries[j][0] == seen] + [("entry", j) for j in good if entries[j][0] != seen]
            lists.append(passing)
        return lists

    lists, work = {}, [i for c in candidates for form, i in c if form == "entry"]
    while work:
        i = work.pop()
        if i not in lists:
            lists[i] = asked(i)
            work += [j for found in lists[i] for form, j in found if form == "entry"]
    reached = sorted(lists)
    number = {("entry", i): len(subs) + place for place, i in enumerate(reached)}
    number.update({("tip", t): len(subs) + len(reached) + t for t in range(len(tips))})

    problem = [[(model.MANDATORY,), (model.DEPENDENCY, [number[c] for c in found])] for found in candidates]
    for i in reached:
        constraints = [(model.DEPENDENCY, [number[c] for c in found]) for found in lists[i]]
        for (name, sub), tip in zip(subs, installed):
            if tip is not None and ids[i] in upgrades_of(view, sub.status.spec, tip):
                constraints.append((model.CONFLICT, number[("tip", tips.index(tip))]))
        problem.append(constraints)
    problem += [[] if tip in installed else [(model.MANDATORY,)] for tip in tips]
    names = [("subscription", name) for name, _ in subs] + [("entry", i) for i in reached] + [("tip", tip.name) for tip in tips]
    provided = [(number[("entry", i)], offers[i]) for i in reached] + [(number[("tip", t)], offer) for t, offer in enumerate(tip_offers)]
    for package in sorted({offer[0] for _, offer in provided if offer[0] is not None}, key=str.encode):
        members = [v for v, offer in provided if offer[0] == package]
        if len(members) >= 2:
            problem.append([(model.AT_MOST, 1, members)])
            names.append(("package", package))
    for kind in sorted({kind for _, offer in provided for kind in offer[2]}, key=in_bytes):
        members = [v for v, offer in provided if kind in offer[2]]
        if len(members) >= 2:
            problem.append([(model.AT_MOST, 1, members)])
            names.append(("kind", kind))
    takens = {}
    for i in reached:
        seen, catalog, package, channel, name = entries[i]
        replaced = next((t.name for t in tips if t.package == package), None)
        takens[i] = Taken(seen.namespace, seen.name, package, channel, name, catalog.version_text(package, name), replaced)
    return problem, names, takens


def outcome_of(view):
    problem, names, takens = problem_of(view)
    walk = model.best_walk(problem)
    if walk is None:
        return ("Refused",)
    chosen, _, _, _ = model.walk(problem, walk)
    mandatory = sum((model.MANDATORY,) in constraints for constraints in problem)
    picks = chosen[mandatory:]
    return ("Chosen", tuple(walk), tuple(takens[names[v][1]] for v in picks if names[v][0] == "entry"))


# --- the resolver ----------------------------------------------------------------------------------------------------------------------


def next_number(number):
    return min(number + 1, LAST)


def write_of(by, view, k, status, body=b"", owner=None, stamp=None):
    return Write(by, view.slot(k).version, k, Object(body, status, owner, stamp, view.length))


def changed(by, view, k, status):
    """The object of a key with another status; all else stays, and no stamp is kept."""
    old = view.slot(k).object
    return Write(by, view.slot(k).version, k, Object(old.body, status, old.owner, None, view.length))


def resolver_writes(view):
    if any(plan.status.phase in UNDER_WAY for _, plan in view.all(Plan)):
        return []
    current, basis = view.at(Resolution, "current"), basis_of(view)
    k = key(*KINDS[Resolution], view.namespace, "current")
    if current is None or current.status.basis != basis or current.status.again:
        number = next_number(current.status.number) if current else 1
        budget = current.status.budget if current else 10000
        status = Resolution(number, budget, False, basis, outcome_of(view))
        return [changed("Resolver", view, k, status) if current else write_of("Resolver", view, k, status)]
    resolution = current.status
    plan_key = key(*KINDS[Plan], view.namespace, "install-%d" % resolution.number)
    if resolution.outcome[0] == "Chosen" and resolution.outcome[2] and view.slot(plan_key).version == 0:
        return [write_of("Resolver", view, plan_key, plan_of(resolution, view))]
    return []


def manifests_of(view, taken):
    for seen, catalog in catalogs_of(view):
        if (seen.namespace, seen.name) == (taken.catalog_namespace, taken.catalog) and catalog:
            channel = catalog.channel(taken.package, taken.channel)
            if channel is None or all(e["name"] != taken.name for e in channel["entries"]):
                return []
            bundle = catalog.bundle(taken.package, taken.name)
            found = [decoded(v["data"]) for kind, v in catalog_model.properties_of(bundle) if kind == "olm.bundle.object"]
            if found:
                return found
            image = bundle.get("image") or ""
            return next(([decoded(d) for d in m["data"]] for m in catalog.manifests if m["image"] == image), [])
    return []


def decoded(data):
    import base64
    return base64.b64decode(data, validate=True)


def plan_of(resolution, view):
    """The plan of a choice that takes something: its steps, or Failed with the first cause."""
    takens = resolution.outcome[2]
    subs = [sub.status.spec for _, sub in view.all(Subscription)]
    manual = any(spec.manual and spec.package == taken.package for spec in subs for taken in takens)
    steps, has_csv = [], []
    for place, taken in enumerate(takens):
        csv_there = False
        for index, body in enumerate(manifests_of(view, taken)):
            bad = ("BadManifest", taken.name, index)
            try:
                k, made = read_body(body, PLANS_FORBIDDEN, view.namespace)
            except Refused:
                return failed_plan(resolution, manual, bad)
            if isinstance(made, Csv):
                if k[3] != taken.name:
                    return failed_plan(resolution, manual, bad)
                csv_there = True
                made = replace(made, package=taken.package, version=taken.version, replaces=taken.replaces)
            rank = 0 if k[:2] == (CRD_GROUP, "CustomResourceDefinition") else 3 if isinstance(made, Csv) else 1
            steps.append((rank, in_bytes(k), place, Step(k, body, made)))
        has_csv.append(csv_there)
    if not all(has_csv):
        return failed_plan(resolution, manual, ("NoManifest", takens[has_csv.index(False)].name))
    for place, taken in enumerate(takens):
        if not any(spec.package == taken.package for spec in subs):
            step = generated(view.namespace, taken, manual)
            steps.append((2, in_bytes(step.key), place, step))
    steps.sort(key=lambda item: item[:3])
    left = []
    for _, _, _, step in steps:
        if not any((other.key, other.body) == (step.key, step.body) for other in left):
            left.append(step)
    for second in range(len(left)):
        for first in range(second):
            if left[first].key == left[second].key:
                return failed_plan(resolution, manual, ("SameKey", first, second))
    phase = "RequiresApproval" if manual else "Planning"
    return Plan(resolution.number, manual, False, phase, None, tuple(left))


def failed_plan(resolution, manual, cause):
    return Plan(resolution.number, manual, False, "Failed", cause, ())


def generated(namespace, taken, manual):
    """The step of the Subscription that a taken package without one gets."""
    name = ("%s-%s-%s-%s" % (taken.package, taken.channel, taken.catalog, taken.catalog_namespace))[:1100]
    approval = "Manual" if manual else "Automatic"
    body = (
        '{"apiVersion":"operators.coreos.com/v1alpha1","kind":"Subscription","metadata":{"name":"%s","namespace":"%s"},'
        '"spec":{"channel":"%s","installPlanApproval":"%s","name":"%s","source":"%s","sourceNamespace":"%s","startingCSV":"%s"}}'
        % (name, namespace, taken.channel, approval, taken.package, taken.catalog, taken.catalog_namespace, taken.name)
    ).encode()
    spec = Spec(taken.package, taken.channel, taken.catalog, taken.catalog_namespace, taken.name, manual)
    return Step(key(*KINDS[Subscription], namespace, name), body, Subscription(spec))


# --- the installer ---------------------------------------------------------------------------------------------------------------------


def with_step(plan, index, state):
    steps = list(plan.steps)
    steps[index] = replace(steps[index], state=state)
    return replace(plan, steps=tuple(steps))


def installer_write(view, name, plan):
    """The write of one plan, or None."""
    k = key(*KINDS[Plan], view.namespace, name)
    if plan.phase == "Planning" or (plan.phase == "RequiresApproval" and plan.approved):
        return changed("Installer", view, k, replace(plan, phase="Installing"))
    if plan.phase != "Installing":
        return None
    if all(step.state in ("Created", "Present") for step in plan.steps):
        return changed("Installer", view, k, replace(plan, phase="Complete"))
    if any(step.state == "Overtaken" for step in plan.steps):
        return changed("Installer", view, k, replace(plan, phase="Failed"))
    index, step = next((i, s) for i, s in enumerate(plan.steps) if s.state not in ("Created", "Present"))
    slot, stamp = view.slot(step.key), (view.namespace, plan.number, index)
    if step.state == "Unknown":
        there = slot.object is not None and (
            slot.object.body == step.body
            or any(step.key[:2] == KINDS[s] and isinstance(slot.object.status, s) for s in (Csv, Subscription))
        )
        state = "Present" if there else ("Aimed", slot.version)
        return changed("Installer", view, k, with_step(plan, index, state))
    if stamp in slot.stamps:
        return changed("Installer", view, k, with_step(plan, index, "Created"))
    if slot.version == step.state[1]:
        owner = slot.object.owner if slot.object else None
        return write_of("Installer", view, step.key, step.made, step.body, owner, stamp)
    return changed("Installer", view, k, with_step(plan, index, "Overtaken"))


def installer_writes(view):
    plans = sorted(view.all(Plan), key=lambda item: item[1].status.number)
    return [w for w in (installer_write(view, name, plan.status) for name, plan in plans) if w is not None]


# --- operator groups and claims --------------------------------------------------------------------------------------------------------


def acts_of(view):
    groups = view.all(Group)
    if not groups:
        return ("Ungrouped",)
    if len(groups) >= 2:
        return ("Several",)
    targets = groups[0][1].status.targets
    return ("Everywhere",) if targets is None else ("In", targets)


def supports(body, own, acts):
    if acts[0] == "Ungrouped":
        return True
    if acts[0] == "Several":
        return False
    if acts[0] == "Everywhere":
        mode = "AllNamespaces"
    else:
        targets = set(acts[1])
        if not targets:
            return False
        mode = "MultiNamespace" if len(targets) >= 2 else "OwnNamespace" if targets == {own} else "SingleNamespace"
    try:
        value = json.loads(body)
    except ValueError:
        return False
    spec = value.get("spec") if isinstance(value, dict) else None
    modes = spec.get("installModes") if isinstance(spec, dict) else None
    return isinstance(modes, list) and any(isinstance(m, dict) and m.get("type") == mode and m.get("supported") is True for m in modes)


def share(a, b):
    """Whether two entries (kind, namespace, targets) share a target; an entry's own namespace counts among its targets."""
    if a[2] is None or b[2] is None:
        return True
    return bool((set(a[2]) | {a[1]}) & (set(b[2]) | {b[1]}))


def claim(entries, kind, namespace, targets):
    wanted = (kind, namespace, targets)
    if wanted in entries:
        return ("Held",)
    for entry in entries:
        if entry[0] == kind and entry[1] != namespace and share(entry, wanted):
            return ("Taken", entry[1])
    return ("Next", tuple(e for e in entries if e[:2] != (kind, namespace)) + (wanted,))


def claims_of(view):
    found = view.slot(CLAIMS_KEY).object
    return found.status.entries if found and isinstance(found.status, Claims) else ()


def targets_of(acts):
    return None if acts[0] == "Everywhere" else acts[1]


# --- phases ----------------------------------------------------------------------------------------------------------------------------


class Phases:
    """What the role Phases may write in a view."""

    def __init__(self, view):
        self.view, self.acts = view, acts_of(view)
        self.csvs = dict(view.all(Csv))
        self.deployments = dict(view.all(Deployment))

    def fits(self, name):
        return supports(self.csvs[name].body, self.view.namespace, self.acts)

    def has_crds(self, csv):
        return all(self.view.has_crd(crd[0]) for crd in csv.owned + csv.needed)

    def is_ready(self, name):
        csv = self.csvs[name].status
        old = self.csvs.get(csv.replaces) if csv.replaces else None
        if not self.has_crds(csv) or (old and old.status.phase not in ("Replacing", "Deleting")) or not self.fits(name):
            return False
        return self.acts[0] == "Ungrouped" or all(
            claim(claims_of(self.view), crd_kind(crd), self.view.namespace, targets_of(self.acts)) == ("Held",) for crd in csv.owned
        )

    def owned_deployment(self, name, deployment):
        found = self.deployments.get(deployment)
        return found.status if found and found.owner == name else None

    def edge(self, name):
        """The phase to which a CSV goes, or None."""
        csv = self.csvs[name].status
        listed = [self.owned_deployment(name, d) for d in csv.deployments]
        replacing = [other for other, o in self.csvs.items() if other != name and o.status.replaces == name]
        phase = csv.phase
        if phase not in ("Replacing", "Deleting") and replacing:
            return "Replacing"
        if phase == "None":
            return "Pending"
        if phase == "Pending" and self.is_ready(name):
            return "InstallReady"
        if phase == "InstallReady" and not self.is_ready(name):
            return "Pending"
        if phase == "InstallReady" and all(d is not None for d in listed):
            return "Installing"
        if phase == "Installing" and all(d is not None and d.readiness == "Ready" for d in listed):
            return "Succeeded"
        if phase == "Installing" and any(d is None or d.readiness == "Failed" for d in listed):
            return "Failed"
        if phase == "Succeeded" and not self.has_crds(csv):
            return "Pending"
        if phase == "Succeeded" and any(d is None or d.readiness == "Failed" for d in listed):
            return "Failed"
        if phase == "Failed" and self.has_crds(csv) and self.fits(name) and not any(
            d.owner == name and d.status.readiness == "Failed" for d in self.deployments.values()
        ):
            return "Pending"
        if phase == "Replacing" and self.is_retired(name, replacing):
            return "Deleting"
        if phase == "Pending" and not self.fits(name):
            return "Failed"
        return None

    def is_retired(self, name, replacing):
        if any(self.csvs[other].status.phase == "Succeeded" for other in replacing):
            return True
        above, work = set(), [name]
        while work:
            below = work.pop()
            for other, o in self.csvs.items():
                if other != below and o.status.replaces == below and other not in above:
                    above.add(other)
                    work.append(other)
        above.discard(name)
        return is_forward(self.view) and any(self.csvs[other].status.phase == "Succeeded" for other in above)

    def csv_key(self, name):
        return key(*KINDS[Csv], self.view.namespace, name)

    def edges(self):
        found = []
        for name, csv in self.csvs.items():
            phase = self.edge(name)
            if phase is not None:
                found.append(changed("Phases", self.view, self.csv_key(name), replace(csv.status, phase=phase)))
        return found

    def removal(self, k):
        return Write("Phases", self.view.slot(k).version, k, None)

    def removals(self):
        return [self.removal(self.csv_key(name)) for name, csv in self.csvs.items() if csv.status.phase == "Deleting"]

    def claims(self):
        found, entries = [], claims_of(self.view)
        if self.acts[0] == "Ungrouped":
            return []
        for name, csv in self.csvs.items():
            if csv.status.phase != "Pending" or not self.fits(name):
                continue
            answers = (claim(entries, crd_kind(crd), self.view.namespace, targets_of(self.acts)) for crd in csv.status.owned)
            answer = next((a for a in answers if a != ("Held",)), None)
            if answer and answer[0] == "Next":
                found.append(write_of("Phases", self.view, CLAIMS_KEY, Claims(answer[1])))
        return found

    def deployment_writes(self):
        found = []
        for name, csv in self.csvs.items():
            if csv.status.phase != "InstallReady":
                continue
            for deployment in csv.status.deployments:
                k = key(*KINDS[Deployment], self.view.namespace, deployment)
                there = self.view.slot(k).object
                owner = self.csvs.get(there.owner) if there and there.owner is not None else None
                is_free = there is None or there.owner is None or owner is None or owner.status.phase in ("Replacing", "Deleting")
                if self.owned_deployment(name, deployment) is None and is_free:
                    found.append(write_of("Phases", self.view, k, Deployment(), owner=name))
        return found

    def collection(self):
        listed = {d for csv in self.csvs.values() if csv.status.phase == "InstallReady" for d in csv.status.deployments}
        return [
            self.removal(key(*KINDS[Deployment], self.view.namespace, name)) for name, d in self.deployments.items()
            if d.owner is not None and d.owner not in self.csvs and name not in listed
        ]

    def states(self):
        found, tips = [], tips_of(self.view)
        pending = {
            step.made.package for _, plan in self.view.all(Plan) if plan.status.phase in UNDER_WAY
            for step in plan.status.steps if isinstance(step.made, Csv)
        }
        for name, sub in self.view.all(Subscription):
            spec = sub.status.spec
            installed = next((tip for tip in tips if tip.package == spec.package), None)
            if spec.package in pending:
                state = "UpgradePending"
            elif installed is None:
                state = "None"
            else:
                state = "UpgradeAvailable" if upgrades_of(self.view, spec, installed) else "AtLatestKnown"
            if state != sub.status.state:
                found.append(changed("Phases", self.view, key(*KINDS[Subscription], self.view.namespace, name), replace(sub.status, state=state)))
        return found

    def writes(self):
        return self.edges() + self.removals() + self.claims() + self.deployment_writes() + self.collection() + self.states()


ROLES = {"resolver": resolver_writes, "installer": installer_writes, "phases": lambda view: Phases(view).writes()}


def enabled_first(role, view):
    return next(iter(ROLES[role](view)), None)


# --- events ----------------------------------------------------------------------------------------------------------------------------


@dataclass
class Worker:
    role: str
    namespace: str
    view: Optional[View] = None
    term: object = "Free"


class Run:
    """A history, its workers, and the lines of a run. `lose` names calls of `put`, from 0, whose answer is lost: a set of (call, made)."""

    def __init__(self, folder, history=None, lose=()):
        self.history = history or History()
        self.folder, self.workers, self.lines = folder, [], []
        self.lose, self.calls = dict(lose), 0

    def put(self, write):
        """The version, or raises Conflict; None where the answer is lost."""
        call, self.calls = self.calls, self.calls + 1
        if call in self.lose:
            if self.lose[call] and self.history.slot(write.key).version == write.expect:
                self.history.append(write)
            return None
        return self.history.append(write)

    def apply_all(self, events):
        for event in events:
            self.lines.append(self.apply(event))
        return self.lines

    def apply(self, event):
        name = event.get("event")
        if not isinstance(name, str) or not name:
            return self.applied(event)
        return getattr(self, "on_" + name)(event)

    def present(self, k):
        return self.history.slot(k).object

    def user(self, k, made, front):
        """Writes as a user at the key's present version."""
        made = made and replace(made, stamp=None, seen=len(self.history))
        version = self.put(Write("User", self.history.slot(k).version, k, made))
        return front + (" version %d" % version if version is not None else " fault")

    def applied(self, event, body=None):
        body = body or json.dumps(event, separators=(",", ":")).encode()
        try:
            k, status = read_body(body, USERS_FORBIDDEN)
        except Refused as reason:
            return "apply refused %s" % reason
        old = self.present(k)
        owner = old.owner if old else None
        if old and isinstance(old.status, type(status)):
            if isinstance(status, Deployment):
                status = old.status
            if isinstance(status, Subscription):
                status = replace(status, state=old.status.state)
            if isinstance(status, Csv):
                was = old.status
                status = replace(status, package=was.package, version=was.version, phase=was.phase, replaces=was.replaces)
        return self.user(k, Object(body, status, owner), "apply " + printed(k))

    def on_delete(self, event):
        k = key(event["group"], event["kind"], event["namespace"], event["name"])
        if k[:2] in (KINDS[Resolution], KINDS[Claims], KINDS[Lease]):
            return "delete %s refused forbidden %s" % (printed(k), k[1])
        if self.present(k) is None:
            return "delete %s refused absent" % printed(k)
        return self.user(k, None, "delete " + printed(k))

    def named(self, status, event):
        k = key(*KINDS[status], event["namespace"], event["name"])
        found = self.present(k)
        return k, found if found and isinstance(found.status, status) else None

    def on_approve(self, event):
        k, plan = self.named(Plan, event)
        front = "approve %s/%s" % (event["namespace"], event["name"])
        if plan is None:
            return front + " refused absent"
        if plan.status.phase != "RequiresApproval" or plan.status.approved:
            return front + " refused not-waiting"
        return self.user(k, replace(plan, status=replace(plan.status, approved=True)), front)

    def on_ready(self, event):
        k, deployment = self.named(Deployment, event)
        front = "ready %s/%s" % (event["namespace"], event["name"])
        if deployment is None:
            return front + " refused absent"
        readiness = {"ready": "Ready", "failed": "Failed"}[event["state"]]
        return self.user(k, replace(deployment, status=Deployment(readiness)), front)

    def on_catalog(self, event):
        k = key(*KINDS[CatalogSource], event["namespace"], event["name"])
        front = "catalog %s/%s" % (event["namespace"], event["name"])
        body = b"".join(data + b"\n" for path, data in sorted(self.folder.get(event["path"], {}).items()) if path.endswith(".json"))
        broken = catalog_model.broken(catalog_model.Catalog(body))
        if broken:
            return "%s refused %s" % (front, broken[0])
        return self.user(k, Object(body, CatalogSource(event.get("priority") or 0)), front)

    def on_retry(self, event):
        k = key(*KINDS[Resolution], event["namespace"], "current")
        old, front = self.present(k), "retry " + event["namespace"]
        budget = event.get("budget")
        if old and isinstance(old.status, Resolution):
            status = replace(old.status, again=True, budget=budget or old.status.budget)
            return self.user(k, replace(old, status=status), front)
        return self.user(k, Object(b"", Resolution(0, budget or 10000, True, ((), (), ()), ("Nothing",))), front)

    def on_release(self, event):
        namespace, found = event["namespace"], self.present(CLAIMS_KEY)
        entries = found.status.entries if found and isinstance(found.status, Claims) else ()
        left = tuple(e for e in entries if e[1] != namespace)
        if left == entries:
            return "release %s refused absent" % namespace
        return self.user(CLAIMS_KEY, replace(found, status=Claims(left)), "release " + namespace)

    def on_worker(self, event):
        self.workers.append(Worker(event["role"], event["namespace"]))
        return "worker %d" % (len(self.workers) - 1)

    def worker(self, event):
        return self.workers[event["worker"]] if event["worker"] < len(self.workers) else None

    def on_look(self, event):
        worker = self.worker(event)
        if worker is None:
            return "look %d no-worker" % event["worker"]
        worker.view = self.history.view(worker.namespace)
        return "look %d at %d" % (event["worker"], worker.view.length)

    def lease_of(self, worker):
        k = key(*KINDS[Lease], worker.namespace, worker.role)
        found = self.present(k)
        return k, found.status if found and isinstance(found.status, Lease) else None

    def on_act(self, event):
        worker, front = self.worker(event), "act %d" % event["worker"]
        if worker is None:
            return front + " no-worker"
        if worker.view is None:
            return front + " no-view"
        _, lease = self.lease_of(worker)
        term = lease.term if lease else 0
        if worker.term == "Lost" or (worker.term != "Free" and worker.term != term):
            return "%s stale %d" % (front, term)
        write = enabled_first(worker.role, worker.view)
        if write is None:
            return front + " idle"
        try:
            version = self.put(write)
        except Conflict as found:
            return "%s conflict %s" % (front, found)
        return front + (" fault" if version is None else " put %s version %d" % (printed(write.key), version))

    def on_lease(self, event):
        worker, front, now = self.worker(event), "lease %d" % event["worker"], event["now"]
        if worker is None:
            return front + " no-worker"
        k, lease = self.lease_of(worker)
        until = now + event["keep"]
        if lease is None or lease.until <= now:
            granted = Lease(next_number(lease.term) if lease else 1, event["worker"], until)
        elif worker.term == lease.term and lease.holder == event["worker"] and now < lease.until:
            granted = replace(lease, until=max(lease.until, until))
        else:
            worker.term = "Lost" if worker.term == "Free" else worker.term
            return "%s refused held %d" % (front, lease.until)
        version = self.put(Write("User", self.history.slot(k).version, k, Object(b"", granted, None, None, len(self.history))))
        worker.term = "Lost" if version is None else granted.term
        return front + (" fault" if version is None else " term %d until %d" % (granted.term, granted.until))

    def on_settle(self, event):
        namespace, turns, made = event["namespace"], event.get("turns") or 100000, 0
        while True:
            view = self.history.view(namespace)
            write = next((w for w in (enabled_first(role, view) for role in ROLES) if w is not None), None)
            if write is None or made == turns:
                return "settle %s %d %s" % (namespace, made, "unsettled" if write else "quiet")
            if self.put(write) is None:
                return "settle %s fault" % namespace
            made += 1

    def on_restart(self, _event):
        for worker in self.workers:
            worker.view = None
            worker.term = worker.term if worker.term == "Free" else "Lost"
        return "restart"

    def show(self, namespace):
        found = sorted((k, s) for k, s in self.history.states[-1].items() if k[2] == namespace and s.object)
        return ["%s version %d %s" % (printed(k), s.version, s.object.status.word) for k, s in found]

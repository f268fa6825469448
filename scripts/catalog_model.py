"""A plain model of catalogs: versions, ranges, the blobs of a file-based catalog, its rules, channels and upgrades.

Written from the rules in docs/ (version-ranges.md, catalog-blobs.md, catalog-rules.md, channel-order.md, requirements.md) and not from
the program. It reads streams that have no fault of stream or field; `broken` says which of the fifteen rules a catalog breaks.
"""
import functools
import json
import re

NUMBER = r"(?:0|[1-9][0-9]*)"
IDENTIFIER = r"(?:0|[1-9][0-9]*|[0-9]*[A-Za-z-][0-9A-Za-z-]*)"
VERSION = re.compile(
    r"(%s)\.(%s)\.(%s)(?:-(%s(?:\.%s)*))?(?:\+[0-9A-Za-z-]+(?:\.[0-9A-Za-z-]+)*)?" % (NUMBER, NUMBER, NUMBER, IDENTIFIER, IDENTIFIER)
)
WILDCARD = re.compile(r"(%s)\.(?:x|x\.x|(%s)\.x)" % (NUMBER, NUMBER))
LIMIT = 2 ** 64


def version_of(text):
    """(major, minor, patch, identifiers of the pre-release or None), or None for what is no version. Build text is left out."""
    match = VERSION.fullmatch(text)
    if not match or any(int(part) >= LIMIT for part in match.groups()[:3]):
        return None
    return int(match[1]), int(match[2]), int(match[3]), match[4].split(".") if match[4] is not None else None


def compare(a, b):
    """-1, 0 or 1 by the precedence of Semantic Versioning."""
    if a[:3] != b[:3]:
        return -1 if a[:3] < b[:3] else 1
    if a[3] is None or b[3] is None:
        return (a[3] is None) - (b[3] is None)
    for x, y in zip(a[3], b[3]):
        if x == y:
            continue
        if x.isdigit() and y.isdigit():
            return -1 if int(x) < int(y) else 1
        if x.isdigit() != y.isdigit():
            return -1 if x.isdigit() else 1
        return -1 if x.encode() < y.encode() else 1
    return (len(a[3]) > len(b[3])) - (len(a[3]) < len(b[3]))


def read_range(text):
    """A list of alternatives, each a list of (operator, word), or None for what is no range."""
    alternatives, current, at = [], [], 0
    while True:
        while at < len(text) and text[at] == " ":
            at += 1
        if at == len(text) or text.startswith("||", at):
            if not current:
                return None
            alternatives.append(current)
            if at == len(text):
                return alternatives
            current, at = [], at + 2
            continue
        operator = re.compile("[<>=!]*").match(text, at).group()
        at += len(operator)
        while at < len(text) and text[at] == " ":
            at += 1
        word = re.compile("[^ |<>=!]*").match(text, at).group()
        at += len(word)
        if operator not in ("", "<", "<=", ">", ">=", "=", "==", "!", "!="):
            return None
        version = version_of(word)
        wildcard = WILDCARD.fullmatch(word)
        if version is not None:
            current.append((operator, "version", version))
        elif wildcard and all(int(part) < LIMIT for part in wildcard.groups() if part):
            major, minor = int(wildcard[1]), wildcard[2]
            start = (major, int(minor), 0, None) if minor is not None else (major, 0, 0, None)
            end = (major, int(minor) + 1, 0, None) if minor is not None else (major + 1, 0, 0, None)
            current.append((operator, "span", start, end))
        else:
            return None


def condition_holds(condition, version):
    operator, form = condition[:2]
    if form == "version":
        order = compare(version, condition[2])
        return {
            "": order == 0, "=": order == 0, "==": order == 0, "!": order != 0, "!=": order != 0,
            "<": order < 0, "<=": order <= 0, ">": order > 0, ">=": order >= 0,
        }[operator]
    from_start, below_end = compare(version, condition[2]) >= 0, compare(version, condition[3]) < 0
    inside = from_start and below_end
    return {
        "": inside, "=": inside, "==": inside, "!": not inside, "!=": not inside,
        "<": not from_start, "<=": below_end, ">": not below_end, ">=": from_start,
    }[operator]


def in_range(found, version):
    return any(all(condition_holds(condition, version) for condition in alternative) for alternative in found)


def blobs_of(text):
    """The JSON objects of a stream, in order."""
    decoder, found, at, text = json.JSONDecoder(), [], 0, text.decode()
    while True:
        while at < len(text) and text[at] in " \t\r\n":
            at += 1
        if at == len(text):
            return found
        value, at = decoder.raw_decode(text, at)
        found.append(value)


class Catalog:
    """The blobs of a catalog by schema, each list in blob order."""

    def __init__(self, text):
        self.packages, self.channels, self.bundles, self.manifests = [], [], [], []
        for blob in blobs_of(text):
            kept = {
                "olm.package": self.packages, "olm.channel": self.channels,
                "olm.bundle": self.bundles, "local.manifests": self.manifests,
            }.get(blob["schema"])
            if kept is not None:
                kept.append(blob)

    def bundle(self, package, name):
        return next((b for b in self.bundles if (b["package"], b["name"]) == (package, name)), None)

    def channel(self, package, name):
        return next((c for c in self.channels if (c["package"], c["name"]) == (package, name)), None)

    def default_channel(self, package):
        return next((p["defaultChannel"] for p in self.packages if p["name"] == package), None)

    def version_text(self, package, name):
        """The version text of a bundle: that of its property with its own package."""
        for kind, value in properties_of(self.bundle(package, name)):
            if kind == "olm.package" and value["packageName"] == package:
                return value["version"]
        return None

    def order(self, package, name):
        """The entries of a channel: the chain of `replaces` from its head, and then the others, the highest version first."""
        channel = self.channel(package, name)
        if channel is None:
            return None
        chain = chain_of(channel)
        left = [entry for entry in channel["entries"] if entry["name"] not in chain]
        versions = {entry["name"]: version_of(self.version_text(package, entry["name"])) for entry in left}

        def before(a, b):
            by_version = compare(versions[b["name"]], versions[a["name"]])
            return by_version if by_version else (-1 if a["name"].encode() < b["name"].encode() else 1)

        return chain + [entry["name"] for entry in sorted(left, key=functools.cmp_to_key(before))]

    def upgrades(self, package, name, start, version):
        """The entries of a channel to which an installed one of this name and version can be upgraded, in channel order."""
        order = self.order(package, name)
        if order is None:
            return []
        entries = {entry["name"]: entry for entry in reversed(self.channel(package, name)["entries"])}
        found = []
        for place, candidate in enumerate(order):
            entry = entries[candidate]
            leads = start in (text(entry.get("replaces")), *(entry.get("skips") or []))
            skip_range = text(entry.get("skipRange"))
            leads = leads or (skip_range is not None and in_range(read_range(skip_range), version))
            if candidate != start and leads and (start not in order or place < order.index(start)):
                found.append(candidate)
        return found


def text(value):
    """An optional text: absent, null and empty are none."""
    return value or None


def properties_of(bundle):
    return [(p["type"], p["value"]) for p in bundle.get("properties") or []]


def heads_of(channel):
    taken = {text(e.get("replaces")) for e in channel["entries"]} | {s for e in channel["entries"] for s in e.get("skips") or []}
    return [e for e in channel["entries"] if e["name"] not in taken]


def chain_of(channel):
    """The names from the head on by `replaces`, up to one that is no entry, or that was met before."""
    entries = {entry["name"]: entry for entry in reversed(channel["entries"])}
    chain, name = [], heads_of(channel)[0]["name"]
    while name in entries and name not in chain:
        chain.append(name)
        name = text(entries[name].get("replaces"))
    return chain


def meets_a_name_twice(channel):
    entries = {entry["name"]: entry for entry in reversed(channel["entries"])}
    met, name = [], heads_of(channel)[0]["name"]
    while name in entries:
        if name in met:
            return True
        met.append(name)
        name = text(entries[name].get("replaces"))
    return False


def versions_and_ranges(kind, value):
    """The version texts and range texts of a property."""
    if kind == "olm.package":
        return [value["version"]], []
    if kind == "olm.package.required":
        return [], [value["versionRange"]]
    if kind == "olm.constraint":
        return [], ranges_of(value)
    return [], []


def ranges_of(constraint):
    if constraint.get("package") is not None:
        return [constraint["package"]["versionRange"]]
    return [r for form in ("all", "any", "not") if constraint.get(form) is not None for c in constraint[form]["constraints"] for r in ranges_of(c)]


def has_bad_text(bundle):
    for kind, value in properties_of(bundle):
        versions, ranges = versions_and_ranges(kind, value)
        if any(version_of(v) is None for v in versions) or any(read_range(r) is None for r in ranges):
            return True
    return False


def broken(c):
    """The lines of the broken rules, in their order."""
    found = []

    def seen_before(items, key):
        return [item for place, item in enumerate(items) if key(item) in [key(other) for other in items[:place]]]

    packages = [p["name"] for p in c.packages]
    found += ["V1 %s" % p["name"] for p in seen_before(c.packages, lambda p: p["name"])]
    found += ["V2 %s/%s" % (h["package"], h["name"]) for h in seen_before(c.channels, lambda h: (h["package"], h["name"]))]
    found += ["V3 %s/%s" % (b["package"], b["name"]) for b in seen_before(c.bundles, lambda b: (b["package"], b["name"]))]
    for h in c.channels:
        found += ["V4 %s/%s/%s" % (h["package"], h["name"], e["name"]) for e in seen_before(h["entries"], lambda e: e["name"])]
    for p in c.packages:
        if not any(h["package"] == p["name"] for h in c.channels):
            found.append("V5 %s" % p["name"])
    for p in c.packages:
        names = [h["name"] for h in c.channels if h["package"] == p["name"]]
        if names and p["defaultChannel"] not in names:
            found.append("V6 %s" % p["name"])
    for h in c.channels:
        found += ["V7 %s/%s/%s" % (h["package"], h["name"], e["name"]) for e in h["entries"] if c.bundle(h["package"], e["name"]) is None]
    for b in c.bundles:
        if not any(h["package"] == b["package"] and any(e["name"] == b["name"] for e in h["entries"]) for h in c.channels):
            found.append("V8 %s/%s" % (b["package"], b["name"]))
    heads = [(h, heads_of(h)) for h in c.channels]
    found += ["V9 %s/%s" % (h["package"], h["name"]) for h, top in heads if not top]
    found += ["V10 %s/%s" % (h["package"], h["name"]) for h, top in heads if len(top) >= 2]
    found += ["V11 %s/%s" % (h["package"], h["name"]) for h, top in heads if len(top) == 1 and meets_a_name_twice(h)]
    for h, top in heads:
        if len(top) == 1 and not meets_a_name_twice(h):
            skipped = {s for e in h["entries"] for s in e.get("skips") or []}
            chain = chain_of(h)
            found += ["V12 %s/%s/%s" % (h["package"], h["name"], e["name"]) for e in h["entries"] if e["name"] not in chain and e["name"] not in skipped]
    for b in c.bundles:
        if sum(k == "olm.package" and v["packageName"] == b["package"] for k, v in properties_of(b)) != 1:
            found.append("V13 %s/%s" % (b["package"], b["name"]))
    for h in c.channels:
        for e in h["entries"]:
            if text(e.get("skipRange")) and read_range(e["skipRange"]) is None:
                found.append("V14 %s/%s/%s" % (h["package"], h["name"], e["name"]))
    found += ["V14 %s/%s" % (b["package"], b["name"]) for b in c.bundles if has_bad_text(b)]
    found += ["V15 %s/%s" % (h["package"], h["name"]) for h in c.channels if h["package"] not in packages]
    found += ["V15 %s/%s" % (b["package"], b["name"]) for b in c.bundles if b["package"] not in packages]
    return found


# --- what a bundle asks for and offers -------------------------------------------------------------------------------------------------


def requirement_of(kind, value):
    """The requirement of a property, or None where it asks for nothing."""
    if kind == "olm.gvk.required":
        return ("kind", (value["group"], value["version"], value["kind"]))
    if kind == "olm.package.required":
        return ("package", value["packageName"], read_range(value["versionRange"]))
    if kind == "olm.constraint":
        return constraint_of(value)
    return None


def constraint_of(value):
    if value.get("package") is not None:
        return ("package", text(value["package"].get("packageName")) or value["package"].get("name"), read_range(value["package"]["versionRange"]))
    if value.get("gvk") is not None:
        return ("kind", (value["gvk"]["group"], value["gvk"]["version"], value["gvk"]["kind"]))
    for form in ("all", "any", "not"):
        if value.get(form) is not None:
            return (form, [constraint_of(c) for c in value[form]["constraints"]])
    return ("unsupported",)


def requirements(bundle):
    return [r for r in (requirement_of(kind, value) for kind, value in properties_of(bundle)) if r is not None]


def kinds_of(bundle):
    """Each kind that a bundle provides, once, in property order."""
    found = []
    for kind, value in properties_of(bundle):
        if kind == "olm.gvk":
            gvk = (value["group"], value["version"], value["kind"])
            if gvk not in found:
                found.append(gvk)
    return found


def passes(requirement, offer):
    """Whether an offer (package or None, version, kinds) meets a requirement."""
    package, version, kinds = offer
    form = requirement[0]
    if form == "package":
        return package == requirement[1] and in_range(requirement[2], version)
    if form == "kind":
        return requirement[1] in kinds
    if form == "all":
        return all(passes(part, offer) for part in requirement[1])
    if form == "any":
        return any(passes(part, offer) for part in requirement[1])
    if form == "not":
        return not any(passes(part, offer) for part in requirement[1])
    return False

"""A plain model of what `resolve` and `verify` answer over small catalogs, written from the rules in docs/ and not from the program.

It builds the problem of one subscription (docs/problem.md), finds the best walk by trying walks in their order
(docs/problems-and-walks.md), and checks a certificate's text by the order of its faults (docs/certificates.md).
A catalog here is a list of packages {name, default, channels: {name: [entry]}}, an entry {name, version, replaces, needs, gives}:
versions are three numbers, each channel is one chain of `replaces`, needs are ("package", name, low, high), a half-open span of
versions, or ("kind", kind), and kinds are of the group g.io and the version v1.
"""
import json
import re

MANDATORY = "mandatory"
DEPENDENCY = "dependency"
AT_MOST = "at most"
CONFLICT = "conflict"


def stream(packages):
    """The blobs of a catalog, a line each."""
    lines = []
    for package in packages:
        lines.append({"schema": "olm.package", "name": package["name"], "defaultChannel": package["default"]})
        bundles = {}
        for channel, entries in package["channels"].items():
            told = []
            for entry in entries:
                bundles[entry["name"]] = entry
                told.append({"name": entry["name"], **({"replaces": entry["replaces"]} if entry["replaces"] else {})})
            lines.append({"schema": "olm.channel", "package": package["name"], "name": channel, "entries": told})
        for entry in bundles.values():
            version = "%d.%d.%d" % entry["version"]
            properties = [{"type": "olm.package", "value": {"packageName": package["name"], "version": version}}]
            properties += [{"type": "olm.gvk", "value": {"group": "g.io", "version": "v1", "kind": kind}} for kind in entry["gives"]]
            for need in entry["needs"]:
                if need[0] == "kind":
                    properties.append({"type": "olm.gvk.required", "value": {"group": "g.io", "version": "v1", "kind": need[1]}})
                else:
                    span = ">=%d.%d.%d <%d.%d.%d" % (need[2] + need[3])
                    properties.append({"type": "olm.package.required", "value": {"packageName": need[1], "versionRange": span}})
            lines.append({"schema": "olm.bundle", "package": package["name"], "name": entry["name"], "image": "q/" + entry["name"], "properties": properties})
    return "".join(json.dumps(line, separators=(",", ":")) + "\n" for line in lines)


def entries_of(packages):
    """All entries in their order: by package, the default channel first and then by name, each channel as its chain goes."""
    found = []
    for package in sorted(packages, key=lambda p: p["name"]):
        names = sorted(package["channels"])
        for channel in [package["default"]] + [name for name in names if name != package["default"]]:
            for entry in package["channels"][channel]:
                found.append((package["name"], channel, entry))
    return found


def passes(need, package, entry):
    if need[0] == "kind":
        return need[1] in entry["gives"]
    return need[1] == package and need[2] <= entry["version"] < need[3]


def problem_of(packages, package, channel):
    """The constraints of each variable, and the reached entries in their order; the subscription is variable 0."""
    entries = entries_of(packages)
    wanted = [i for i, (p, c, _) in enumerate(entries) if (p, c) == (package, channel)]
    lists = [[[j for j, (p, _, other) in enumerate(entries) if passes(need, p, other)] for need in entry["needs"]] for _, _, entry in entries]
    reached = set(wanted)
    while True:
        more = {j for i in reached for found in lists[i] for j in found} - reached
        if not more:
            break
        reached |= more
    order = sorted(reached)
    number = {i: place + 1 for place, i in enumerate(order)}
    problem = [[(MANDATORY,), (DEPENDENCY, [number[i] for i in wanted])]]
    problem += [[(DEPENDENCY, [number[j] for j in found]) for found in lists[i]] for i in order]
    groups = [lambda i, name=name: entries[i][0] == name for name in sorted({entries[i][0] for i in order})]
    groups += [lambda i, kind=kind: kind in entries[i][2]["gives"] for kind in sorted({kind for i in order for kind in entries[i][2]["gives"]})]
    for belongs in groups:
        members = [number[i] for i in order if belongs(i)]
        if len(members) >= 2:
            problem.append([(AT_MOST, 1, members)])
    return problem, [entries[i] for i in order]


def first_broken(problem, chosen):
    for variable, constraints in enumerate(problem):
        for place, constraint in enumerate(constraints):
            met = {
                MANDATORY: lambda: variable in chosen,
                DEPENDENCY: lambda: variable not in chosen or any(m in chosen for m in constraint[1]),
                CONFLICT: lambda: variable not in chosen or constraint[1] not in chosen,
                AT_MOST: lambda: sum(m in chosen for m in constraint[2]) <= constraint[1],
            }[constraint[0]]()
            if not met:
                return variable, place
    return None


def walk(problem, numbers):
    """What a walk chose, the list that waits, if one does, how many numbers were taken, and for each choice what was chosen before it and its list."""
    chosen = [v for v, constraints in enumerate(problem) if (MANDATORY,) in constraints]
    agenda = [c[1] for v in chosen for c in problem[v] if c[0] == DEPENDENCY]
    choices = []
    while agenda:
        if any(m in chosen for m in agenda[0]):
            agenda.pop(0)
            continue
        if len(choices) == len(numbers) or numbers[len(choices)] >= len(agenda[0]):
            return chosen, agenda[0], len(choices), choices
        choices.append((list(chosen), agenda[0]))
        picked = agenda.pop(0)[numbers[len(choices) - 1]]
        chosen.append(picked)
        agenda += [c[1] for c in problem[picked] if c[0] == DEPENDENCY]
    return chosen, None, len(choices), choices


def best_walk(problem):
    """The first full walk whose set meets the problem. A walk that breaks an at-most already is left, since its set only grows."""
    def search(numbers):
        chosen, waiting, _, _ = walk(problem, numbers)
        if any(c[0] == AT_MOST and sum(m in chosen for m in c[2]) > c[1] for constraints in problem for c in constraints):
            return None
        if waiting is None:
            return numbers if first_broken(problem, chosen) is None else None
        for number in range(len(waiting)):
            found = search(numbers + [number])
            if found is not None:
                return found
        return None
    return search([])


class Fault(Exception):
    pass


NUMBER = r"[0-9]+"
LITS = r"((?: [+-]%s)*)" % NUMBER
HINTS = r"((?: (?:L%s|G%s\.%s(?:\(%s(?:,%s)*\))?))*)" % ((NUMBER,) * 5)
FORMS = {
    "lemma": re.compile("lemma%s :%s" % (LITS, HINTS)),
    "walk": re.compile("walk((?: %s)*)" % NUMBER),
    "refute": re.compile("refute (%s) (%s)%s :%s" % (NUMBER, NUMBER, LITS, HINTS)),
    "refute-all": re.compile("refute-all%s :%s" % (LITS, HINTS)),
    "vars": re.compile("vars (%s)" % NUMBER),
    "end": re.compile("end"),
}


def literals(text):
    return [(int(token[1:]), token[0] == "+") for token in text.split()]


def hints_of(text):
    hints = []
    for token in text.split():
        if token[0] == "L":
            hints.append(("L", int(token[1:])))
        else:
            numbers = [int(number) for number in re.findall(NUMBER, token)]
            hints.append(("G", numbers[0], numbers[1], numbers[2:]))
    return hints


def read(text):
    """The certificate of a text, or its first fault."""
    lines = text.split("\n")
    rest = lines.pop()
    at = 0

    def take(*names):
        nonlocal at
        if at == len(lines):
            raise Fault("cut short")
        line = lines[at]
        at += 1
        for name in names:
            match = FORMS[name].fullmatch(line)
            if match:
                for number in re.findall(NUMBER, line.replace("certificate 1", "")):
                    if (len(number) > 1 and number[0] == "0") or int(number) > 4294967295:
                        raise Fault("bad number %d" % at)
                return name, match
        raise Fault("bad line %d" % at)

    if not lines:
        raise Fault("cut short")
    at = 1
    head = re.fullmatch("certificate 1 (chosen|refused|undecided)", lines[0])
    if not head:
        raise Fault("bad line 1")
    certificate = {"finding": head.group(1), "lemmas": [], "walk": [], "refutations": [], "whole": None}
    certificate["vars"] = int(take("vars")[1].group(1))
    last = {"chosen": "walk", "refused": "refute-all", "undecided": "end"}[head.group(1)]
    while True:
        name, match = take("lemma", last)
        if name != "lemma":
            break
        certificate["lemmas"].append((literals(match.group(1)), hints_of(match.group(2))))
    if last == "walk":
        certificate["walk"] = [int(number) for number in match.group(1).split()]
        while True:
            name, match = take("refute", "end")
            if name == "end":
                break
            certificate["refutations"].append((int(match.group(1)), int(match.group(2)), literals(match.group(3)), hints_of(match.group(4))))
    elif last == "refute-all":
        certificate["whole"] = (literals(match.group(1)), hints_of(match.group(2)))
        take("end")
    if at < len(lines) or rest:
        raise Fault("bad line %d" % (at + 1))
    return certificate


def clause_of(problem, hint):
    """The clause of a given hint, or None where there is none."""
    _, variable, place, members = hint
    if variable >= len(problem) or place >= len(problem[variable]):
        return None
    constraint = problem[variable][place]
    if constraint[0] == AT_MOST:
        good = len(set(members)) == len(members) == constraint[1] + 1 and all(m in constraint[2] for m in members)
        return {(m, False) for m in members} if good else None
    if members:
        return None
    if constraint[0] == CONFLICT:
        return {(variable, False), (constraint[1], False)}
    return {(variable, True)} if constraint[0] == MANDATORY else {(variable, False)} | {(m, True) for m in constraint[1]}


def cause(problem, lemmas, lits, hints):
    """Why a clause with its hints doesn't follow from the problem and earlier lemmas, or None."""
    variables = [variable for variable, _ in lits]
    if len(set(variables)) < len(variables) or any(variable >= len(problem) for variable in variables):
        return "bad-clause"
    true = {(variable, not sign) for variable, sign in lits}
    for place, hint in enumerate(hints):
        if hint[0] == "L":
            if hint[1] >= len(lemmas):
                return "no-such-hint"
            clause = set(lemmas[hint[1]][0])
        else:
            clause = clause_of(problem, hint)
            if clause is None:
                return "bad-given"
        left = [literal for literal in clause if (literal[0], not literal[1]) not in true]
        if place == len(hints) - 1:
            return "no-conflict" if left else None
        if len(left) != 1 or left[0] in true:
            return "hint-not-unit"
        true.add(left[0])
    return "no-conflict"


def check(problem, certificate):
    """The verdict of a certificate, or its first fault."""
    if certificate["vars"] != len(problem):
        raise Fault("wrong-size %d %d" % (certificate["vars"], len(problem)))
    lemmas = certificate["lemmas"]
    for number, (lits, hints) in enumerate(lemmas):
        why = cause(problem, lemmas[:number], lits, hints)
        if why:
            raise Fault("lemma %d %s" % (number, why))
    mandatory = [v for v, constraints in enumerate(problem) if (MANDATORY,) in constraints]
    if certificate["finding"] == "undecided":
        return "undecided %d" % len(lemmas)
    if certificate["finding"] == "refused":
        lits, hints = certificate["whole"]
        if any(sign or variable not in mandatory for variable, sign in lits):
            raise Fault("whole-denies")
        why = cause(problem, lemmas, lits, hints)
        if why:
            raise Fault("whole-step " + why)
        return "refused"
    numbers = certificate["walk"]
    chosen, waiting, taken, choices = walk(problem, numbers)
    if waiting is not None or taken < len(numbers):
        raise Fault("walk %d" % taken)
    broken = first_broken(problem, chosen)
    if broken:
        raise Fault("not-met %d %d" % broken)
    refutations = certificate["refutations"]
    wanted = [(choice, candidate) for choice, number in enumerate(numbers) for candidate in range(number)]
    for place, pair in enumerate(wanted):
        if place >= len(refutations) or refutations[place][:2] != pair:
            raise Fault("missing %d %d" % pair)
    if len(refutations) > len(wanted):
        raise Fault("extra %d" % len(wanted))
    for choice, candidate, lits, _ in refutations:
        before, members = choices[choice]
        if any(sign or variable not in before + [members[candidate]] for variable, sign in lits):
            raise Fault("denies %d %d" % (choice, candidate))
    for choice, candidate, lits, hints in refutations:
        why = cause(problem, lemmas, lits, hints)
        if why:
            raise Fault("step %d %d %s" % (choice, candidate, why))
    return "chosen %d" % len(numbers)


def verdict_of(problem, text):
    """The line that `verify` prints."""
    try:
        return "accepted " + check(problem, read(text))
    except Fault as fault:
        return "not accepted: %s" % fault

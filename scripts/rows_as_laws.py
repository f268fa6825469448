#!/usr/bin/env python3
"""Writes the worked rows of cluster_rows.py as laws over the definitions: for each write of the installer or of phases, the view that
it was made in, and that the definitions' list begins with exactly this write. The crate controller_rows is this script's output.

A body is written as a short word, since no rule but that of install modes looks into one, and no namespace of these rows has a group.
Writes of subscriptions' states are left out: they rest on whole catalogs.

usage: scripts/rows_as_laws.py         writes crates/controller_rows/{specs,src,proofs}
"""
import os

import cluster_model as m
import cluster_rows as rows

ROWS = {"upgrade": rows.row_upgrade, "forward": rows.row_forward_upgrade, "manual": rows.row_manual_approval, "lost": rows.row_lost_answer}
WRITER = {"user": "User", "resolver": "Resolver", "installer": "Installer", "phases": "Phases"}
GROUPS = {m.CORE: "operators", "apps": 'codes "apps"', m.OWN: "local", "apiextensions.k8s.io": 'codes "apiextensions.k8s.io"', "": "[]"}


def text(value):
    return 'codes "%s"' % value if value else "[]"


def items(values):
    return "[]" if not values else "(" + " ∷ ".join(values) + " ∷ [])"


def option(value, form=text):
    return "None" if value is None else "(Some (%s))" % form(value)


def a_key(k):
    return "record { group = %s; kind = %s; namespace = %s; name = %s }" % (GROUPS[k[0]], text(k[1]), text(k[2]), text(k[3]))


class Writer:
    def __init__(self):
        self.bodies = {}

    def body(self, value):
        if not value:
            return "[]"
        return 'codes "%s"' % self.bodies.setdefault(bytes(value), "body %d" % len(self.bodies))

    def csv(self, s):
        crd = lambda c: "record { name = %s; version = %s; kind = %s }" % tuple(text(x) for x in c)
        return ("record { «package» = %s; version = %s; owned = %s; needed = %s; deployments = %s; replaces = %s; phase = csv.%s }" % (
            option(s.package), text(s.version), items([crd(c) for c in s.owned]), items([crd(c) for c in s.needed]),
            items([text(d) for d in s.deployments]), option(s.replaces), "Nothing" if s.phase == "None" else s.phase))

    def spec(self, s):
        return "record { «package» = %s; channel = %s; source = %s; source_namespace = %s; starting = %s; manual = %s }" % (
            text(s.package), option(s.channel), text(s.source), text(s.source_namespace), option(s.starting), str(s.manual).lower())

    def subscription(self, s):
        return "record { spec = %s; state = sub.%s }" % (self.spec(s.spec), "Nothing" if s.state == "None" else s.state)

    def made(self, s):
        if isinstance(s, m.Csv):
            return "made.Csv (%s)" % self.csv(s)
        if isinstance(s, m.Subscription):
            return "made.Subscription (%s)" % self.subscription(s)
        if isinstance(s, m.Deployment):
            return "made.Deployment readiness.%s" % s.readiness
        return "made.Plain"

    def step(self, s):
        state = "step.Aimed %d" % s.state[1] if isinstance(s.state, tuple) else "step." + s.state
        return "record { key = %s; body = %s; made = %s; state = %s }" % (a_key(s.key), self.body(s.body), self.made(s.made), state)

    def status(self, s):
        if isinstance(s, m.Plain):
            return "status.Plain"
        if isinstance(s, m.CatalogSource):
            return "status.Catalog (record { priority = pos %d })" % s.priority
        if isinstance(s, m.Subscription):
            return "status.Subscription (%s)" % self.subscription(s)
        if isinstance(s, m.Csv):
            return "status.Csv (%s)" % self.csv(s)
        if isinstance(s, m.Deployment):
            return "status.Deployment readiness.%s" % s.readiness
        if isinstance(s, m.Plan):
            return "status.Plan (record { number = %d; manual = %s; approved = %s; phase = plan.%s; cause = None; steps = %s })" % (
                s.number, str(s.manual).lower(), str(s.approved).lower(), s.phase, items([self.step(t) for t in s.steps]))
        if isinstance(s, m.Strategy):
            return "status.Strategy (record { forward = %s })" % str(s.forward).lower()
        assert isinstance(s, m.Resolution), s
        # what a resolution holds is no matter of these roles
        return "status.Resolution a_resolution"

    def stamp(self, s):
        return "record { namespace = %s; plan = %d; step = %d }" % (text(s[0]), s[1], s[2])

    def object(self, o):
        return "record { body = %s; status = %s; owner = %s; stamp = %s; seen = %d }" % (
            self.body(o.body), self.status(o.status), option(o.owner), option(o.stamp, self.stamp), o.seen)

    def slot(self, k, s):
        return "(%s, record { version = %d; object = %s; stamps = %s })" % (
            a_key(k), s.version, option(s.object, self.object), items([self.stamp(t) for t in s.stamps]))

    def write(self, w):
        return "record { by = writer.%s; expect = %d; key = %s; object = %s }" % (
            WRITER[w.by.lower()], w.expect, a_key(w.key), option(w.object, self.object))


FIRST = """-- What the installer and phases do first in a view.
use Rattle.std.specs.Prelude.{◌≡◌, false, List, [], Some, slice_get}
use Rattle.cluster_objects.specs.declared.objects.Write.{Write}
use Rattle.cluster_objects.specs.declared.resolutions.Outcome.TheVariants as outcome
use Rattle.cluster_objects.specs.declared.resolutions.ResolutionStatus.{ResolutionStatus}
use Rattle.cluster_history.specs.Views.{View}
use Rattle.lawful_history.specs.Installing.{installer_writes}
use Rattle.csv_phases.specs.Phases.{phases_writes}

-- What a resolution holds is no matter of these two roles.
abbrev pub a_resolution : ResolutionStatus
a_resolution = record { number = 1; budget = 10000; again = false; basis = record { subscriptions = []; tips = []; catalogs = [] }; outcome = outcome.Refused; certificate = [] }

-- the installer's first write in this view
abbrev pub Installs : View → Write → Type 0
Installs view w = slice_get (installer_writes view) 0 ≡ Some w

-- no write of the installer, and this one is the first of phases
abbrev pub Moves : View → Write → Type 0
Moves view w = (installer_writes view ≡ []) × (slice_get (phases_writes view) 0 ≡ Some w)
"""

HEAD = """-- The worked row {row}: what a worker saw before each write of the installer and of phases, and the write. Made by scripts/rows_as_laws.py.
use Rattle.std.specs.Prelude.{{◌≡◌, ℕ, ℤ, pos, true, false, List, [], ◌∷◌, Option, Some, None, slice_get, codes}}
use Rattle.cluster_objects.specs.Kinds.{{operators, local}}
use Rattle.cluster_objects.specs.declared.keys.Key.{{Key}}
use Rattle.cluster_objects.specs.declared.objects.Status.TheVariants as status
use Rattle.cluster_objects.specs.declared.objects.Write.{{Write}}
use Rattle.cluster_objects.specs.declared.objects.Writer.TheVariants as writer
use Rattle.cluster_objects.specs.declared.plans.PlanPhase.TheVariants as plan
use Rattle.cluster_objects.specs.declared.plans.StepState.TheVariants as step
use Rattle.cluster_objects.specs.declared.statuses.CsvPhase.TheVariants as csv
use Rattle.cluster_objects.specs.declared.statuses.Made.TheVariants as made
use Rattle.cluster_objects.specs.declared.statuses.Readiness.TheVariants as readiness
use Rattle.cluster_objects.specs.declared.statuses.SubState.TheVariants as sub
use Rattle.cluster_history.specs.Views.{{View}}
use Rattle.cluster_history.specs.declared.slots.Slot.{{Slot}}
use Rattle.controller_rows.specs.First.{{a_resolution}}

"""


def row_files(row, make):
    h, out, clauses, made, writer = make()[0].history, [HEAD.format(row=row)], [], {}, Writer()
    for i, w in enumerate(h.writes):
        role = w.by.lower()
        if role not in ("installer", "phases") or w.key[1] == "Subscription":
            continue
        # a removal keeps no length; these rows remove in a settle alone, whose view is the present one
        view = h.view("default", w.object.seen if w.object else i)
        names = []
        for k, s in sorted(view.slots.items()):
            name = "slot_%d" % s.version
            names.append(name)
            if name not in made:
                made[name] = True
                out.append("abbrev %s : Key × Slot\n%s = %s\n" % (name, name, writer.slot(k, s)))
        n = i + 1
        out.append("-- what is seen before write %d\nabbrev pub view_%d : View\nview_%d = record { namespace = codes \"default\"; length = %d; slots = %s }\n" % (
            n, n, n, view.length, " ∷ ".join(names + ["[]"])))
        out.append("abbrev pub write_%d : Write\nwrite_%d = %s\n" % (n, n, writer.write(w)))
        clauses.append((n, "Installs" if role == "installer" else "Moves"))
    return "\n".join(out), clauses


def main():
    root = os.path.join(os.path.dirname(os.path.dirname(os.path.abspath(__file__))), "crates", "controller_rows")
    laws = ["// The worked rows as laws.", "ghost use Rattle.controller_rows.specs.First.{Installs, Moves};"] + ["ghost use Rattle.controller_rows.specs.%s as %s;" % (r.capitalize(), r) for r in ROWS] + [""]
    for row, make in ROWS.items():
        module, (specs, clauses) = row.capitalize(), row_files(row, make)
        put(root, "specs/%s.antt" % module, specs)
        laws.append("/// Each write of the installer and of phases in the row %s is the first that the definitions give in its view." % row)
        laws.append("pub fn %s_row()" % row)
        for n, form in clauses:
            laws.append("    ensures write_%d { %s %s.view_%d %s.write_%d }" % (n, form, row, n, row, n))
        laws.append("{}\n")
        answers = ["use Rattle.std.proofs.Common.{refl}", "use Rattle.cluster_objects.specs.Keys.{key_cmp, same_key}",
                   "use Rattle.cluster_objects.specs.Stamps.{times}", "use Rattle.controller_rows.proofs.laws.%s_row.Goals as goal\n" % row]
        answers.append("pub returns : goal.returns\nunfolding key_cmp same_key times\nreturns c = record {")
        for n, form in clauses:
            answers.append("  write_%d = %s;" % (n, "refl" if form == "Installs" else "(refl, refl)"))
        answers.append("}")
        put(root, "proofs/laws/%s_row/Answers.antt" % row, "\n".join(answers))
    put(root, "specs/First.antt", FIRST.rstrip("\n"))
    put(root, "specs/Lib.antt", "\n".join("pub mod " + r for r in ["First"] + [r.capitalize() for r in ROWS]))
    put(root, "proofs/Lib.antt", "")
    put(root, "src/laws.rt", "\n".join(laws))
    put(root, "src/lib.rt", "//! Worked rows of the controller, as laws over its definitions.\n#![tactic(auto)]\n\nmod laws;\n\npub use laws::{%s};"
        % ", ".join(r + "_row" for r in ROWS))


def put(root, name, content):
    path = os.path.join(root, name)
    os.makedirs(os.path.dirname(path), exist_ok=True)
    with open(path, "w") as out:
        out.write(content + ("\n" if content else ""))


if __name__ == "__main__":
    main()

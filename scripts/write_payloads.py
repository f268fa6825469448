#!/usr/bin/env python3
"""Writes the payloads of crates/problem_cases/stdin: behind the words of each row `put WORDS = DIGITS`, the digits.

The words are one of these, where `key=value` may be left out, and an option's value is a name:

    catalog NAMESPACE/NAME PRIORITY body=blank
    csv NAMESPACE/NAME PHASE package=P version=V replaces=N owned=NAME:VERSION:KIND,.. kind=K
    subscription NAMESPACE/NAME PACKAGE CATALOG_NAMESPACE/CATALOG channel=C starting=N manual=yes
    strategy NAMESPACE/NAME forward|default kind=K
    plain KIND NAMESPACE/NAME
    removal KIND NAMESPACE/NAME

and each may have expect=VERSION and the group of its key, group=G. `--check` writes nothing, and fails if a row's digits aren't those of its words. The
spelling is that of docs/payloads.md, written here a second time.
"""
import pathlib
import sys

ROWS = pathlib.Path(__file__).parent.parent / "crates/problem_cases/stdin"
PHASES = "Nothing Pending InstallReady Installing Succeeded Failed Replacing Deleting".split()


def number(value):
    return value.to_bytes(8, "big", signed=value < 0)


def text(value):
    data = value.encode()
    return number(len(data)) + data


def option(value):
    return b"\0" if value is None else b"\1" + text(value)


def many(items):
    return number(len(items)) + b"".join(items)


def write(kind, at, options, made, group="operators.coreos.com"):
    """A write by the user: of an object with this body, status and nothing else, or of none."""
    namespace, name = at.split("/")
    key = text(options.get("group", group)) + text(kind) + text(namespace) + text(name)
    head = b"\0" + number(int(options.get("expect", "0"))) + key
    if made is None:
        return head + b"\0"
    body, status = made
    return head + b"\1" + text(body) + status + b"\0\0" + number(0)


def catalog(options, at, priority):
    body = " \n" if options.get("body") == "blank" else ""
    return write("CatalogSource", at, options, (body, b"\1" + number(int(priority))))


def csv(options, at, phase):
    owned = [text(part) for crd in options.get("owned", "").split(",") if crd for part in crd.split(":")]
    status = (
        b"\3" + option(options.get("package")) + text(options.get("version", ""))
        + number(len(owned) // 3) + b"".join(owned) + many([]) + many([])
        + option(options.get("replaces")) + bytes([PHASES.index(phase)])
    )
    return write(options.get("kind", "ClusterServiceVersion"), at, options, ("", status))


def subscription(options, at, package, source):
    namespace, name = source.split("/")
    spec = (
        text(package) + option(options.get("channel")) + text(name) + text(namespace)
        + option(options.get("starting")) + (b"\1" if options.get("manual") == "yes" else b"\0")
    )
    return write("Subscription", at, options, ("", b"\2" + spec + b"\0"))


def strategy(options, at, word):
    status = b"\7" + (b"\1" if word == "forward" else b"\0")
    return write(options.get("kind", "Strategy"), at, options, ("", status), "olmctl.local")


def plain(options, kind, at):
    return write(kind, at, options, ("", b"\0"))


def removal(options, kind, at):
    return write(kind, at, options, None)


FORMS = {f.__name__: f for f in (catalog, csv, subscription, strategy, plain, removal)}


def with_digits(row):
    if not row.startswith("put "):
        return row
    words = row.split(" = ")[0]
    form, *given = words.split(" ")[1:]
    options = dict(word.split("=", 1) for word in given if "=" in word)
    return f"{words} = {FORMS[form](options, *[word for word in given if '=' not in word]).hex()}"


def main():
    rows = ROWS.read_text().split("\n")
    wanted = [with_digits(row) for row in rows]
    if sys.argv[1:] == ["--check"]:
        sys.exit(0 if rows == wanted else "some digits aren't those of their words: run this without --check")
    ROWS.write_text("\n".join(wanted))


main()

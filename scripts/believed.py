#!/usr/bin/env python3
"""Lists the definitions that the contract of a public call rests on.

    scripts/believed.py olm_cli::olmctl
    scripts/believed.py olm_cli::olmctl --text      the definitions whole, to be read from the top
    scripts/believed.py log_store::LogCluster::put

A reader who believes the listed definitions, and what the toolchain's own libraries say, knows what the
contract claims. Each definition comes after the ones that it uses. The list follows the names in the
call's clauses, then the names in each definition, through `ghost use` in .rt files and `use` in specs,
within this repository. Types and traits that the clauses see are listed with their declarations: a reader
needs their fields, and for a trait what its clauses say. Proofs are never followed.
"""
import re
import sys
from pathlib import Path

ROOT = Path(__file__).resolve().parent.parent
CRATES = ROOT / "crates"
NAME = r"[A-Za-z_◌][A-Za-z0-9_'\-◌>=⊗]*"
WORD = re.compile(r"[A-Za-z_][A-Za-z0-9_'\-]*(?:\.[A-Za-z_][A-Za-z0-9_'\-]*)*|>>=|⊗")
HEAD = re.compile(r"^(?:(?:abbrev|unfoldable|record|data|pub) )+(?!mod |use )(" + NAME + ")")
USE = re.compile(r"(?:pub |ghost )?use Rattle\.(\w+)\.specs\.([\w.]+?)(?:\.\{([^}]*)\}| as (\w+))?;?\s*$")
TYPE = re.compile(r"^\s*(?:pub(?:\([a-z ]+\))? )?(struct|enum|trait) (\w+)")


class Item:
    """A definition, or a declaration of the code: where it is, and what its text names."""

    def __init__(self, kind, name, path, first, last, text, scope):
        self.kind, self.name, self.path = kind, name, path
        self.first, self.last, self.text, self.scope = first, last, text, scope

    def place(self):
        return f"{self.path.relative_to(ROOT)}:{self.first}-{self.last}"


def uses_of(lines):
    """What a file imports: names to (crate, module, name), and aliases to (crate, module)."""
    names, aliases, passed_on = {}, {}, []
    for line in lines:
        found = USE.match(line.strip())
        if not found:
            continue
        crate, module, listed, alias = found.groups()
        if alias:
            aliases[alias] = (crate, module)
        for part in (listed or "").split(","):
            part = part.strip()
            if part:
                old, _, new = part.partition(" as ")
                names[(new or old).strip()] = (crate, module, old.strip())
                if line.strip().startswith("pub use"):
                    passed_on.append((new or old).strip())
    return names, aliases, passed_on


class Module:
    """A file of definitions."""

    def __init__(self, crate, name, path):
        self.crate, self.name, self.path = crate, name, path
        lines = path.read_text().splitlines()
        self.names, self.aliases, self.passed_on = uses_of(lines)
        self.items = {}
        heads = [i for i, line in enumerate(lines) if HEAD.match(line)]
        for here, following in zip(heads, heads[1:] + [len(lines)]):
            last = following
            while last > here + 1 and (not lines[last - 1].strip() or lines[last - 1].startswith(("--", "use"))):
                last -= 1
            first = here
            while first > 0 and lines[first - 1].startswith("--"):
                first -= 1
            name = HEAD.match(lines[here]).group(1)
            text = "\n".join(lines[first:last])
            item = Item("definition", name, path, first + 1, last, text, self)
            self.items[name] = item
            if re.match(r"(?:pub )?data ", lines[here]):
                for variant in re.findall(r"^\s+([A-Z]\w*) :", text, re.M):
                    self.items.setdefault(variant, item)


class Code:
    """A file of code: its public types, traits and constants, with the names that its ghost clauses import."""

    def __init__(self, crate, path):
        self.crate, self.path = crate, path
        self.lines = path.read_text().splitlines()
        self.names, self.aliases, _ = uses_of(self.lines)
        self.items = {}
        for i, line in enumerate(self.lines):
            found = TYPE.match(line)
            if found:
                self.items[found.group(2)] = self.block(i, found.group(1), found.group(2))
            constant = re.match(r"^pub const (\w+)", line)
            if constant:
                self.items[constant.group(1)] = Item("constant", constant.group(1), path, i + 1, i + 1, line, self)

    def block(self, start, kind, name):
        end = start
        if not self.lines[start].rstrip().endswith(";"):
            while end < len(self.lines) and not re.match(r"^\}", self.lines[end]):
                end += 1
        text = "\n".join(self.lines[start:end + 1])
        model_at = next((i for i, line in enumerate(self.lines) if line.startswith("impl") and re.search(r"\bModel for " + name + r"\b", line)), None)
        if model_at is not None:
            stop = model_at
            while not re.match(r"^\}", self.lines[stop]):
                stop += 1
            text += "\n" + "\n".join(self.lines[model_at:stop + 1])
        return Item(kind, name, self.path, start + 1, end + 1, text, self)


modules, codes = {}, {}
for crate_path in sorted(CRATES.iterdir()):
    crate = crate_path.name
    for path in sorted((crate_path / "specs").rglob("*.antt")):
        name = ".".join(path.relative_to(crate_path / "specs").with_suffix("").parts)
        modules[(crate, name)] = Module(crate, name, path)
    codes[crate] = [Code(crate, path) for path in sorted((crate_path / "src").rglob("*.rt"))]


def type_of(crate, name):
    for code in codes.get(crate, []):
        if name in code.items:
            return code.items[name]
    return None


def lookup(crate, module, name):
    """The item of a name in a module, through what the module passes on; None where it isn't of this repository."""
    if crate not in codes:
        return None
    if module.startswith("declared"):
        parts = module.split(".")[1:]
        owners = [part for part in parts if re.match(r"[A-Z]", part) and not part.startswith("The")]
        return type_of(crate, owners[-1] if owners else name)
    found = modules.get((crate, module))
    if not found:
        return None
    if name in found.items:
        return found.items[name]
    if name in found.passed_on:
        return lookup(*found.names[name])
    for mixfix in found.items:
        if name and name == mixfix.replace("◌", ""):
            return found.items[mixfix]
    return None


def named(token, scope):
    """The items that a token of a text names, in the scope of its file."""
    parts = token.split(".")
    if len(parts) > 1 and parts[0] in scope.aliases:
        crate, module = scope.aliases[parts[0]]
        return lookup(crate, module, parts[1])
    name = parts[0]
    own = scope.items.get(name) or next((scope.items[i] for i in scope.items if "◌" in i and i.replace("◌", "") == name), None)
    if own:
        return own
    if name in scope.names:
        return lookup(*scope.names[name])
    mixfix = next((n for n in scope.names if "◌" in n and n.replace("◌", "") == name), None)
    if mixfix:
        return lookup(*scope.names[mixfix])
    if isinstance(scope, Code) and re.match(r"[A-Z]", name):
        here = type_of(scope.crate, name)
        if here:
            return here
        for line in scope.lines:
            found = re.match(r"^\s*(?:pub )?use (\w+)::(.*);", line)
            if found and found.group(1) in codes and re.search(r"\b" + name + r"\b", found.group(2)):
                return type_of(found.group(1), name)
    return None


def comments_off(text):
    return "\n".join(re.sub(r'"[^"]*"', '""', line) for line in text.splitlines() if not re.match(r"\s*(--|//|#\[)", line))


def gather(item, order, seen):
    if item is None or item.place() in seen:
        return
    seen.add(item.place())
    for token in WORD.findall(comments_off(item.text)):
        gather(named(token, item.scope), order, seen)
    order.append(item)


def clauses_of(crate, path):
    """The signature of a function with its clauses, as an item."""
    owner, name = (path[0], path[1]) if len(path) > 1 else (None, path[0])
    for code in codes[crate]:
        inside = None
        for i, line in enumerate(code.lines):
            block = re.match(r"^(?:impl|pub trait)\b(.*)", line)
            if block:
                inside = block.group(1)
            if line.startswith("}"):
                inside = None
            if not re.match(r"^\s*(?:pub )?fn " + name + r"\b", line):
                continue
            if owner is None and inside is not None or owner and not (inside and re.search(r"\b" + owner + r"\b", inside)):
                continue
            indent = re.match(r"^\s*", line).group(0)
            end = i
            while end < len(code.lines) and code.lines[end] != indent + "{" and not re.match(indent + r".*;$", code.lines[end]) and not (end == i and line.rstrip().endswith("{")):
                end += 1
            text = "\n".join(code.lines[i:end])
            implemented = re.search(r"(\w+)(?:<[^>]*>)? for " + owner, inside) if owner else None
            if implemented:
                text += "\n" + implemented.group(1)
            return Item("contract", "::".join(path), code.path, i + 1, end, text, code)
    sys.exit(f"no function {'::'.join(path)} in {crate}")


def main():
    words = [word for word in sys.argv[1:] if not word.startswith("-")]
    if len(words) != 1 or "::" not in words[0]:
        sys.exit(__doc__)
    crate, *path = words[0].split("::")
    if crate not in codes:
        sys.exit(f"no crate {crate}")
    contract = clauses_of(crate, path)
    order = []
    gather(contract, order, set())
    order.pop()
    for item in order + [contract]:
        print(f"{item.place()} {item.kind} {item.name}")
        if "--text" in sys.argv:
            print(item.text + "\n")
    definitions = [item for item in order if item.kind == "definition"]
    lines = sum(item.last - item.first + 1 for item in definitions)
    files = len({item.path for item in definitions})
    print(f"definitions {len(definitions)} lines {lines} files {files}; types, traits and constants of the code {len(order) - len(definitions)}")


if __name__ == "__main__":
    main()

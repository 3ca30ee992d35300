"""What the repository's specs/ and proofs/ define: each definition with what it cites, and each law with its statement."""
import re
from pathlib import Path

ITEM = re.compile(r"^( *)((?:abbrev |unfoldable |pub )*)([^\s:({]+) : (.*)$")
USE = re.compile(r"^ *(?:ghost |pub )?use (Rattle\.[^\s{;]+?)(?:\.\{([^}]*)\}| as (\w+))?;?$", re.M)
TOKEN = re.compile(r"[^\s(){},;λ→]+")


class Item:
    "a definition or a law: its path as an attribute names it, how it is marked, its statement and what its text cites"

    def __init__(self, crate, modules, name, marks):
        self.crate, self.name, self.marks = crate, name, marks
        self.path = "::".join([crate, *modules, name])
        self.cites, self.states = set(), set()
        self.takes, self.gives = [], ""


def imports(text):
    "each name that a file brings in, with the path of what it is; a module's short name stands for its path"
    found = {}
    for path, names, alias in USE.findall(text):
        parts = path.split(".")[1:]
        if names:
            for name in names.split(","):
                whole, _, short = name.strip().partition(" as ")
                found[(short or whole).strip().strip("◌")] = "::".join(parts + [whole])
        elif alias:
            found[alias] = "::".join(parts)
    return found


def cited(text, known):
    "the paths of what a text names"
    found = set()
    for token in TOKEN.findall(text):
        head, _, tail = token.partition(".")
        if token in known:
            found.add(known[token])
        elif head in known:
            found.update((known[head], f"{known[head]}::{tail.split('.')[0]}"))
    return found


class Names:
    "all definitions and laws of a repository"

    def __init__(self, root):
        self.root = Path(root)
        self.definitions, self.laws = {}, {}
        for folder in sorted(self.root.glob("crates/*")):
            for kind, into in (("specs", self.definitions), ("proofs", self.laws)):
                for path in sorted((folder / kind).rglob("*.antt")):
                    if path.name not in ("Answers.antt", "Invariants.antt", "Proof.antt", "Lib.antt") or into is self.definitions:
                        for item in items(path, folder, kind):
                            into[item.path] = item

    def reached(self, starts, depth):
        "what the definitions `starts` come to: how many unfoldables are opened on the way, and how many steps it is"
        found = {path: (0, 0) for path in starts if path in self.definitions}
        todo = list(found)
        while todo:
            path = todo.pop(0)
            opened, steps = found[path]
            cost = (opened + ("unfoldable" in self.definitions[path].marks), steps + 1)
            for other in self.definitions[path].cites:
                if other in self.definitions and cost[0] <= depth and found.get(other, (depth + 1, 0)) > cost:
                    found[other] = cost
                    todo.append(other)
        return found


def module_before(lines, at):
    "the parameters of the module that the line `at` stands in"
    heads = [l for l in lines[:at] if l.startswith("module _ ")]
    return heads[-1].removeprefix("module _ ").removesuffix("where") if heads else ""


def arguments(text):
    "what is to be written where a statement is cited, for each whether it is a premise and not a value; and what is stated of it"
    found, text = [], text.strip()
    while text:
        depth, end = 0, 0
        while end < len(text) and (depth or end == 0 or text[end] not in " →"):
            depth += (text[end] in "({") - (text[end] in ")}")
            end += 1
        part, rest = text[:end], text[end:].lstrip()
        binder = part[0] in "({" and " : " in part
        if binder and part[0] == "(":
            found += [False] * len(part[1:].partition(" : ")[0].split())
        elif not binder:
            arrow = top_arrow(text)
            if arrow is None:
                return found, text
            found.append(True)
            rest = text[arrow + 1:]
        text = rest.lstrip().removeprefix("→").lstrip()
    return found, text


def top_arrow(text):
    "where the first arrow outside brackets stands"
    depth = 0
    for at, c in enumerate(text):
        depth += (c in "({") - (c in ")}")
        if c == "→" and not depth:
            return at
    return None


def items(path, folder, kind):
    "the items of one .antt file"
    text = path.read_text()
    modules = [kind, *path.relative_to(folder / kind).with_suffix("").parts]
    known, found = imports(text), []
    lines = text.split("\n")
    starts = [(at, m) for at, m in ((at, ITEM.match(l)) for at, l in enumerate(lines)) if m and (m.group(2) or not m.group(1))]
    for _, m in starts:
        known.setdefault(m.group(3).strip("◌"), "::".join([folder.name, *modules, m.group(3)]))
    for (at, m), after in zip(starts, [s[0] for s in starts[1:]] + [len(lines)]):
        item = Item(folder.name, modules, m.group(3), m.group(2).split())
        body = [l for l in lines[at:after] if not l.lstrip().startswith("--")]
        head = [body[0]]
        for line in body[1:]:
            if re.match(rf" *(unfolding|{re.escape(item.name)})\b", line) or not line.strip():
                break
            head.append(line)
        statement = " ".join(l.strip() for l in head)
        item.takes, gives = arguments(statement.partition(" : ")[2])
        if m.group(1):
            item.takes = arguments(module_before(lines, at))[0] + item.takes
        item.gives = "≡" if "≡" in gives else gives.partition(" ")[0]
        item.states, item.cites = cited(statement, known), cited("\n".join(body), known) - {item.path}
        found.append(item)
    return found

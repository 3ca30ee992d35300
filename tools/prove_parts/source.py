"""The functions of a crate's .rt files: where each stands, its contract, its body, and the attribute that says how it is proved."""
import re
from pathlib import Path

FN = re.compile(r"^( *)(?:pub(?:\([a-z]+\))? )?(?:const |unsafe |extern \"C\" )*fn (\w+)")
BLOCK = re.compile(r"^( *)(?:pub )?(?:impl|trait)\b(?:<[^{]*?>)? (.*?) *\{$")
HELP = re.compile(r"^ *#\[tactic\(auto, (?:using\(([^)]*)\))?(?:, )?(?:unfolding\(([^)]*)\))?\)\]$")


class Function:
    "a function in a file: `key` is the folder of its proof, as in `sync/SyncMachine/next`"

    def __init__(self, path, key, owner, name, contract, body, ghosts):
        self.path, self.key, self.owner, self.name = path, key, owner, name
        self.contract, self.body, self.ghosts = contract, body, ghosts


def owner_of(head):
    "what the proof's folder is called for a block's head: `Machine for Sync` is SyncMachine"
    plain = re.sub(r"<.*?>", "", head).split(" where ")[0].split(":")[0].strip()
    trait, _, of = plain.partition(" for ")
    return (of + trait).replace("'", "") if of else trait


def module_of(path, root):
    parts = list(path.relative_to(root).with_suffix("").parts)
    return [p for p in parts if p not in ("lib", "main", "mod")]


def ending(lines, at, indent):
    "the line that closes what opens at line `at`"
    if lines[at].rstrip().endswith(("}", ";")):
        return at
    while at + 1 < len(lines) and lines[at] not in (indent + "}", indent + "};"):
        at += 1
        if lines[at].startswith(indent + ")") and lines[at].endswith(";"):
            break
    return at


def functions(root):
    "all functions of a crate's folder src, in the order of their files"
    found = []
    for path in sorted(Path(root).rglob("*.rt")):
        lines = path.read_text().split("\n")
        block, ghosts, closes = "", [], None
        for at, line in enumerate(lines):
            if closes is not None and at > closes:
                block, ghosts, closes = "", [], None
            opened = BLOCK.match(line)
            if opened:
                block, closes = opened.group(2), ending(lines, at, opened.group(1))
                ghosts = [l for l in lines[at:closes] if re.match(r" *ghost ", l)]
            met = FN.match(line)
            if met:
                found.append(function_at(path, root, lines, at, met, block, ghosts))
    return found


def function_at(path, root, lines, at, met, block, ghosts):
    indent, name = met.groups()
    last = ending(lines, at, indent)
    text = lines[at:last + 1]
    brace = text.index(indent + "{") if indent + "{" in text else 0
    owner = owner_of(block)
    key = "/".join(module_of(path, root) + ([owner] if owner else []) + [name])
    return Function(path, key, block, name, "\n".join(text[:brace]), "\n".join(text[brace:]), ghosts)


def place(lines, function):
    "the line of the function's `fn`, in the file's lines as they stand now"
    block, closes = "", None
    for at, line in enumerate(lines):
        if closes is not None and at > closes:
            block, closes = "", None
        opened = BLOCK.match(line)
        if opened:
            block, closes = opened.group(2), ending(lines, at, opened.group(1))
        met = FN.match(line)
        if met and met.group(2) == function.name and block == function.owner:
            return at
    raise SystemExit(f"prove: {function.path} has no {function.name} now")


def attribute(function):
    "the laws and the definitions of the function's attribute, and the whole line; None where it has none"
    lines = function.path.read_text().split("\n")
    at = place(lines, function) - 1
    while at >= 0 and lines[at].lstrip().startswith("#["):
        met = HELP.match(lines[at])
        if met:
            return [tuple(w.strip() for w in (g or "").split(",") if w.strip()) for g in met.groups()]
        at -= 1
    return None


def written(using, unfolding):
    parts = [f"using({', '.join(using)})"] * bool(using) + [f"unfolding({', '.join(unfolding)})"] * bool(unfolding)
    return f"#[tactic(auto, {', '.join(parts)})]"


def set_attribute(function, help_of):
    "puts the attribute (laws, definitions) above the function in the place of what it has; None takes it away"
    lines = function.path.read_text().split("\n")
    at = place(lines, function)
    first = at
    while first > 0 and lines[first - 1].lstrip().startswith("#["):
        first -= 1
    kept = [l for l in lines[first:at] if not HELP.match(l)]
    indent = re.match(" *", lines[at]).group(0)
    if help_of and (help_of[0] or help_of[1]):
        kept.append(indent + written(*help_of))
    text = "\n".join(lines[:first] + kept + lines[at:])
    if text != "\n".join(lines):
        function.path.write_text(text)

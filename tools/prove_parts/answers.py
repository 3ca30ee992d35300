"""Writes Answers.antt for what no attribute closes: terms are tried at each open goal, made of the facts on the way to it.

One check tries many terms at a goal: each is a lemma of its own in the file, under the goal's statement, and the check names those that
it refuses.
"""
import itertools, re
from prove_parts import source

# Checks at most, and terms tried at a goal in one of them.
ROUNDS, TRIED = 3, 40
# Orders tried of what a law's premises are given.
PERMUTED = 6
IMPORTS = {
    "ne_eqb": "borrow.Author.Tests", "sym": "mathlib.Core.Path", "arith": "Rattle.std.proofs.Common",
    "rules": "Rattle.std.proofs.Common", "common_steps": "Rattle.std.proofs.lemmas.Grind", "return": "Rattle.hardware.specs.Talk",
}


def facts(goal):
    "what stands on the way to a goal: the arms, the tests and what the calls ensure"
    arms, tests, ensures = [], [], []
    for step, fields in goal.steps.items():
        for field in fields:
            term = f"{step}.{field}"
            if re.match(r"c\.in[-_]", step) and re.fullmatch(r"is(-\d+)?", field):
                arms.append(term)
            elif field.split(".")[0] == "ensures":
                ensures.append(term)
            elif step.startswith("c.if-") and field in ("true", "false"):
                equal = re.search(r"-eq(\d+|-\w+)?$", step)
                tests.append(f"ne_eqb _ _ {term}" if equal and field == "false" else term)
            elif step == "c" and field == "requires":
                tests.append("c.requires")
    return arms, tests, ensures


def binders(text):
    "a λ for each argument that a goal takes before what it states, and the first word of that"
    names = []
    while True:
        met = re.match(r"[({](\w+(?: \w+)*) : [^()]*[)}] → ", text) or re.match(r"()(?:List )?[ℕA-Z]\w* → ", text)
        if not met:
            break
        names += met.group(1).split() or [f"x{len(names)}"]
        text = text[met.end():]
    head = re.match(r"(?:[\w·-]+\.)*([\w-]+)", text)
    return f"λ {' '.join(names)}. " if names else "", head.group(1) if head else ""


def lists(goal, laws):
    "lists of facts for `simp`, the likeliest first"
    arms, tests, ensures = facts(goal)
    told = [t for t in tests if t != "c.requires"]
    found = [arms + ensures, arms + told + ensures, arms + told + ensures + laws, arms + ensures + laws[:1]]
    found += [arms + tests + ensures + laws[:2], arms + told + ensures + laws[:4], told + ensures + laws, ensures + laws[:1], laws[:1]]
    found += [arms + told + [e for e in ensures if e != one] + laws for one in ensures]
    found += [arms + told + [f"← {e}" if e == one else e for e in ensures] for one in ensures]
    return [l for l in map(list, dict.fromkeys(map(tuple, found))) if l]


def endings(law, takes, talks, goal):
    "a law with its arguments: values left to be found, the last as the end of a talk, and premises from the facts on the way"
    arms, _, ensures = facts(goal)
    if True in takes:
        count = takes.count(True)
        given = [[f"(rw {arm})", *more] for arm in arms for more in itertools.permutations(ensures, count - 1)]
        given += map(list, itertools.permutations(ensures, count))
        found = [[premises.pop(0) if premise else "_" for premise in takes] for premises in given[:PERMUTED]]
    else:
        found = [["_"] * len(takes)] + [["_"] * (len(takes) - 1) + ["(return _)"]] * (talks and len(takes) > 0)
    return [" ".join([law, *words]) for words in found]


def terms(goal, laws, ends, stated):
    "the answers to try at a goal; `ends` are laws with their arguments, which may be what is left, or state the goal itself"
    (start, _), (arms, _, ensures) = binders(goal.text), facts(goal)
    simp = [f"{start}simp ({', '.join(l)})" for l in lists(goal, laws)]
    way = ", ".join(arms + ensures)
    exact = [f"{start}simp ({way}) ({end})" if way else start + end for end in ends] + [start + end for end in ends if way]
    back = [f"{start}simp ({way}) (simp (sym {e}))" for e in ensures[:3]]
    listed = "".join(", " + w for w in laws + ensures)
    more = [f"{start}grind (arith, common_steps{listed})", f"{start}search (rules{listed})"]
    whole = [start + end for end in ends if " _ " not in end or "c." in end]
    if stated:
        return whole + simp[:3] + more + exact[:4]
    return simp[:3] + whole[:4] + more[:1] + exact[:8] + simp[3:6] + back[:1] + whole[4:8] + simp[6:] + exact[8:] + more[1:] + back[1:]


def without(term, words):
    "a term with these entries taken out of its lists"
    for word in words:
        term = re.sub(rf"\({re.escape(word)}, |, {re.escape(word)}(?=[,)])", lambda m: "(" if m.group(0)[0] == "(" else "", term)
    return term


class Answers:
    "the answers of the functions that are open still"

    def __init__(self, crate, checks, candidates, log):
        self.root, self.checks, self.candidates, self.log = crate, checks, candidates, log
        self.closed, self.todo, self.offers, self.said = {}, {}, {}, {}

    def path(self, function):
        return self.root / "proofs" / function.key / "Answers.antt"

    def begin(self, functions, report):
        "the terms to try at each goal of these functions, which have no file yet"
        for function in functions:
            offer = report.offers.get((function.key, "Answers"))
            goals = {n: g for (key, n), g in report.goals.items() if key == function.key}
            if not offer or not goals or self.path(function).exists() or (function.key, "Invariants") in report.offers:
                continue
            reached = self.candidates.reached(function)
            ours = (source.attribute(function) or [()])[0]
            self.offers[function], self.closed[function] = offer, {}
            shut = self.candidates.opened(reached)
            for name, goal in goals.items():
                self.todo[function, name] = self.tries(goal, list(dict.fromkeys(ours + self.laws(reached, goal))), shut)

    def laws(self, reached, goal):
        "the laws to try at a goal: first those that state what it does"
        head = binders(goal.text)[1]
        ranked = self.candidates.ranked(reached)
        alike = [p for p in ranked if self.candidates.states(p, head)]
        return tuple(self.candidates.written(p) for p in dict.fromkeys(alike[:8] + ranked[:6 - len(alike[:3])]))

    def tries(self, goal, laws, shut):
        "pairs of a term and the definitions to be opened"
        short = [l.split("::")[-1] for l in laws]
        for path in (*laws, *shut[:3]):
            self.said[path.split("::")[-1]] = path
        opened = [tuple(s.split("::")[-1] for s in shut[:k]) for k in (0, 1, 2, 3) if k <= len(shut)]
        ends = [end for law in laws for end in endings(law.split("::")[-1], *self.candidates.arguments(law), goal)]
        stated = any(self.candidates.states(law, binders(goal.text)[1]) for law in laws)
        every = [(i + 6 * j, term, u) for i, term in enumerate(terms(goal, short, ends, stated)) for j, u in enumerate(opened)]
        return [(term, u) for _, term, u in sorted(every)][:ROUNDS * TRIED]

    def used(self, body):
        "a `use` line for each name that a file's answers have"
        found = {}
        for word in dict.fromkeys(re.findall(r"[\w-]+", re.sub(r"\b(c|goal)\.[\w.-]+", "", "\n".join(body)))):
            if word in IMPORTS:
                found.setdefault(IMPORTS[word], []).append(word)
            elif word in self.said:
                steps = self.said[word].split("::")
                steps[0] = self.root.name if steps[0] == "crate" else steps[0]
                found.setdefault(".".join(["Rattle", *steps[:-1]]), []).append(word)
        return [f"use {module}.{{{', '.join(names)}}}" for module, names in sorted(found.items())]

    def write(self, function, trial):
        "the file with each goal's terms, the last as its answer; gives which of them each line is of"
        offer, body = self.offers[function], []
        for at, line in enumerate(offer):
            met = re.match(r"pub (\S+) : (.*)", line)
            for k, (term, opened) in enumerate(trial.get(met.group(1), []) if met else []):
                last = k == len(trial[met.group(1)]) - 1
                name = met.group(1) if last else f"try-{at}-{k}"
                takes = offer[at + 1].partition(" = ")[0][len(met.group(1)):]
                body += [f"-- {met.group(1)} {k}", f"{'pub ' * last}{name} : {met.group(2)}"]
                body += [f"unfolding {' '.join(opened)}"] * bool(opened) + [f"{name}{takes} = {term}", ""]
        lines = self.used(body) + [l for l in offer if l.endswith("Goals as goal")] + [""] + body
        self.path(function).parent.mkdir(parents=True, exist_ok=True)
        self.path(function).write_text("\n".join(l for l in lines if not l.startswith("-- ")).rstrip() + "\n")
        place, now = {}, None
        for line in lines:
            if line.startswith("-- "):
                now = (line.split()[1], int(line.split()[2]))
            else:
                place[len(place) + 1] = now
        return place

    def search(self):
        "rounds of one check, in which each open goal is tried by its next terms"
        for turn in range(ROUNDS):
            trial, places = {}, {}
            for (function, name), left in self.todo.items():
                if left and name not in self.closed[function]:
                    trial.setdefault(function, {})[name] = left[:TRIED]
                    del left[:TRIED]
            if not trial:
                break
            for function, terms_of in trial.items():
                places[function] = self.write(function, terms_of)
            report = self.checks.run()
            for function, terms_of in trial.items():
                self.take(function, terms_of, places[function], report)
            done = sum(self.whole(f) for f in self.closed)
            self.log(f"answers, round {turn + 1}: {done} of {len(self.closed)} closed by a file")
        self.settle()

    def settle(self):
        "leaves a file where each goal has its answer, and none elsewhere"
        for function in self.closed:
            if self.whole(function):
                self.write(function, {n: [a] for n, a in self.closed[function].items()})
            else:
                self.remove(function)

    def take(self, function, trial, place, report):
        "the shortest term that the check admits at each goal, without what it never applied"
        bad = {place.get(at) for at in report.refused.get(function.key, ())}
        if not report.judged or None in bad:
            return
        for name, terms_of in trial.items():
            good = [k for k in range(len(terms_of)) if (name, k) not in bad]
            idle = {k: report.idle(function.key, [l for l, of in place.items() if of == (name, k)]) for k in good}
            found = sorted((len(without(terms_of[k][0], idle[k])) + 9 * len(terms_of[k][1]), k) for k in good)
            if found:
                k = found[0][1]
                self.closed[function][name] = (without(terms_of[k][0], idle[k]), terms_of[k][1])

    def whole(self, function):
        "whether each goal of the function has its answer"
        return all(name in self.closed[function] for f, name in self.todo if f is function)

    def remove(self, function):
        "takes the function's file away, and the folders that held nothing else"
        self.path(function).unlink(missing_ok=True)
        folder = self.path(function).parent
        while folder != self.root / "proofs" and folder.exists() and not any(folder.iterdir()):
            folder.rmdir()
            folder = folder.parent

"""Which attributes to try on a function: laws and definitions that its contract leads to, the likeliest first."""
import collections, math
from prove_parts import names, source

# Attributes tried on a function, bundles of laws for one, and definitions opened at once.
MOST, BUNDLES, OPENED = 24, 12, 6


def dependencies(root):
    "each crate of crates.txt with the crates below it"
    found = {}
    for line in (root / "crates.txt").read_text().split("\n"):
        head, colon, below = line.partition("#")[0].partition(":")
        if colon:
            found[head.split()[0]] = below.split()
    return found


def rank(bundle, opened):
    "where the pair of a bundle and of the definitions opened stands: one alone before both, but the first of each soon"
    if bundle == opened == 1:
        return 1.5
    return 0.6 * bundle + opened + (opened if bundle else 0)


class Candidates:
    "the laws that a crate can cite, and which of them the attributes of all crates do cite"

    def __init__(self, root, crate):
        self.crate = crate
        self.names = names.Names(root)
        self.below = dependencies(root)[crate]
        self.used, self.lists, self.traits = collections.Counter(), collections.Counter(), {}
        for other in dependencies(root):
            for function in source.functions(root / "crates" / other / "src"):
                if " for " not in function.owner:
                    self.traits[source.owner_of(function.owner), function.name] = function
                laws = [other + l[len("crate"):] if l.startswith("crate::") else l for l in (source.attribute(function) or [()])[0]]
                if laws and all(l.split("::")[0] in (crate, "std", *self.below) for l in laws):
                    self.used.update(laws)
                    self.lists[tuple(laws)] += 1
        self.laws = [l for l in self.names.laws.values() if "pub" in l.marks and (l.crate == crate or l.crate in self.below)]
        self.often = collections.Counter(d for l in self.names.laws.values() for d in l.states)

    def written(self, path):
        return "crate" + path[len(self.crate):] if path.startswith(self.crate + "::") else path

    def law(self, path):
        "the law of a path as an attribute names it"
        return self.names.laws.get(self.crate + path[len("crate"):] if path.startswith("crate::") else path)

    def states(self, path, word):
        "whether what a law states begins with this word, and is no equation"
        return word != "" and self.law(path) is not None and self.law(path).gives == word

    def arguments(self, path):
        "which arguments a law takes, and whether it speaks of talks"
        law = self.law(path)
        return (law.takes, any(d.startswith("hardware::specs::Talk::") for d in law.states)) if law else ([], False)

    def reached(self, function):
        "what the function's contract comes to, and that of its trait"
        known = names.imports(function.path.read_text())
        starts = names.cited(function.contract + "\n" + "\n".join(function.ghosts), known)
        trait = self.traits.get((function.owner.partition(" for ")[0].partition("<")[0], function.name))
        if trait and " for " in function.owner:
            starts |= names.cited(trait.contract, names.imports(trait.path.read_text()))
        return self.names.reached(starts, 1)

    def opened(self, reached):
        "the unfoldables that the contract leads to, the nearest first"
        shut = [p for p in reached if "unfoldable" in self.names.definitions[p].marks and "'" not in p and "·" not in p]
        return [self.written(p) for p in sorted(shut, key=lambda p: (reached[p], p))]

    def score(self, law, reached):
        "how near the law's statement is to the contract, and how often other crates cite it"
        own = [d for d in law.states if d in self.names.definitions]
        near = [d for d in own if d in reached]
        value = sum(1 / (1 + reached[d][0] + 0.3 * reached[d][1]) / math.log(2 + self.often[d]) for d in near)
        cover = len(near) / max(1, len(own))
        value *= 2 * cover / (1 + 0.1 * len(own))
        value += 0.6 * math.log(1 + self.used[law.path]) + 0.7 * (law.crate == self.crate)
        return value - (bool(own) and cover < 0.5)

    def fits(self, laws, reached):
        "whether these laws speak of definitions, and each of those comes up in the contract"
        return bool(self.told(laws)) and all(d in reached for d in self.told(laws))

    def told(self, laws):
        "the repository's definitions that these laws speak of"
        return {d for l in laws if l in self.names.laws for d in self.names.laws[l].states if d in self.names.definitions}

    def ranked(self, reached):
        return [l.path for l in sorted(self.laws, key=lambda l: self.score(l, reached), reverse=True)]

    def bundles(self, reached):
        "lists of laws to try together"
        own = [p for p in self.ranked(reached) if p.startswith(self.crate + "::")]
        lists = [l for l, _ in self.lists.most_common() if self.fits(l, reached)]
        found = [(), *lists[:1]]
        for more in zip([own[:1], own[:4], own[:8]], [lists[1:2], lists[2:3], lists[3:4]]):
            found += [tuple(more[0])] + [tuple(l) for l in more[1]]
        plain = [l for l, _ in self.lists.most_common() if not self.told(l)]
        found += lists[4:7] + [tuple(self.ranked(reached)[:6])] + [tuple(own[:4]) + l for l in lists[:2]] + plain[:3]
        return [tuple(self.written(p) for p in l) for l in dict.fromkeys(found)][:BUNDLES]

    def of(self, function):
        "the attributes to try, as pairs of laws and definitions"
        reached = self.reached(function)
        bundles, shut = self.bundles(reached), self.opened(reached)
        opened = [tuple(shut[:k]) for k in (0, 1, 2, 3, OPENED) if k <= max(len(shut), 1)]
        pairs = [(rank(i, j), i, j) for i in range(len(bundles)) for j in range(len(opened))]
        found = [(bundles[i], opened[j]) for _, i, j in sorted(pairs) if bundles[i] or opened[j]]
        return list(dict.fromkeys(found))[:MOST]

"""Finds attributes: each round sets one on each open function, runs one check, and reads which functions it closed."""
from prove_parts import source

# Rounds at most, and those after the last that closed a goal.
ROUNDS, IDLE = 12, 4


class Attributes:
    "the search for the attributes of a crate's open functions"

    def __init__(self, checks, candidates, log):
        self.checks, self.candidates, self.log = checks, candidates, log
        self.best, self.began = {}, {}

    def tried(self, trial):
        "one check with an attribute on each function of `trial`; one that the compiler refuses leaves its function open"
        for function, help_of in trial.items():
            source.set_attribute(function, help_of)
        return self.checks.run()

    def search(self, lefts):
        "closes what attributes close: `lefts` gives each function with the number of its open goals"
        todo, idle = {}, 0
        for function, left in lefts.items():
            self.began[function] = source.attribute(function)
            self.best[function] = (left, self.began[function])
            todo[function] = self.candidates.of(function)
        for turn in range(ROUNDS):
            trial = {f: todo[f].pop(0) for f in todo if self.best[f][0] and todo[f]}
            if not trial or idle == IDLE:
                break
            before = {f: self.best[f] for f in trial}
            report = self.tried(trial)
            for function in trial:
                self.weigh(function, trial[function], report)
            idle = 0 if any(self.best[f] != before[f] for f in trial) else idle + 1
            self.log(f"round {turn + 1}: {len(self.closed())} of {len(lefts)} closed by an attribute")
        self.put()

    def weigh(self, function, help_of, report):
        "keeps what closes the function, or closes more of its goals than what was best"
        left = report.left(function.key)
        if left < self.best[function][0]:
            self.best[function] = (left, help_of)

    def closed(self):
        return [f for f, (left, _) in self.best.items() if not left]

    def put(self):
        for function, (_, help_of) in self.best.items():
            source.set_attribute(function, help_of)

    def less(self, function, k):
        "the function's attribute without its law or definition number k; None where it has no more than one"
        laws, shut = self.best[function][1] or ((), ())
        if len(laws) + len(shut) < 2 or k >= len(laws) + len(shut) or self.best[function][1] == self.began[function]:
            return None
        at = k - len(laws)
        return (laws[:k] + laws[k + 1:], shut) if at < 0 else (laws, shut[:at] + shut[at + 1:])

    def shorten(self):
        "takes out, one in a round, each law and each definition without which no more goals are open"
        at = {f: 0 for f in self.best}
        while True:
            trial = {f: self.less(f, k) for f, k in at.items() if self.less(f, k)}
            if not trial:
                break
            report = self.tried(trial)
            for function, help_of in trial.items():
                left = self.best[function][0]
                if report.left(function.key) <= left:
                    self.best[function] = (left, help_of)
                else:
                    at[function] += 1
            self.put()
        self.log(f"shortened: {sum(len(w) for f in self.closed() for w in self.best[f][1])} laws and definitions are left")

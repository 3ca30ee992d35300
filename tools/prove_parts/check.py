"""One run of `rt check` in a crate's folder, and what it says of each function: the goals that are open, and what they may cite."""
import re, subprocess, time

FUNCTION = re.compile(r"^fn (\S+): (.*)$")
PLACE = re.compile(r"expected \w+ in \./proofs/")
GOALS = re.compile(r"`search` did not prove ((?:`[^`]+`(?:, )?)+)")
ERROR = re.compile(r"^\./proofs/(\S+)/Answers\.antt:(\d+):\d+: error")
IDLE = re.compile(r"^\./proofs/(\S+)/Answers\.antt:(\d+):\d+: note: `simp` .*never applied (.*) \(in `")
OFFER = re.compile(r"^help: write \./proofs/(\S+)/(\w+)\.antt with these lines")
UNKNOWN = 1000
NOTE = re.compile(r"^note: `([^`]+)` of proofs/(\S+)/Answers\.antt must prove: (.*)$")


class Goal:
    "a goal that is open: its text, and the fields of each step on the way to it"

    def __init__(self, text):
        self.text, self.steps = text, {}


class Report:
    "what one check said"

    def __init__(self, text, seconds):
        self.text, self.seconds = text, seconds
        self.lefts, self.open, self.refused, self.unused = {}, {}, {}, {}
        self.goals, self.offers = {}, {}
        lines = text.split("\n")
        for line in lines:
            self.read(line)
        self.read_offers(lines)
        self.read_goals(lines)
        self.judged = re.search(r"^logic=", text, re.M) is not None
        self.proved = re.search(r"^logic=proved ", text, re.M) is not None

    def read(self, line):
        met, error, idle = FUNCTION.match(line), ERROR.match(line), IDLE.match(line)
        if idle:
            self.unused[idle.group(1), int(idle.group(2))] = re.findall(r"`([^`]+)`", idle.group(3))
        if error:
            self.refused.setdefault(error.group(1), set()).add(int(error.group(2)))
        if not met:
            return
        key, said = "/".join(met.group(1).split("::")[1:]), met.group(2)
        goals = GOALS.search(said)
        if PLACE.search(said):
            self.open[key] = re.findall(r"`([^`]+)`", goals.group(1)) if goals else []
        waits = re.match(r"(no proof: |not proved; )it calls ", said)
        self.lefts[key] = len(self.open.get(key, ())) or (0 if said == "proved" or waits else UNKNOWN)

    def left(self, key):
        "how many goals of a function are open: 0 also where nothing is wrong but that a callee is not proved"
        return UNKNOWN if key in self.refused or not self.judged else self.lefts.get(key, UNKNOWN)

    def idle(self, key, lines):
        "what an answer on these lines lists and `simp` never applied"
        return [word for line in lines for word in self.unused.get((key, line), ())]

    def read_offers(self, lines):
        for at, line in enumerate(lines):
            met = OFFER.match(line)
            if met:
                body = []
                for more in lines[at + 1:]:
                    if not more.startswith("    "):
                        break
                    body.append(more[4:])
                self.offers[met.group(1), met.group(2)] = body

    def read_goals(self, lines):
        last = None
        for line in lines:
            met = NOTE.match(line)
            if met:
                last = self.goals[met.group(2), met.group(1)] = Goal(met.group(3))
                key = met.group(2)
            elif line.startswith("  | ") and last:
                self.step(line[4:], last, key)

    def step(self, line, goal, key):
        "one line of the names that a goal may cite"
        before = re.match(r"as in `([^`]+)` above, as far as (\S+)", line)
        if before:
            for name, fields in self.goals.get((key, before.group(1)), goal).steps.items():
                goal.steps[name] = fields
                if name == before.group(2):
                    break
            return
        name, _, fields = line.partition(": ")
        same = re.match(r"same as (\S+)", fields)
        goal.steps[name] = goal.steps.get(same.group(1), []) if same else fields_of(fields)


def fields_of(text):
    "the fields of a step, and in place of `ensures` its clauses, where they have names"
    found = []
    for name, inner in re.findall(r"(?:^|, )\.([\w-]+)(?: \{([^}]*)\})?", text):
        clauses = re.findall(r"\.([\w-]+)", inner) if name == "ensures" else []
        found += [f"{name}.{clause}" for clause in clauses] or [name]
    return found


class Checks:
    "runs the checks of one crate, and counts them"

    def __init__(self, folder, log):
        self.folder, self.log, self.count, self.seconds = folder, log, 0, 0

    def run(self, *words):
        start = time.monotonic()
        done = subprocess.run(["rt", "check", *words], cwd=self.folder, capture_output=True, text=True)
        self.count += 1
        report = Report(done.stdout + done.stderr, time.monotonic() - start)
        self.seconds += report.seconds
        waiting = sum(left == 0 for left in report.lefts.values())
        self.log(f"check {self.count}: {waiting} of {len(report.lefts)} functions have no open goal, {report.seconds:.0f} s")
        return report

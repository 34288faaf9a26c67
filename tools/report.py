"""Reads merge reports for `picture` and `explain`.

A report is put before `hemovulish check` first, and read only where it is accepted. Reading it
here proves nothing: what is shown is taken from lines that the program has checked."""
import os
import re
import subprocess
import sys

HERE = os.path.dirname(os.path.realpath(__file__))
PROGRAM = os.path.join(os.path.dirname(HERE), "hemovulish")

DISTANCES = {
    "hamming": "hamming: the number of atoms on which two valuations differ",
    "drastic": "drastic: 0 where two valuations are equal, and 1 where they are not",
}
AGGREGATORS = {
    "sum": "sum: the distances added up",
    "max": "max: the greatest distance",
    "leximax": "leximax: the distances from the greatest down, compared from the left",
}
KINDS = {
    "ended": "the report ends too early, too late, or without what its end line says",
    "problem": "the line is no canonical line of a problem, or the problem has a fault with it",
    "form": "the line has none of the forms that are due at its place",
    "step": "the step does not follow from the clauses before it, or its number or form is wrong",
    "witness": "by plain evaluation the line is not true",
    "claim": "the step that the line names does not show the claim",
}
CHECKED = {
    "merged": "the model satisfies the constraint and none that does is closer; the distances are "
    "exact; a query has yes exactly where each closest model satisfies it, and after a no stands "
    "a closest model that does not",
    "inconsistent": "the formulas that are named have no model, and each other one has the model "
    "that is shown",
    "spent": "the log is sound, and its last steps, as many as a question might learn, were "
    "learned, each of them new; nothing is said of the closest models",
}
ANY_MODEL = (
    "By the drastic distance each model of a formula is at distance 1, but for the closest model "
    "itself: the nearest model that is shown is any of them."
)
CONNECTIVES = {"&": " and ", "|": " or ", "<->": " exactly where "}
BINARY = ("&", "|", "->", "<->")
RESERVED = {"and", "or", "not", "if", "then", "exactly", "where"}


class Unreadable(Exception):
    """A report was accepted and still has lines that are not known here."""


class Verdict:
    """What `check` said: the kind of an accepted report, or the line and kind of a refusal."""

    def __init__(self, status, text):
        self.status, self.text = status, text
        accepted = re.fullmatch(r"accepted (merged|inconsistent|spent)", text)
        refused = re.fullmatch(r"refused line ([0-9]+): ([a-z]+)", text)
        self.kind = accepted[1] if accepted and status == 0 else None
        self.line = int(refused[1]) if refused and status == 7 else None
        self.word = refused[2] if refused and status == 7 else None


def called(program):
    """The name by which a page calls the program that checked its report."""
    return "./hemovulish" if program == PROGRAM else program


def check(report, program):
    """Puts a report before the program. Its standard error is handed on."""
    done = subprocess.run([program, "check"], input=report, stdout=subprocess.PIPE)
    return Verdict(done.returncode, done.stdout.decode("ascii", "replace").strip("\n"))


class Agent:
    def __init__(self, name, times, base):
        self.name, self.times, self.base = name, times, base


class Closest:
    """A closest model, its distance to each agent's base, and models of the bases there."""

    def __init__(self, model, vector, nearest):
        self.model, self.vector, self.nearest = model, vector, nearest

    def differing(self, agent):
        """The numbers of the atoms on which the agent's nearest model differs from the model."""
        pairs = zip(self.model, self.nearest[agent])
        return [k for k, (here, there) in enumerate(pairs) if here != there]


class Report:
    """An accepted report. `first`, `measure` and `verdicts` (None for a yes, else the closest
    model in which the query is false) stand after a merge; `models` (of the constraint, then of
    each agent's base; None where there is none) after an inconsistent problem."""

    def __init__(self):
        self.atoms, self.agents, self.asks = [], [], []
        self.distance = self.aggregator = self.constraint = self.first = None
        self.conflicts = self.variables = self.clauses = 0
        self.measure, self.verdicts, self.models = [], [], []
        self.steps = {"learned": 0, "claimed": 0}
        self.shown = []

    def closest(self):
        """The different closest models that the report shows, the first one first."""
        found = [self.first] + [it for it in self.verdicts if it]
        return list({it.model: it for it in reversed(found)}.values())[::-1]

    def repeated(self):
        """The distances of the first model, each as often as its agent counts."""
        pairs = zip(self.agents, self.first.vector)
        return [entry for agent, entry in pairs for _ in range(agent.times)]


# Formulas are tuples: a connective or "atom" or "constant" first, then their parts.


def parse(text):
    """The formula of a canonical text."""
    tokens = re.findall(r"[A-Za-z0-9_]+|<->|->|[!&|()]", text)
    formula, rest = parsed(tokens, 0)
    if rest != len(tokens):
        raise Unreadable("the formula %r goes on" % text)
    return formula


def token_at(tokens, at):
    return tokens[at] if at < len(tokens) else ""


def parsed(tokens, at):
    """The formula that begins at a token, and the place after it."""
    token = token_at(tokens, at)
    if token == "!":
        child, at = parsed(tokens, at + 1)
        return ("!", child), at
    if token == "(":
        left, at = parsed(tokens, at + 1)
        right, end = parsed(tokens, at + 1)
        if token_at(tokens, at) not in BINARY or token_at(tokens, end) != ")":
            raise Unreadable("a formula has no canonical text")
        return (tokens[at], left, right), end + 1
    if not re.fullmatch(r"[A-Za-z_][A-Za-z0-9_]*", token):
        raise Unreadable("a formula has no canonical text")
    return ("constant" if token in ("true", "false") else "atom", token), at + 1


def parts(formula, connective):
    """The formulas that a connective joins at the top, from left to right."""
    if formula[0] != connective:
        return [formula]
    return parts(formula[1], connective) + parts(formula[2], connective)


def named(formula):
    """The atoms that stand in a formula."""
    if formula[0] == "atom":
        return {formula[1]}
    return set().union(*(named(it) for it in formula[1:] if isinstance(it, tuple)))


def words(formula, inner=False):
    """A formula in words; brackets stand round an inner one that is joined."""
    kind = formula[0]
    if kind == "atom":
        return '"%s"' % formula[1] if formula[1] in RESERVED else formula[1]
    if kind == "constant":
        return {"true": "always true", "false": "never true"}[formula[1]]
    if kind == "!":
        return "not " + words(formula[1], True)
    if kind == "->":
        said = "if %s then %s" % (words(formula[1], True), words(formula[2], True))
    else:
        joined = formula[1:] if kind == "<->" else parts(formula, kind)
        said = CONNECTIVES[kind].join(words(it, True) for it in joined)
    return "(%s)" % said if inner else said


# The lines of a report, in their order.


class Lines:
    """The lines of a report that are still to be read."""

    def __init__(self, text):
        self.lines, self.at = text.split("\n"), 0

    def begins(self, word):
        return self.lines[self.at].split(" ")[0] == word

    def take(self, word):
        """The rest of the next line, which begins with a word."""
        line = self.lines[self.at] if self.at < len(self.lines) else ""
        if line.split(" ")[0] != word:
            raise Unreadable("line %d has no %s" % (self.at + 1, word))
        self.at += 1
        return line[len(word) + 1 :]


def read(data):
    """The report of an accepted text."""
    report, lines = Report(), Lines(data.decode("ascii"))
    lines.take("merge-report")
    report.distance = lines.take("distance")
    report.aggregator = lines.take("aggregator")
    report.conflicts = int(lines.take("conflicts"))
    read_problem(report, lines)
    if lines.begins("model"):
        read_merged(report, lines)
    elif lines.begins("gave-up"):
        lines.take("gave-up")
    else:
        read_models(report, lines)
    read_log(report, lines)
    return report


def read_problem(report, lines):
    report.atoms = lines.take("atoms").split(" ")
    report.constraint = parse(lines.take("constraint"))
    while lines.begins("agent"):
        head, base = lines.take("agent").split(" : ", 1)
        name, _, times = head.partition(" times ")
        report.agents.append(Agent(name, int(times or 1), parse(base)))
    while lines.begins("ask"):
        report.asks.append(parse(lines.take("ask")))


def read_closest(lines):
    model = lines.take("model")
    vector = [int(it) for it in lines.take("vector").split(" ")]
    return Closest(model, vector, lines.take("nearest").split(" "))


def read_merged(report, lines):
    report.first = read_closest(lines)
    report.measure = [int(it) for it in lines.take("measure").split(" ")]
    for _ in report.asks:
        answer = lines.take("verdict").split(" ")[1]
        report.verdicts.append(read_closest(lines) if answer == "no" else None)


def read_models(report, lines):
    while lines.begins("no-model") or lines.begins("has-model"):
        if lines.begins("no-model"):
            lines.take("no-model")
            report.models.append(None)
        else:
            report.models.append(lines.take("has-model").split(" ")[-1])


def read_log(report, lines):
    counts = lines.take("main").split(" ")
    report.variables, report.clauses = int(counts[0]), int(counts[1])
    while lines.begins("step"):
        report.steps[lines.take("step").split(" ", 2)[1]] += 1
    while lines.begins("shown"):
        report.shown.append(lines.take("shown"))
    lines.take("end")


# What both tools say of a report.


def measured(report):
    """How the measure comes from the distances."""
    full = report.repeated()
    if report.aggregator == "sum":
        return "%s = %d" % (" + ".join(map(str, full)), report.measure[0])
    if report.aggregator == "max":
        return "the greatest of %s is %d" % (" ".join(map(str, full)), report.measure[0])
    return "%s from the greatest down: %s" % (
        " ".join(map(str, full)),
        " ".join(map(str, report.measure)),
    )


def given_up(report, closest, agent):
    """The literals of an agent's nearest model that the model does not have."""
    chosen, atoms = closest.nearest[agent], report.atoms
    return [("" if chosen[k] == "1" else "not ") + atoms[k] for k in closest.differing(agent)]


def seen(report, number):
    """The query before this one whose no names the same model, 0 where it is the first model, and
    None where the model is new."""
    models = [report.first] + report.verdicts[: number - 1]
    model = report.verdicts[number - 1].model
    return next((k for k, it in enumerate(models) if it and it.model == model), None)


def ties(report):
    """Whether the report shows more than one compromise."""
    count = len(report.closest())
    if count > 1:
        return "The report shows %d different closest models, all of this measure." % count
    return "The report shows one closest model. Whether others tie with it, it does not say."


def gave_up(report):
    """What a report says of a search that gave up."""
    return (
        "A question of the search learned %s, as many as it might, and the search gave up. Which "
        "models are closest is not known. A greater number after the words of the command lets "
        "each question learn more." % plural(report.conflicts, "step")
    )


def plural(count, word):
    return "%d %s%s" % (count, word, "" if count == 1 else "s")


def log_said(report):
    """The size of the log, and what it shows."""
    steps = report.steps["learned"] + report.steps["claimed"]
    return "%s, %s, %s (%d learned, %d claimed); %s named." % (
        plural(report.variables, "variable"),
        plural(report.clauses, "clause"),
        plural(steps, "step"),
        report.steps["learned"],
        report.steps["claimed"],
        plural(len(report.shown), "proof"),
    )


def refused_line(data, verdict):
    """The line that was refused, as printable text, cut where it is long."""
    lines = data.split(b"\n")
    if not 1 <= verdict.line <= len(lines):
        return ""
    text = lines[verdict.line - 1][:120].decode("latin-1")
    return "".join(it if " " <= it <= "~" else "\\x%02x" % ord(it) for it in text)


def run(tool, page):
    """Runs a tool: `page(program, data, verdict, report)` gives its text. The status is 0 for an
    accepted report, 7 for one that is refused, and else says what went wrong."""
    arguments = sys.argv[1:]
    program = PROGRAM
    if arguments[:1] == ["--program"] and len(arguments) > 1:
        program, arguments = os.path.abspath(arguments[1]), arguments[2:]
    if len(arguments) > 1 or any(it.startswith("-") for it in arguments):
        print("usage: %s [--program PROGRAM] [REPORT]" % tool, file=sys.stderr)
        return 2
    try:
        with open(arguments[0] if arguments else 0, "rb") as file:
            data = file.read()
    except OSError as error:
        print("%s: %s" % (tool, error), file=sys.stderr)
        return 4
    return answer(tool, page, program, data)


def answer(tool, page, program, data):
    try:
        verdict = check(data, program)
    except OSError as error:
        print("%s: no program to check the report: %s" % (tool, error), file=sys.stderr)
        return 125
    if not verdict.kind and not verdict.line:
        said = (tool, verdict.text or "nothing", verdict.status)
        print("%s: check said %s, with status %d: nothing is shown" % said, file=sys.stderr)
        return verdict.status or 1
    try:
        report = read(data) if verdict.kind else None
        text = page(program, data, verdict, report).encode()
        with open(1, "wb", closefd=False) as file:
            file.write(text)
    except Unreadable as error:
        print("%s: accepted, but not known here: %s" % (tool, error), file=sys.stderr)
        return 1
    except OSError as error:
        print("%s: %s" % (tool, error), file=sys.stderr)
        return 5
    return 0 if verdict.kind else 7

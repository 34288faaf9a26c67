"""What tests/run checks of tools/picture and tools/explain, over every example.

The wanted numbers are read from the report by patterns here, and not by the tools' own reader.
No name in a problem can be markup, since names are letters, digits and `_`: what is escaped is
tested with a report that is refused, whose line is shown."""
import os
import pty
import re
import subprocess
import xml.etree.ElementTree as ElementTree

HERE = os.path.dirname(os.path.abspath(__file__))
TOP = os.path.dirname(HERE)
EXAMPLES = os.path.join(TOP, "examples")
PROGRAM = os.path.join(TOP, "crates", "hemovulish", "out", "hemovulish")
SECONDS = 60


def tool(name, report):
    """The status and the output of a tool."""
    words = [os.path.join(TOP, "tools", name), "--program", PROGRAM]
    done = subprocess.run(words, input=report, stdout=subprocess.PIPE, stderr=subprocess.PIPE,
                          timeout=SECONDS)
    if done.stderr:
        raise ValueError("%s wrote to standard error: %r" % (name, done.stderr[:300]))
    return done.returncode, done.stdout.decode()


def in_terminal(name, report):
    """What a tool writes to a terminal."""
    words = [os.path.join(TOP, "tools", name), "--program", PROGRAM]
    ours, theirs = pty.openpty()
    environment = dict(os.environ, TERM="xterm")
    environment.pop("NO_COLOR", None)
    with subprocess.Popen(words, stdin=subprocess.PIPE, stdout=theirs,
                          env=environment) as running:
        os.close(theirs)
        running.stdin.write(report)
        running.stdin.close()
        pieces = []
        try:
            while piece := os.read(ours, 65536):
                pieces.append(piece)
        except OSError:
            pass
    os.close(ours)
    return b"".join(pieces).decode().replace("\r\n", "\n")


def merged(words, text):
    done = subprocess.run([PROGRAM] + words, input=text, stdout=subprocess.PIPE, timeout=SECONDS)
    return done.stdout


def lines_of(report, word):
    """The words after a line's first word, for each line that begins with it."""
    found = re.findall(r"^%s(?: (.*))?$" % word, report.decode(), re.MULTILINE)
    return [it.split(" ") for it in found]


def differ(what, found, wanted):
    return None if found == wanted else "%s: shows %r, wanted %r" % (what, found, wanted)


def first(complaints):
    return next(filter(None, complaints), None)


def agents_of(report):
    """The names of the agents, and how often each counts."""
    found = re.findall(r"^agent (\S+)(?: times (\d+))? : ", report.decode(), re.MULTILINE)
    return [(name, times or "1") for name, times in found]


def last_numbers(measure):
    """The measure that stands at the end of how it is made."""
    return re.split(r"[=:]|is ", measure)[-1].split()


def apart(report):
    """On how many atoms the first nearest models differ from the first model."""
    model = lines_of(report, "model")[0][0]
    nearest = lines_of(report, "nearest")[0]
    return sum(a != b for it in nearest for a, b in zip(it, model))


# The page of tools/picture.


def parsed(page):
    head = "<!DOCTYPE html>\n"
    if not page.startswith(head):
        raise ValueError("the page has no doctype")
    return ElementTree.fromstring(page[len(head):])


def unsafe(page, tree):
    """Whether the page runs or loads something, or draws without words beside it."""
    loads = re.search(r"<script|https?:|//|url\(|@import|javascript", page)
    named = [key for it in tree.iter() for key in it.attrib
             if key.startswith("on") or key in ("src", "href")]
    drawings = [it for it in tree.iter("svg") if it.get("role") == "img"]
    silent = [it for it in drawings if not (it.find("title").text and it.find("desc").text)]
    return first([
        "the page loads %r" % loads[0] if loads else None,
        "the page has %s" % ", ".join(named) if named else None,
        "a drawing says nothing" if silent else None,
        "a drawing has no table" if len(drawings) > len(list(tree.iter("table"))) else None,
        None if "not proved" in page else "the page does not say that it is not proved",
    ])


def rows_of(tree, name):
    """The texts of a table's cells, by rows, without its head."""
    part = tree.find(".//*[@id='%s']" % name)
    rows = [] if part is None else part.findall(".//tbody/tr")
    return [["".join(cell.itertext()) for cell in row] for row in rows]


def page_numbers(report, tree):
    """What differs between the numbers of a merged report and those of its page."""
    model, nearest = lines_of(report, "model")[0][0], lines_of(report, "nearest")[0]
    vector = lines_of(report, "vector")[0]
    wanted = [[name, times, entry] for (name, times), entry in zip(agents_of(report), vector)]
    columns = [model] + nearest
    values = [["true" if it[k] == "1" else "false" for it in columns] for k in range(len(model))]
    shown = [[cell.split(",")[0] for cell in row[1:]] for row in rows_of(tree, "atoms")]
    grid = tree.find(".//svg[title='Atoms by agents']")
    stripes = tree.find(".//svg[title='Distances of the agents']").findall("rect")
    drawn = sum(int(times) for _, times, entry in wanted if entry != "0")
    marks = [it.text for it in tree.iter("span") if it.get("class") in ("yes", "no")]
    measure = tree.find(".//*[@id='measure']").text
    return first([
        differ("agents", [row[:3] for row in rows_of(tree, "agents")], wanted),
        differ("atoms", shown, values),
        differ("diamonds", len(grid.findall("polygon")), apart(report)),
        differ("stripes", len(stripes), drawn),
        differ("verdicts", marks, [it[1] for it in lines_of(report, "verdict")]),
        differ("measure", last_numbers(measure), lines_of(report, "measure")[0]),
        counters(report, tree),
    ])


def counters(report, tree):
    """What differs in the closest models where queries fail."""
    models, vectors = lines_of(report, "model"), lines_of(report, "vector")
    others = [k for k in range(1, len(models)) if models[k] not in models[:k]]
    found = []
    for section in tree.iter("section"):
        tables = section.findall(".//table")
        if tables:
            found.append([[cell.text for cell in row[1:]]
                          for row in tables[-1].findall("tbody/tr")])
    wanted = [[[a, b] for a, b in zip(vectors[0], vectors[k])] for k in others]
    return differ("distances where queries fail", found, wanted)


def picture_of(report, kind):
    status, page = tool("picture", report)
    tree = parsed(page)
    inside = page_numbers(report, tree) if kind == "merged" else None
    if kind == "inconsistent":
        lacks = [row[0] for row in rows_of(tree, "models") if row[1] == "has no model"]
        names = ["the constraint"] + [name for name, _ in agents_of(report)]
        entries = re.findall(r"^(no|has)-model", report.decode(), re.MULTILINE)
        wanted = [name for name, entry in zip(names, entries) if entry == "no"]
        inside = differ("formulas without models", lacks, wanted)
    return first([
        differ("status", status, 0),
        unsafe(page, tree),
        None if "accepted %s" % kind in page else "the page does not say accepted %s" % kind,
        inside,
    ])


# The text of tools/explain.


def block(text, head):
    """The lines under a head, to the next empty line or head."""
    found = re.search(r"^%s.*\n((?:.+\n)*(?:\n(?: .+\n)+)?)" % head, text, re.MULTILINE)
    return found[1] if found else ""


def text_numbers(report, text):
    """What differs between the numbers of a merged report and those of its text."""
    vector, model = lines_of(report, "vector")[0], lines_of(report, "model")[0][0]
    bars = re.findall(r"^  \S+ +(\d+)(?: (#+))?(?: \(counts (\d+) times\))?$",
                      block(text, "Who gives up what"), re.MULTILINE)
    wanted = [(entry, "#" * int(entry), "" if times == "1" else times)
              for entry, (_, times) in zip(vector, agents_of(report))]
    measure = block(text, "The measure").strip()
    grid = block(text, "Atom by atom")
    stars = len(re.findall(r" \*[01]", grid))
    values = re.findall(r"^  \S+ +([01])(?= )", grid, re.MULTILINE)
    verdicts = re.findall(r"^  [ \d]\d (yes|no )  ", text, re.MULTILINE)
    return first([
        differ("bars", bars, wanted),
        differ("measure", last_numbers(measure), lines_of(report, "measure")[0]),
        differ("stars", stars, apart(report)),
        differ("the model", "".join(values), model),
        differ("verdicts", [it.strip() for it in verdicts],
               [it[1] for it in lines_of(report, "verdict")]),
    ])


def explained(report, kind):
    status, text = tool("explain", report)
    wide = [it for it in text.split("\n") if len(it) > 80]
    strange = re.search(r"[^\n -~]", text)
    said = " ".join(text.split())
    shown = in_terminal("explain", report)
    plain = re.sub(r"\x1b\[\d+m", "", shown)
    return first([
        differ("status", status, 0),
        "a line is too wide: %r" % wide[0] if wide else None,
        "the text has %r" % strange[0] if strange else None,
        None if "\x1b[" in shown else "no colour in a terminal",
        None if plain == text else "a terminal gets another text",
        None if "not proved" in said else "the text does not say that it is not proved",
        None if "says: accepted %s." % kind in said else "not accepted as %s" % kind,
        text_numbers(report, text) if kind == "merged" else None,
    ])


# The cases.


def both(name, words, kind):
    """What is wrong with both tools over a report on an example."""
    with open(os.path.join(EXAMPLES, name), "rb") as file:
        report = merged(words, file.read())
    return picture_of(report, kind) or explained(report, kind)


def refused(line, hostile):
    """What is wrong with both tools over a report with another line."""
    with open(os.path.join(EXAMPLES, "outing.txt"), "rb") as file:
        report = merged(["merge", "hamming", "sum"], file.read())
    lines = report.split(b"\n")
    lines[line - 1] = hostile
    changed = b"\n".join(lines)
    (status, page), (other, text) = tool("picture", changed), tool("explain", changed)
    tree = parsed(page)
    said = "refused line %d: " % line
    shown = "".join(it if " " <= it <= "~" else "\\x%02x" % ord(it)
                    for it in hostile.decode("latin-1"))
    return first([
        differ("statuses", (status, other), (7, 7)),
        unsafe(page, tree),
        "a refused report is drawn" if "<svg" in page else None,
        None if said in page and said in text else "the refusal is not shown",
        None if shown in "".join(tree.itertext()) else "the line is not shown",
        "the text has control bytes" if re.search(r"[^\n -~]", text) else None,
    ])


def words_of(name):
    """The words that an example asks for."""
    with open(os.path.join(EXAMPLES, name), encoding="ascii") as file:
        return re.search(r"^# run: (.*)$", file.read(), re.MULTILINE)[1].split()


def cases():
    """Each case: its name and what says what is wrong with it."""
    found = []
    for name in sorted(os.listdir(EXAMPLES)):
        if name.endswith(".txt"):
            kind = "inconsistent" if name == "inconsistent.txt" else "merged"
            words = words_of(name)
            found.append((name, words, kind))
            other = ["merge", "drastic" if words[1] == "hamming" else "hamming", "sum"]
            found.append((name, other, kind))
    found.append(("planning.txt", ["merge", "hamming", "sum", "1"], "spent"))
    named = [("page %s %s" % (name, " ".join(words[1:])),
              lambda it=(name, words, kind): both(*it)) for name, words, kind in found]
    hostile = b"distance <script>alert('&\"')</script>\x1b[31m\xff"
    named.append(("page of a refused line", lambda: refused(2, hostile)))
    named.append(("page of a wrong measure", lambda: refused(13, b"measure 17")))
    return named

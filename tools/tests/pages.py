"""Checks of all pages: each link leads to a file that is there, and to a heading of that page; each path in the text is there; and the counts that pages
tell are those of the files; and lines of README and docs/ are short. CHECKS lists them for tools/test.py."""
import glob
import os
import re

TOP = os.path.dirname(os.path.dirname(os.path.dirname(os.path.realpath(__file__))))
LINK = re.compile(r"!?\[(?:[^\]\[]|\[[^\]]*\])*\]\(<?([^)>\s]+)>?\)")
SPAN = re.compile(r"`([^`\n]+)`")
HEADING = re.compile(r"^#{1,6} +(.*?) *#*$", re.M)
# The first part of a path of the repository, and words that stand for a part of it.
FOLDERS = ("bench", "crates", "docs", "examples", "mistakes", "tools", "web")
PLACEHOLDER = re.compile(r"\b(CRATE|NAME|FOLDER|FILE|PATH|PEERS)\b|[*<>{}$,|+]|\.\.")
# What a call makes, and what a machine may lack.
MADE = ("bench/against_peers/torture/", "web/dist/", "docs/man/m11.pdf")


def pages():
    found = glob.glob(os.path.join(TOP, "**", "*.md"), recursive=True)
    hidden = tuple(os.path.join(TOP, name) + os.sep for name in ("out", "dist", "node_modules"))
    return sorted(path for path in found if not path.startswith(hidden) and f"{os.sep}out{os.sep}" not in path)


def get(path):
    with open(path, encoding="utf-8") as file:
        return file.read()


def without_blocks(page):
    """A page without its indented and fenced blocks, with as many lines."""
    lines, fenced = [], False
    for line in page.split("\n"):
        fence = line.lstrip().startswith("```")
        lines.append("" if fenced or fence or line.startswith("    ") else line)
        fenced ^= fence
    return "\n".join(lines)


def anchors(page):
    """The anchors of a page's headings, as GitHub makes them."""
    found = []
    for heading in HEADING.findall(without_blocks(page)):
        plain = re.sub(r"\[([^\]]*)\]\([^)]*\)", r"\1", heading).replace("`", "").replace("*", "")
        anchor = re.sub(r"[^\w\- ]", "", plain.lower()).replace(" ", "-")
        found.append(anchor if anchor not in found else f"{anchor}-{found.count(anchor)}")
    return found


def line_of(text, at):
    return text.count("\n", 0, at) + 1


def wrong_link(path, target):
    """Why a link of a page leads nowhere, or None."""
    if re.match(r"[a-z]+:", target):
        return None
    name, _, anchor = target.partition("#")
    other = os.path.normpath(os.path.join(os.path.dirname(path), name)) if name else path
    if not os.path.exists(other):
        return "there is no such file"
    if anchor and (not other.endswith(".md") or anchor not in anchors(get(other))):
        return "there is no such heading"
    return None


def check_links():
    wrong, count = [], 0
    for path in pages():
        text = without_blocks(get(path))
        for found in LINK.finditer(text):
            count += 1
            why = wrong_link(path, found[1])
            if why:
                wrong.append(f"{os.path.relpath(path, TOP)}:{line_of(text, found.start())}: {found[1]}: {why}")
    return wrong if count > 100 else [f"only {count} links were found"]


def is_there(path, span):
    """Whether a path of a page's text is there: below the top, or beside the page."""
    places = (TOP, os.path.dirname(path))
    return any(os.path.exists(os.path.join(place, span)) for place in places)


def check_paths():
    wrong, count = [], 0
    for path in pages():
        text = without_blocks(get(path))
        for found in SPAN.finditer(text):
            span = re.sub(r"^(python3 |\./)", "", found[1]).split(" ")[0].rstrip("/")
            if span.split("/")[0] not in FOLDERS or "/" not in span or PLACEHOLDER.search(span) or span.startswith(MADE):
                continue
            count += 1
            if not is_there(path, span):
                wrong.append(f"{os.path.relpath(path, TOP)}:{line_of(text, found.start())}: there is no {span}")
    return wrong if count > 100 else [f"only {count} paths were found"]


def texts(*parts):
    return [get(path) for path in sorted(glob.glob(os.path.join(TOP, *parts), recursive=True))]


def cases():
    return len(texts("crates", "m11_suite", "data", "**", "*.case"))


def commands():
    return sum(len(re.findall("^words( |$)", text, re.M)) for text in texts("crates", "m11_suite", "data", "**", "*.case"))


def browser_tests():
    return sum(len(re.findall("^@test$", text, re.M)) for text in texts("web", "tests", "of_*.py"))


def edits():
    return len(glob.glob(os.path.join(TOP, "crates", "*", "must-fail", "*.edit")))


def mistakes():
    return len(glob.glob(os.path.join(TOP, "mistakes", "*", "*.edit")))


# A page, what it says with a number, and what the number is.
COUNTS = (
    ("docs/TESTED.md", r"([\d,]+) cases, [\d,]+ commands", cases), ("docs/TESTED.md", r"[\d,]+ cases, ([\d,]+) commands", commands),
    ("docs/TESTED.md", r"the ([\d,]+) cases of the suite", cases), ("docs/TESTED.md", r"([\d,]+) tests in Chromium", browser_tests),
    ("docs/MEASUREMENTS.md", r"The ([\d,]+) edits of `must-fail/`", edits), ("docs/MEASUREMENTS.md", r"the ([\d,]+) of `mistakes/`", mistakes),
    ("docs/TESTED.md", r"by `tools/mistakes` \| ([\d,]+) and", edits), ("docs/TESTED.md", r"by `tools/mistakes` \| [\d,]+ and ([\d,]+)", mistakes),
    ("docs/PROVED.md", r"the ([\d,]+) wrong edits", edits), ("mistakes/README.md", r"The ([\d,]+) of `must-fail/`", edits),
)


def check_counts():
    wrong = []
    for page, form, count in COUNTS:
        told = re.findall(form, get(os.path.join(TOP, page)))
        is_right = len(told) == 1 and told[0] == f"{count():,}"
        wrong += [] if is_right else [f"{page}: {form}: {', '.join(told) or 'nothing'}, and it is {count():,}"]
    return wrong


def check_widths():
    """The lines of README and docs/ that are longer than 120 columns, outside of tables and blocks."""
    wrong = []
    for path in pages():
        name = os.path.relpath(path, TOP)
        if name == "README.md" or name.startswith("docs" + os.sep):
            lines = without_blocks(get(path)).split("\n")
            wrong += [f"{name}:{number}: {len(line)} columns" for number, line in enumerate(lines, 1) if len(line) > 120 and not line.startswith("|")]
    return wrong


CHECKS = [("pages-links", check_links, ()), ("pages-paths", check_paths, ()), ("pages-counts", check_counts, ()), ("pages-widths", check_widths, ())]

"""Follows every relative link of the pages at the top and in docs: `python3 tools/test_reading.py` from the project's folder.

The file is there. Where a link names a line (`#L42`) and its text is a name in code quotes, the statement of that name begins in that line
(`pub NAME :`). What docs/TRACEABILITY.md names by package, file and name, and the must-fail edits that it names, are there too."""
import re
import tempfile
import unittest
from pathlib import Path

ROOT = Path(__file__).parent.parent
LINK = re.compile(r"\[([^\]]*)\]\(([^)\s]+)\)")
NAME = re.compile(r"`([^`]+)`")
LINE = re.compile(r"L(\d+)")
# `writing/Write.write_at`, and `must-fail writing/some_edit, reading/another`
DEFINED = re.compile(r"`([a-z_]+)/([A-Z]\w*)\.(?!antt\b)(\w+)`")
EDITS = re.compile(r"must-fail ((?:[a-z_]+/\w+)(?:, [a-z_]+/\w+)*)")
# Another site, or a place of the same page.
NOT_RELATIVE = re.compile(r"[a-z]+:|#")


def documents():
    """The pages whose links are followed."""
    return [*sorted(ROOT.glob("*.md")), *sorted((ROOT / "docs").rglob("*.md"))]


def is_named(line, name):
    """Whether a line has this name and not just a longer one."""
    return re.search(rf"(?<![\w-]){re.escape(name)}(?![\w-])", line) is not None


def is_stated(line, name):
    """Whether the statement of this name begins in this line."""
    return line.startswith(f"pub {name} :")


def name_fault(path, lines, number, name):
    """What is wrong with a name whose statement should begin in this line, or None."""
    if is_stated(lines[number - 1], name):
        return None
    places = [str(k) for k, line in enumerate(lines, 1) if is_stated(line, name)]
    return f"line {number} of {path} does not state {name}; it is stated in: {', '.join(places) or 'no line'}"


def fault(folder, text, target):
    """What is wrong with a link of a page in this folder, or None."""
    path, _, place = target.partition("#")
    if not (folder / path).exists():
        return f"{path} is not there"
    line = LINE.fullmatch(place)
    if line is None:
        return None
    lines = (folder / path).read_text(encoding="utf-8").splitlines()
    number = int(line[1])
    if not 0 < number <= len(lines):
        return f"{path} has no line {number}"
    name = NAME.fullmatch(text)
    return name_fault(path, lines, number, name[1]) if name else None


def faults(page, shown):
    """All that is wrong with the relative links of a page, each with the page and its line."""
    found = []
    for number, line in enumerate(page.read_text(encoding="utf-8").splitlines(), 1):
        for text, target in LINK.findall(line):
            what = None if NOT_RELATIVE.match(target) else fault(page.parent, text, target)
            if what:
                found.append(f"{shown}:{number}: {what}")
    return found


def is_defined(package, file, name):
    """Whether a file of specs/ or proofs/ has this name."""
    paths = [ROOT / "crates" / package / part / f"{file}.antt" for part in ("specs", "proofs")]
    return any(is_named(path.read_text(encoding="utf-8"), name) for path in paths if path.exists())


def not_there(text):
    """The definitions and must-fail edits that a page names and that are not there."""
    names = sorted(set(DEFINED.findall(text)) - {("package", "File", "name")})
    edits = sorted({edit for found in EDITS.findall(text) for edit in found.split(", ")})
    return [f"{package}/{file}.{name}" for package, file, name in names if not is_defined(package, file, name)] + [
        edit for edit in edits if not (ROOT / "crates" / edit.replace("/", "/must-fail/")).with_suffix(".edit").exists()]


class Reading(unittest.TestCase):
    def test_every_link_leads_there(self):
        found = [what for page in documents() for what in faults(page, page.relative_to(ROOT))]
        self.assertFalse(found, "\n" + "\n".join(found))

    def test_all_that_is_traced_is_there(self):
        self.assertEqual(not_there((ROOT / "docs" / "TRACEABILITY.md").read_text(encoding="utf-8")), [])

    def test_each_demand_has_its_link(self):
        beginning = (ROOT / "docs" / "READING.md").read_text(encoding="utf-8").split("\n## ")[0]
        targets = [target for text, target in LINK.findall(beginning) if NAME.fullmatch(text) and "#L" in target]
        # the third has two, of lists of calls and of what the functions return
        self.assertEqual(len(targets), 4)


class Followed(unittest.TestCase):
    """What the test itself finds, on a page of its own."""

    def found(self, text):
        with tempfile.TemporaryDirectory() as folder:
            laws = "one\npub isolation_within : two\npub isolation : three\nisolation = four\n"
            (Path(folder) / "laws").write_text(laws, encoding="utf-8")
            page = Path(folder) / "page.md"
            page.write_text(text, encoding="utf-8")
            return faults(page, "page.md")

    def test_good_links(self):
        self.assertEqual(self.found("[`isolation`](laws#L3), [laws](laws#L1), [page](page.md#head)"), [])
        self.assertEqual(self.found("[elsewhere](https://there/page.md), [here](#L9)"), [])

    def test_a_name_that_is_not_there(self):
        text = "`device/Map.decode_of` `device/Map.gone` must-fail lines/gone, lines/ticks_all_refused; `lines/specs/Lines.antt`"
        self.assertEqual(not_there(text), ["device/Map.gone", "lines/gone"])

    def test_a_file_that_is_missing(self):
        found = self.found("first\n[x](none.md) and [`y`](none#L1)")
        self.assertEqual(found, ["page.md:2: none.md is not there", "page.md:2: none is not there"])

    def test_a_line_that_is_missing(self):
        found = self.found("[x](laws#L5) [x](laws#L0)")
        self.assertEqual(found, ["page.md:1: laws has no line 5", "page.md:1: laws has no line 0"])

    def test_a_name_on_another_line(self):
        found = self.found("[`isolation`](laws#L2)\n[`alike`](laws#L2)")
        self.assertEqual(found, ["page.md:1: line 2 of laws does not state isolation; it is stated in: 3",
                                 "page.md:2: line 2 of laws does not state alike; it is stated in: no line"])

    def test_a_line_that_only_has_the_name(self):
        self.assertEqual(self.found("[`isolation`](laws#L4)"), ["page.md:1: line 4 of laws does not state isolation; it is stated in: 3"])


if __name__ == "__main__":
    unittest.main()

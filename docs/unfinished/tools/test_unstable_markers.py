"""Tests of unstable_markers.py: python3 tools/test_unstable_markers.py, in the repository's folder.

The example's two lists; spellings by hand; and every recorded cohort of two samples or more, without its first sample, without its last, and whole, its lists
made by differential/model.py, with a marker for every allele of either list, A and GT at its place and at the same position of every contig.
"""
import contextlib
import io
import shutil
import sys
import tempfile
import unittest
from pathlib import Path

sys.dont_write_bytecode = True
import unstable_markers as tool
import model as lists  # differential/model.py
from sheet_model import Marker, Record, called_of, selection_sheet

EXAMPLE = Path("examples/sheet")


def printed(*arguments):
    out = io.StringIO()
    with contextlib.redirect_stdout(out):
        code = tool.main(*arguments)
    return code, out.getvalue()


def without(cohort, sample):
    """A cohort's text without a sample and its sites."""
    rows = cohort.split("\n")[:-1]
    count = int(rows[0].split("=")[1])
    names = rows[1 : 1 + sample] + rows[2 + sample : 1 + count]
    text = [f"samples={count - 1}"] + names
    for at in range(1 + count, len(rows), lists.SITE_KEYS):
        number = int(rows[at].split("=")[1])
        if number != sample:
            text += [f"site={number - (number > sample)}"] + rows[at + 1 : at + lists.SITE_KEYS]
    return "".join(line + "\n" for line in text)


def called(folder):
    (folder / "combined.kv").write_text(lists.combined_list(folder))
    return called_of(lists.called_list(folder))


def pairs():
    """Called lists of the recorded cohorts without their first or their last sample, and of the whole ones."""
    for path in sorted(Path("recorded/combine").glob("*/cohort.kv")):
        cohort = path.read_text()
        count = int(cohort.split("\n")[0].split("=")[1])
        with tempfile.TemporaryDirectory() as name:
            folder = Path(name)
            for part in path.parent.glob("*.kv"):
                shutil.copy(part, folder)
            after = called(folder)
            for sample in (0, count - 1) if count > 1 else ():
                (folder / "cohort.kv").write_text(without(cohort, sample))
                with contextlib.suppress(ValueError):  # the reference lacks a letter that the shorter cohort needs
                    yield f"{path.parent.name} without {sample}", called(folder), after


def markers_of(*called_lists):
    records = [r for _, found in called_lists for r in found]
    contigs = sorted({r.contig for r in records})
    wanted = sorted({(contig, r.pos, a) for r in records for contig in contigs for a in r.alleles + ["A", "GT"]})
    return [Marker(f"m{i}", contig, pos, allele, 1, []) for i, (contig, pos, allele) in enumerate(wanted)]


class Unstable(unittest.TestCase):
    def test_example(self):
        """The printed lines; the lists and the sheets by the models."""
        markers, before, after = EXAMPLE / "after/markers.kv", EXAMPLE / "before/called.kv", EXAMPLE / "after/called.kv"
        self.assertEqual(printed(markers, before, after), (1, (EXAMPLE / "unstable.txt").read_text()))
        self.assertEqual(printed(markers, before), (1, (EXAMPLE / "open.txt").read_text()))
        self.assertEqual(printed(markers, after, after), (0, "0 of 6 markers changed, 0 more met otherwise\n"))
        for folder in (EXAMPLE / "before", EXAMPLE / "after"):
            self.assertEqual(lists.combined_list(folder), (folder / "combined.kv").read_text())
            self.assertEqual(lists.called_list(folder), (folder / "called.kv").read_text())
            texts = [(folder / part).read_text() for part in ("markers.kv", "called.kv", "sheet.kv")]
            self.assertEqual(selection_sheet(texts[0], texts[1], 65536), texts[2])

    def test_refused(self):
        self.assertEqual(printed(EXAMPLE / "before/called.kv", EXAMPLE / "before/called.kv"), (2, "refused=19\n"))

    def test_spellings(self):
        short, long = (Record("c", 1, alleles, []) for alleles in (["A", "G", "GT", "*"], ["AT", "A", "GT", "GTT", "*"]))
        for allele, spelled in (("A", "AT"), ("G", "GT"), ("GT", "GTT"), ("*", "*")):
            self.assertEqual(tool.carried(allele, short, long), spelled)
            self.assertEqual(tool.carried(spelled, long, short), allele)
        self.assertIsNone(tool.carried("A", long, short))
        self.assertEqual(tool.respelled("G", long), ["GT"])
        self.assertEqual(tool.respelled("AC", short), ["A"])
        self.assertIn("GT is spelled GTT now, and GT is another allele", tool.why("GT", short, long))

    def test_recorded_cohorts(self):
        """Each change has a reason; a marker that is not named from the list before changes only with REF, and never if it wants `*`."""
        seen, changed = 0, {}
        for case, before, after in pairs():
            markers = markers_of(before, after)
            seen += len(markers)
            for marker, reason, gained, lost in tool.changes(markers, before, after):
                old, new = (tool.record_at(marker, found) for _, found in (before, after))
                self.assertNotIn("not lists of the same sites", reason, (case, marker))
                self.assertIsNotNone(new, (case, marker))
                if tool.open_reason(marker, old) is None:
                    self.assertTrue(marker.allele != "*" and old.alleles[0] != new.alleles[0], (case, marker))
                sort = "no record" if old is None else "REF" if old.alleles[0] != new.alleles[0] else "new allele"
                changed[sort] = changed.get(sort, 0) + 1
        print(f"{seen} markers of recorded cohorts; changed: {changed}")
        self.assertEqual(set(changed), {"no record", "REF", "new allele"})


if __name__ == "__main__":
    unittest.main()

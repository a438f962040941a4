"""Lists the modules that the specs and proofs of the crate `selection_sheet` cite, and fails if one is a proof of a crate below other than `laws`.

Document 01: the selection sheet's crate stands above the library and cites its contracts alone.

  python3 tools/sheet_imports.py              the crate as it stands; exit status 1 if it cites such a proof
  python3 tools/sheet_imports.py --self-test  whether such lines are found
"""
import re
import sys
from pathlib import Path

CRATE = "selection_sheet"
ALLOWED = {"laws", CRATE}
USE = re.compile(r"^\s*(?:ghost )?use\s+(\S+?)(?:\.\{.*)?(?:\s+as\s+\S+)?;?\s*$")
CITED = re.compile(r"^Rattle·([a-z0-9_]+?)(?:·specs|·proofs)?\.(specs|proofs)\.(.+)$")


def cited(text):
    """The (crate, folder, module) of each import of a crate's module in a file."""
    found = []
    for line in text.split("\n"):
        use = USE.match(line)
        if not use:
            continue
        module = CITED.match(use.group(1))
        if module:
            found.append(module.groups())
        elif "Rattle·" in line:
            sys.exit("tools/sheet_imports.py: cannot read the line " + line)
    return found


def is_wrong(crate, folder):
    return folder == "proofs" and crate not in ALLOWED


def self_test():
    right = "use Rattle·laws.proofs.Checked.{then}\nuse Rattle·files.specs.FileTexts.{readText}\nuse lib.ListN.{length}\n"
    own = "use Rattle·selection_sheet·proofs.proofs.Whole.{header-read}\nuse Rattle·selection_sheet·proofs.proofs.selection_sheet.Tie as tie\n"
    wrong = [
        "use Rattle·cohort.proofs.Whole.{names-count}",
        "use Rattle·answers.proofs.Answers.{answered-refused}",
        "use Rattle·list_walk.proofs.read_header.Reads as read-header-reads",
        "    use Rattle·kv_write.proofs.Laying.{Left}",
    ]
    assert not any(is_wrong(c, f) for c, f, _ in cited(right + own))
    assert len(cited(right + own)) == 4
    for line in wrong:
        assert [is_wrong(c, f) for c, f, _ in cited(line)] == [True], line
    print("4 lines that cite a proof are found, and 4 that do not pass")


def main():
    if sys.argv[1:] == ["--self-test"]:
        return self_test()
    folder = Path(__file__).resolve().parent.parent / "crates" / CRATE
    files = sorted(p for part in ("src", "specs", "proofs") for p in (folder / part).rglob("*") if p.suffix in (".antt", ".rt"))
    if not any("proofs" in p.parts for p in files):
        sys.exit(f"tools/sheet_imports.py: {folder} has no proofs")
    modules = {}
    for path in files:
        for module in cited(path.read_text()):
            modules.setdefault(module, []).append(path.relative_to(folder))
    wrong = 0
    for (crate, part, module), where in sorted(modules.items()):
        if crate == CRATE:
            continue
        bad = is_wrong(crate, part)
        wrong += bad
        print(f"{'WRONG ' if bad else ''}{crate} {part} {module}: {len(where)} file{'s' * (len(where) > 1)}")
        if bad:
            for path in where:
                print("    " + str(path))
    print(f"{len(files)} files, {wrong} proofs cited of crates below other than laws")
    return 1 if wrong else 0


if __name__ == "__main__":
    sys.exit(main())

#!/usr/bin/env python3
"""Tries the edits in crates/NAME/more-edits, each of which the prover must refuse.

The gate tries those in must-fail/ alone, so that it ends in an hour and a half on four
processors. Usage: more_edits.py NAME [NAME ..], where NAME/EDIT tries that edit alone. The
edits stand in must-fail/ while they are tried, by `rt must-fail NAME`, and are taken out
behind it.
"""
import pathlib
import shutil
import subprocess
import sys

ROOT = pathlib.Path(__file__).resolve().parent.parent


def tries(words):
    """Whether all edits of the crate are refused, those of the gate included, or one alone."""
    name, _, chosen = words.partition("/")
    crate = ROOT / "crates" / name
    edits = sorted((crate / "more-edits").glob(f"{chosen or '*'}.edit"))
    if not edits:
        print(f"{words}: it has no more edits than the gate tries")
        return not chosen
    folder, aside = crate / "must-fail", crate / "must-fail-aside"
    was_there = folder.is_dir()
    if chosen and was_there:
        folder.rename(aside)
    folder.mkdir(exist_ok=True)
    taken = []
    try:
        for edit in edits:
            if (folder / edit.name).exists():
                print(f"{name}: {edit.name} stands in must-fail/ too")
                return False
            taken.append(shutil.copy(edit, folder))
        return subprocess.run(["rt", "must-fail", name], cwd=ROOT).returncode == 0
    finally:
        for copy in taken:
            pathlib.Path(copy).unlink()
        if chosen or not was_there:
            folder.rmdir()
        if aside.is_dir():
            aside.rename(folder)


def main():
    names = sys.argv[1:]
    if not names:
        print(__doc__.strip())
        return 2
    return 0 if all([tries(name) for name in names]) else 1


if __name__ == "__main__":
    sys.exit(main())

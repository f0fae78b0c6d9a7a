#!/usr/bin/env python3
"""Random programs, built and run on the machine, against the second meaning of the language.

For each random program of `second_meaning.py` whose behaviour is defined and which ends within its
budget, `flexos exec` must write the same output and end with the same line and status, but that its
line counts turns. Where it ends, there must be at most 256 turns for each unit of cost and one more.
Programs on which they differ are kept in a folder.

Usage: built_programs.py PROGRAM COUNT KEEP [FIRST]
PROGRAM is the executable, COUNT how many programs are drawn, KEEP the folder for those that differ,
FIRST the number of the first one, 0 if not said. The exit status is 0 where none differs.
"""

import re
import shutil
import sys
import tempfile

import second_meaning
import second_reader

# cost, for the meaning; the machine's own budget is the default one
BUDGET = "20000"


def without_count(line):
    """A line of an exit without its count, and the count."""
    found = re.fullmatch(r"(exit -?\d+) in (\d+) (?:turns|steps)", line)
    return (found[1], int(found[2])) if found else (line, None)


def is_open(line):
    """Whether nothing is said of what the machine does: undefined behaviour, or no end in the budget."""
    return line == "broken: undefined" or line.startswith("steps spent")


def main(words):
    if len(words) not in (3, 4):
        print(__doc__.strip())
        return 2
    program, count, kept = second_meaning.os.path.abspath(words[0]), int(words[1]), words[2]
    first = int(words[3]) if len(words) == 4 else 0
    ends, differences, turns, cost = {}, 0, 0, 0
    for seed in range(first, first + count):
        case = second_meaning.random_case(seed)
        files, given = case.files(), case.input.encode()
        meant = second_meaning.single(["single", "c.toml", "--steps", BUDGET], files, second_meaning.World(given))
        if is_open(meant[1]):
            ends["open"] = ends.get("open", 0) + 1
            continue
        folder = tempfile.mkdtemp(prefix="built-")
        second_reader.write_case(files, folder)
        made = second_meaning.answer_of(program, ["exec", "c.toml", "out.img"], folder, given)
        line, steps = without_count(meant[1])
        told, made_turns = without_count(made[1])
        kind = re.sub(r"-?\d+", "N", line)
        ends[kind] = ends.get(kind, 0) + 1
        within = steps is None or made_turns is not None and made_turns <= 256 * (steps + 1)
        if (meant[0], line, meant[2]) == (made[0], told, made[2]) and within:
            shutil.rmtree(folder)
            if steps is not None:
                turns, cost = turns + made_turns, cost + steps
            continue
        differences += 1
        second_meaning.keep(folder, kept, case.title, [("meaning", meant), ("program", made)])
    second_meaning.report(ends, differences)
    if cost:
        print(f"{turns / cost:.2f} turns for a unit of cost")
    return 1 if differences else 0


if __name__ == "__main__":
    sys.exit(main(sys.argv[1:]))

"""What a check names of clauses that aren't met, as .ci/edits asks it."""
import re

from toolchain import rt

# What a check says of an item: that it isn't proved, and why; perhaps that others that it calls aren't either.
UNPROVED = re.compile(r"(?:fn|struct|enum|impl|trait) (\S+): (?:no proof: .*|not proved.*)$")
# A goal that has no answer, and that no search has shown: the clause, and the name of the goal.
GOAL = re.compile(r"note: (\S+:\d+:\d+: it is not proved that .*)")
# An answer to a goal: its file, the goal's name, and what is wrong about it.
ANSWER = re.compile(r"^\./(proofs/\S+/Answers\.antt):\d+:\d+: error: `([^`]+)`: (.*)\n(.*)", re.M)
# What is wrong about an answer that says nothing of its goal: it names what the edit took away.
OF_NAMES = re.compile("has no field|is not in scope|has no `|was not admitted")
# What an answer shows in place of its goal. It may be the same of another value; of another shape, it says nothing of the goal.
OTHER_TYPE = re.compile(r"expected type `(.*)`, but this has type `(.*)`$|expected type ")
VALUE = re.compile(r"[\w.'-]+")


def refusals(crate, said):
    """Returns, for each item that isn't proved, the first clause of its own that the check names as not met."""
    found, goals = {}, []
    answers = [it for it in ANSWER.finditer(said) if is_of_the_goal(it[3], it[4]) and is_goal(crate, it[1], it[2])]
    for line in said.split("\n"):
        goals += [it[1] for it in [GOAL.match(line)] if it]
        if not re.match(r"(fn|struct|enum|impl|trait) \S+: ", line):
            continue
        item = UNPROVED.match(line)
        own = goals + [f"{it[1]}: the answer to `{it[2]}` shows something else: {it[3]}" for it in answers if item and is_own(item[1], it[1])]
        if item and own:
            found[item[1]] = own[0][:200]
        goals = []
    return found


def is_of_the_goal(wrong, more):
    """Says whether an answer is refused for what it shows."""
    other = OTHER_TYPE.match(wrong)
    return not OF_NAMES.search(wrong + more) and (not other or other[1] and VALUE.sub("_", other[1]) == VALUE.sub("_", other[2]))


def is_goal(crate, file, name):
    """Says whether the file answers a goal of that name. (Other texts in it are steps on the way to one.)"""
    return re.search(rf"^pub {re.escape(name)} :\s+goal\.", rt.rtlib.text_of(f"{crate.folder}/{file}") or "", re.M)


def is_own(item, file):
    """Says whether the file is of the item's proof, or of the cycle of calls that it is in."""
    *module, last = map(re.escape, item.split("::")[1:])
    return re.match("/".join(["proofs", *module, rf"({last}|\+[^/]+)/[A-Z][a-z]+\.antt$"]), file)

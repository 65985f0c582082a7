"""Reads the prover's log of a crate that it refuses: whether a fact fails, or the text no longer fits together.

What a failed fact looks like is listed here; every other error counts as one of shape: an unknown name, a type error, a syntax error.
"""
import itertools
import re

from reading import NAME, RELATIONS, bare, split, words

# What a tactic says of a fact that it does not find. Besides these, a fact may be given where another is asked.
FAILS = [
    r"`(?:omega|grind)`: the (?:goal|part `[^`]*` of the goal) does not follow",
    r"`omega`: a listed rule or a hypothesis proves the goal from `[^`]*`, and that does not follow from what it read",
    r"`(?:search|grind)`: no proof of ",
    r"`cc`: the equations do not join ",
    r"`rw`: no occurrence of the path's left endpoint in the goal",
    r"`simp`: no equation of the list (?:can be applied in|has an instance where it is tried in) the goal",
    r"and no proof of it was found among the hypotheses and the list",
    r"what it leaves must be a path whose two ends are equal, and ",
]

def predicates(texts):
    """The names that make a proposition: the prover's, a function's claims, and those of the texts that answer a type of something."""
    found = set("Path ◌≡◌ ◌≢◌ ◌≤◌ ◌<◌ ◌∣◌ T IsTrue ⊥ Pre Post".split())
    for text in texts:
        found |= set(re.findall(rf"(?m)^\s*(?:pub\s+)?(?:data|record)\s+({NAME}) (?!: Type \d)", text))
        found |= set(re.findall(rf"(?m)^[ \t]+(?:pub\s+)?(?:data|record)\s+({NAME}) ", text))
        found |= set(re.findall(rf"(?m)^\s*(?:(?:unfoldable|abbrev|pub)\s+)*({NAME}) : [^\n]*→ Type \d$", text))
    return found


def proposition(printed, known):
    """Whether a type, as the prover prints it, states a fact. A long one is cut in its middle: a function's value is then a side."""
    last = bare(split(bare(words(printed)), ["→"])[-1])
    if any(token in RELATIONS and len(split(last, [token])) > 1 for token in last):
        return True
    path = [last[0], *itertools.takewhile(lambda token: token[0] == "." and len(token) > 1, last[1:])] if last else [""]
    head = path[-1].lstrip(".")
    return head in known or head[:1].islower() and "bytes]…" in printed


def fact(message, known):
    """Whether an error of the prover says that a fact fails: one that is not found, or is given for another fact."""
    if any(re.search(words, message) for words in FAILS):
        return True
    printed = re.search(r"expected type `([^`]*)`\W+but this has type `([^`]*)`", message)
    computed = re.search(r"the two types are `([^`]*)`\W+expected\) and `([^`]*)`", message)
    return any(pair and all(proposition(side, known) for side in pair.groups()) for pair in (computed, printed))


def refusal(log, known):
    """Why the prover refused: nothing if a fact fails, else its first error that does not follow from another."""
    if not re.search(r"(?m)^(?:logic=not-proved|only=\d+ proved=\d+$)", log):
        return "it did not reach the prover"
    errors = re.findall(r"(?m)^\S*: error\b.*(?:\n  .*)*", log)
    first = next((error for error in errors if "was not admitted" not in error.split("\n")[0]), None)
    if first:
        return None if fact(first, known) else first.split(": error", 1)[1].lstrip(": ").split("\n")[0]
    left = re.search(r"(?m)^note: \S+: it is not proved that ", log) and re.search(r"(?m)^fn .*; `search` did not prove ", log)
    return None if left else "no error of its own"

#!/usr/bin/env python3
"""visits.py N..: how many nodes a T-search visits on the book of N levels of two names, where each name follows from both names of the next
level and the last two hold. The walk is that of `node` and `child` in crates/wfsx/specs/Trees.antt, up to the first rule that holds and the
first child that fails."""
import sys

visited = 0


def node(rules, kind, local, above, a):
    global visited
    visited += 1
    if a in local or (kind == "T" and a in above):
        return False
    leaf = [(True, a ^ 1)] if kind == "TU" else []
    return any(all(child(rules, kind, local | {a}, above, e) for e in leaf + body) for head, body in rules if head == a)


def child(rules, kind, local, above, entry):
    default, b = entry
    if not default:
        return node(rules, kind, local, above, b)
    if kind == "TU":
        return not node(rules, "T", frozenset(), above, b)
    both = local | above
    return not node(rules, "TU", frozenset(), both, b) or node(rules, "T", frozenset(), both, b ^ 1)


for n in map(int, sys.argv[1:]):
    rules = [(2 * (2 * i + k), [(False, 4 * i + 4), (False, 4 * i + 6)]) for i in range(n) for k in (0, 1)]
    rules += [(4 * n, []), (4 * n + 2, [])]
    visited = 0
    answer = node(rules, "T", frozenset(), frozenset(), 0)
    print(n, "levels,", len(rules), "rules:", "yes" if answer else "no,", visited, "visits")

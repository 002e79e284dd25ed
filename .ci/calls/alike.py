"""Children that are alike fare alike: what `limits` says of several is what `--each` says of each of them. `play` compares both."""

import json
import subprocess

LONGEST = 60
# Children of each restart type, two and two, in between one another, as workers and as supervisors.
KINDS = """[{id = "a", start = "m"}, {id = "b", start = "m", restart = "transient"}, {id = "c", start = "m", restart = "temporary"}, \
{id = "d", start = "m", shutdown = 7}, {id = "e", start = "m", restart = "transient", shutdown = "brutal_kill"}, \
{id = "f", start = "m", restart = "temporary"}, {id = "g", start = "m", type = "supervisor"}, \
{id = "h", start = "m", type = "supervisor"}]"""
# These children, significant where they may be.
SIGNIFICANT = """[{id = "a", start = "m"}, {id = "b", start = "m", restart = "transient", significant = true}, \
{id = "c", start = "m", restart = "temporary", significant = true}, {id = "d", start = "m"}, \
{id = "e", start = "m", restart = "transient", significant = true}, \
{id = "f", start = "m", restart = "temporary", significant = true}]"""
# What is the same of both: the first as they are, of the others how many there are.
EQUAL, COUNTED = ("burst", "interval", "otp_needs", "root"), ("stops", "starts", "ends")


def trees():
    """Tree files, each with a name."""
    for strategy in ("one_for_one", "one_for_all", "rest_for_one"):
        for intensity in (0, 1, 3):
            head = f'strategy = "{strategy}", intensity = {intensity}, period = 2'
            any_of, all_of = (f'{head}, auto_shutdown = "{word}_significant", child = {SIGNIFICANT}' for word in ("any", "all"))
            below = (("x", f"{head}, child = {KINDS}"), ("y", any_of), ("z", all_of))
            children = ", ".join(f'{{id = "{name}", start = "m", tree = {{{text}}}}}' for name, text in below)
            yield f"{strategy} {intensity}", f"child = [{children}]"


def rows(program, tree, *words):
    """The rows of a tree's children, each or those alike together."""
    ended = subprocess.run(
        [program, "limits", "-", "--json", *words], input=tree.encode(), stdout=subprocess.PIPE, timeout=LONGEST, check=True
    )
    return json.loads(ended.stdout)["rows"]


def fares(row):
    return [row[key] for key in EQUAL] + [len(row[key] or ()) for key in COUNTED]


def told(program, tree):
    """What differs, a line each."""
    each, folded = rows(program, tree, "--each"), rows(program, tree)
    if not each or len(folded) > len(each):
        yield f"{len(each)} rows of each, {len(folded)} of those alike together\n"
    for row in each:
        (name,) = row["children"]
        others = [other for other in folded if name in other["children"]]
        if len(others) != 1 or fares(others[0]) != fares(row):
            yield f"{name}: {fares(row)}, and with those alike {list(map(fares, others))}\n"

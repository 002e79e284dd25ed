"""Other files and another program for a daemon that runs, while children crash."""

import json
import os
import random

from harness import child, expect, flags, row, shell, table

STEADY, WILD = table("steady", ["sleep", "1000"]), "sleep 0.0{}; exit 1"
STRATEGIES = ("one_for_one", "one_for_all", "rest_for_one")
IDS = "abcde"


def commands(chance, is_calm=False):
    """What the start words run: those of `wild` and `other` crash, until all is to be calm."""
    words = [["sleep", "1000"] if is_calm else shell(WILD.format(chance.randint(2, 9))) for _ in range(2)]
    return STEADY + table("wild", words[0]) + table("other", words[1])


def pool(chance, name, starts):
    """A supervisor whose children run these start words, and the paths of the children with what they run."""
    ids = chance.sample(IDS, chance.randint(1, 4))
    head = "[[child.tree.child]]\n"
    below = "".join(head + f'id = "{id}"\nstart = "{start}"\n' for id in ids for start in [chance.choice(starts)])
    keys = flags(strategy=chance.choice(STRATEGIES), intensity=chance.randint(1, 5), period=chance.randint(1, 9))
    return child(name) + "[child.tree]\n" + keys + below, {f"{name}/{id}" for id in ids}


def tree_of(chance):
    """A tree, and the paths of those of its children that never crash. Who crashes stands by itself, or in a pool of such."""
    tables, steady = [], set()
    for id in chance.sample(IDS, chance.randint(2, 5)):
        start = chance.choice(("steady", "steady", "wild", "other"))
        tables.append(child(id, start, shutdown=chance.randint(1000, 1003)))
        steady |= {f"{id} {start}"} if start == "steady" else set()
    for name in chance.sample(("calm", "quiet", "mad"), chance.randint(1, 3)):
        text, paths = pool(chance, name, ("wild", "other") if name == "mad" else ("steady",))
        tables.append(text)
        steady |= {f"{path} steady" for path in paths if name != "mad"}
    chance.shuffle(tables)
    return flags(intensity=1000, period=1) + "".join(tables), steady


def write(daemon, tree, words):
    for name, text in (("tree.toml", tree), ("commands.toml", words)):
        with open(f"{daemon.folder}/{name}", "w", encoding="utf-8") as file:
            file.write(text)


def look(it, told, pids):
    """Adds a supervisor and what stands below it."""
    told.append([it["path"], it["strategy"], it["intensity"], it["period"], it["phase"]])
    for one in it["children"]:
        told.append([it["path"] + one["id"], one["state"], one["start"]])
        if "supervisor" in one:
            look(one["supervisor"], told, pids)
        else:
            # One that runs older commands may still crash by them.
            pids[it["path"] + one["id"]] = None if one.get("changed") else one.get("pid")


def standing(daemon):
    """What `status` tells of the flags and of the children, and the processes by their paths."""
    status, text = daemon.ctl("status", "--json")
    expect(status == 0, f"status: {text}")
    told, pids = [], {}
    look(json.loads(text), told, pids)
    return told, pids


def change(it, rounds, program):
    """Reloads by chance, with a new program between where that is wanted. All stands as in a daemon that has begun so."""
    seed = int(os.environ.get("OTP_STORM_SEED") or random.randrange(10**9))
    chance = random.Random(seed)
    try:
        change_by(it, chance, rounds, program)
    except Exception as error:
        raise type(error)(f"seed {seed} (OTP_STORM_SEED): {error}") from error
    return f"{rounds} times"


def change_by(it, chance, rounds, program):
    tree, steady = tree_of(chance)
    daemon = it.run(tree, commands(chance))
    for _ in range(rounds):
        before = standing(daemon)[1]
        if program and chance.random() < program:
            status, said = daemon.ctl("reexec", "--within", "60s")
            expect(status == 0, f"reexec: {said}")
            kept = steady
        elif chance.random() < 0.15:
            write(daemon, tree + "nonsense = 1\n", commands(chance))
            status, said = daemon.ctl("reload")
            expect(status == 1 and "nothing is changed" in said, f"a bad file: {status}, {said}")
            kept = steady
        else:
            tree, after = tree_of(chance)
            write(daemon, tree, commands(chance))
            words = ["--restart"] if chance.random() < 0.3 else []
            status, said = daemon.ctl("reload", "--within", "60s", *words)
            expect(status == 0, f"reload: {said}")
            kept, steady = steady & after, after
        now = standing(daemon)[1]
        for path in (one.split()[0] for one in kept):
            expect(before[path] in (None, now[path]), f"{path} was process {before[path]}, and is {now[path]}")
    # In the end nothing crashes any more: what did is started anew.
    write(daemon, tree, commands(chance, is_calm=True))
    status, said = daemon.ctl("reload", "--restart", "--within", "60s")
    expect(status == 0, f"the last reload: {said}")
    status, said = daemon.ctl("wait", "*", "up", "--within", "60s")
    expect(status == 0, f"wait: {said}")
    fresh = it.run(tree, commands(chance, is_calm=True))
    (told, pids), wanted = standing(daemon), standing(fresh)[0]
    expect(told == wanted, f"{told}, and a new daemon {wanted}")
    running = {pid for pid, _ in daemon.left()}
    expect(running == set(pids.values()), f"{running} run, and {pids} are known")


@row("reloads by chance while children crash")
def reloads(it):
    return change(it, 10 if it.is_short else 60, 0)


@row("reloads and new programs by chance while children crash")
def programs(it):
    return change(it, 10 if it.is_short else 60, 0.5)

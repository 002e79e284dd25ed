"""Trees and scripts by chance, each of a seed: what is drawn depends on nothing else."""

import random

STRATEGIES = ["one_for_one", "one_for_all", "rest_for_one"]
RESTARTS = ["permanent", "permanent", "transient", "temporary"]
REASONS = ["normal", "shutdown", "shutdown:x", "kill", "killed", "noproc", "error:x", "error:y"]
DEEPEST = 3
# So many seconds are longer than any script without times.
LONG = 1000
# Verbs behind which the path of a child may stand.
OF_A_CHILD = ("crash", "exit", "fail", "ignore", "hang", "slow", "expect", "restart", "delete", "terminate", "get")


class Child:
    def __init__(self, name, start, restart, significant, shutdown, kind, tree=None):
        self.name, self.start, self.restart, self.significant = name, start, restart, significant
        self.shutdown, self.kind, self.tree = shutdown, kind, tree

    def keys(self):
        shutdown = self.shutdown if isinstance(self.shutdown, int) else f'"{self.shutdown}"'
        keys = [f'id = "{self.name}"', f'start = "{self.start}"']
        keys += [f'restart = "{self.restart}"'] if self.restart != "permanent" else []
        keys += ["significant = true"] if self.significant else []
        keys += [f"shutdown = {shutdown}"] if self.shutdown is not None else []
        return keys + ([f'type = "{self.kind}"'] if self.kind != "worker" and not self.tree else [])

    def toml(self, path):
        lines = "".join(f"{line}\n" for line in [f"[[{path}child]]", *self.keys()])
        return lines + (f"[{path}child.tree]\n" + self.tree.toml(f"{path}child.tree.") if self.tree else "")

    def words(self):
        """As a line of a script puts it back."""
        shutdown = self.shutdown if self.shutdown is not None else "infinity" if self.tree or self.kind == "supervisor" else 5000
        kind = "supervisor" if self.tree else self.kind
        return [self.name, self.start, self.restart, "true" if self.significant else "false", str(shutdown), kind]


class Tree:
    """A supervisor: its flags, and its children."""

    def __init__(self, strategy, intensity, period, auto, children):
        self.strategy, self.intensity, self.period, self.auto, self.children = strategy, intensity, period, auto, children

    def flags(self):
        flags = f'strategy = "{self.strategy}"\nintensity = {self.intensity}\nperiod = {self.period}\n'
        return flags + (f'auto_shutdown = "{self.auto}"\n' if self.auto != "never" else "")

    def toml(self, path=""):
        return self.flags() + "".join(child.toml(path) for child in self.children)

    def on_lines(self):
        """A supervisor alone, with each child on a line, as transcripts have it."""
        return self.flags() + "child = [\n" + "".join(f"  {{ {', '.join(child.keys())} }},\n" for child in self.children) + "]\n"

    def supervisors(self, path=""):
        """Each supervisor with its path, by its number: the root first, and then for each child with a tree that one and all below."""
        yield path, self
        for child in self.children:
            if child.tree:
                yield from child.tree.supervisors(f"{path}{child.name}/")

    def is_simple(self):
        return self.strategy == "simple_one_for_one"


class Kind:
    """What a seed draws: a tree of one supervisor or more, and a script in which time passes or doesn't."""

    def __init__(self, chance):
        self.is_flat = chance.random() < 0.4
        self.is_timed = chance.random() < 0.6
        # No two deadlines are the same, so that it is never said by chance which of two comes first.
        self.shutdowns = chance.sample(range(20, 3000), 60)


def draw_tree(chance, kind, depth=1):
    is_simple = chance.random() < (0.2 if kind.is_flat else 0.08 if depth > 1 else 0)
    strategy = "simple_one_for_one" if is_simple else chance.choice(STRATEGIES)
    auto = chance.choice(["never", "never", "never", "any_significant", "all_significant"])
    period = chance.choice([1, 2, 3, 10]) if kind.is_timed else LONG
    count = 1 if is_simple else chance.randint(1, 4 if depth == 1 else 3)
    children = [draw_child(chance, kind, depth, auto, is_simple, "abcd"[place]) for place in range(count)]
    if not kind.is_flat and depth == 1 and not any(child.tree for child in children):
        children[0] = nested(chance, kind, depth, auto, "a")
    return Tree(strategy, chance.choice([0, 1, 2, 2, 3, 5]), period, auto, children)


def draw_child(chance, kind, depth, auto, is_dynamic, name):
    if not kind.is_flat and not is_dynamic and depth < DEEPEST and chance.random() < 0.4:
        return nested(chance, kind, depth, auto, name)
    restart = chance.choice(RESTARTS)
    shutdown = chance.choice([None, None, "brutal_kill", "infinity", "time"])
    shutdown = kind.shutdowns.pop() if shutdown == "time" else shutdown
    what = "supervisor" if chance.random() < 0.07 else "worker"
    return Child(name, f"m{name}", restart, is_significant(chance, auto, restart), shutdown, what)


def nested(chance, kind, depth, auto, name):
    restart = chance.choice(RESTARTS)
    tree = draw_tree(chance, kind, depth + 1)
    return Child(name, f"m{name}", restart, is_significant(chance, auto, restart), None, "supervisor", tree)


def is_significant(chance, auto, restart):
    return auto != "never" and restart != "permanent" and chance.random() < 0.6


class Step:
    """A line of a script: when, how often, at which supervisor (its path), and the words of what happens."""

    def __init__(self, when, times, path, words):
        self.when, self.times, self.path, self.words = when, times, path, words

    def text(self):
        """As `try` reads it. A child stands behind its supervisor's path; what is said to a supervisor behind the path and a space."""
        verb, *rest = self.words
        if self.path and verb in OF_A_CHILD and self.words[1:] not in (["up"], ["end"]) and not (verb == "terminate" and "#" in rest[0]):
            at = verb == "expect"
            rest[at] = self.path + rest[at]
            said = [verb, *rest]
        else:
            said = [self.path, *self.words] if self.path else self.words
        how, time = self.when
        if self.times > 1:
            return " ".join(["every", f"{time}ms", str(self.times), "times", *said])
        return " ".join([{"at": f"at {time}ms", "after": f"+{time}ms", "now": ""}[how], *said]).strip()


def draw_script(chance, kind, tree, count):
    """So many lines. Some can do nothing: who plays them leaves those out."""
    places = list(tree.supervisors())
    now, steps = 0, []
    for line in range(count):
        when, times = draw_when(chance, kind, now), 1
        if when[0] == "after" and chance.random() < 0.12:
            times = chance.randint(2, 4)
        now = when[1] if when[0] == "at" else now + when[1] * times
        path, sup = chance.choice(places)
        words = draw_words(chance, kind, sup, line)
        # A process can be meant by its number alone, whosever child it is.
        is_of_root = words[0] == "stop" or words[0] in ("crash", "exit", "hang", "slow") and "#" in words[1] and chance.random() < 0.7
        steps.append(Step(when, times, "" if is_of_root else path, words))
    return steps


def draw_when(chance, kind, now):
    if not kind.is_timed or chance.random() < 0.5:
        return "now", 0
    more = chance.choice([1, 7, 50, 333, 999, 1000, 1001, 1500, 2000, 4000, 6000])
    return ("at", now + more) if chance.random() < 0.3 else ("after", more)


def draw_words(chance, kind, sup, line):
    name = chance.choice([child.name for child in sup.children] * 4 + ["e"])
    number = f"#{chance.randint(1, 4 + 2 * line)}"
    child = chance.choice([name, name, number]) if not sup.is_simple() else number
    verb = chance.choices(list(WEIGHTS), WEIGHTS.values())[0]
    if verb in ("hang", "slow") and not kind.is_timed:
        verb = "exit"
    return {
        "crash": lambda: ["crash", child] + chance.choice([[], ["error:x"], ["killed"]]),
        "exit": lambda: ["exit", child, chance.choice(REASONS)],
        "fail": lambda: ["fail", name] + chance.choice([[], ["error:y"], ["shutdown"], ["normal"]]),
        "ignore": lambda: ["ignore", name],
        "hang": lambda: ["hang", child],
        "slow": lambda: ["slow", child, f"{chance.randint(1, 3000)}ms"],
        "start": lambda: draw_start(chance, sup, name),
        "terminate": lambda: ["terminate", number if sup.is_simple() and chance.random() < 0.9 else name],
        "call": lambda: chance.choice([["which"], ["count"], ["get", name]]),
        "expect": lambda: draw_expect(chance, name),
    }.get(verb, lambda: [verb] if verb == "stop" else [verb, name])()


WEIGHTS = {"crash": 22, "exit": 16, "fail": 8, "ignore": 3, "hang": 4, "slow": 6, "restart": 8, "delete": 6, "terminate": 10, "start": 9,
           "call": 5, "expect": 5, "stop": 1.5}


def draw_start(chance, sup, name):
    """What puts a child back, as it was or changed; or one that is new."""
    if sup.is_simple():
        return ["start"]
    known = [child for child in sup.children if child.name == name]
    restart = chance.choice(["permanent", "transient", "temporary"])
    words = known[0].words() if known else [name, f"m{name}", restart, "false", "5000", "worker"]
    if chance.random() < 0.3:
        words[2], words[3] = restart, "false"
    if chance.random() < 0.1 and not (known and known[0].tree):
        words[1] = "other"
    return ["start", *words]


def draw_expect(chance, name):
    return chance.choice([["expect", "up", name], ["expect", "end", name], ["expect", "restarts", name, str(chance.randint(0, 2))],
                          ["expect", "up"], ["expect", "end"]])


def drawn(seed):
    """The tree and the script of a seed, and whether time passes in it."""
    chance = random.Random(seed)
    kind = Kind(chance)
    tree = draw_tree(chance, kind)
    return tree, draw_script(chance, kind, tree, chance.randint(4, 24)), kind.is_timed

"""Supervisors of a tree apart: each is a tree of its own in the library, in which a nested one is a plain child. What goes between them
is done here, by the pages alone: who starts a nested one, whose number it has, who is told of its end, and who goes down with it. So
processes that are supervisors can be told of, too, which the driver refuses: that they end, don't start, or don't stop."""

import re

from drawn import Child, Tree
from library import ORDERS, PHASES, Driver
from world import DONE, World

# A number that no process of a supervisor ever has.
NOBODY = 10**9


def alone(tree):
    """A supervisor without those below it, which are plain children."""
    children = [Child(it.name, it.start, it.restart, it.significant, "infinity", "supervisor") if it.tree else it for it in tree.children]
    return Tree(tree.strategy, tree.intensity, tree.period, tree.auto, children)


class Standing:
    """How a supervisor stands, as the driver tells it."""

    def __init__(self, phase, starts, process):
        self.phase, self.starts, self.process, self.has_process = phase, starts, process, process is not None


class Apart:
    """The supervisors, in the calls of the driver. Numbers of processes are those of the whole tree."""

    def __init__(self, library, tree):
        self.library = library
        places = [path for path, _ in tree.supervisors()]
        self.trees = [sup for _, sup in tree.supervisors()]
        self.count, self.last, self.calls, self.reading = len(places), 0, 0, 0
        self.below = {(number, child.name): (places.index(f"{path}{child.name}/"), child.start)
                      for number, (path, sup) in enumerate(tree.supervisors()) for child in sup.children if child.tree}
        self.parents = {place: parent for (parent, _), (place, _) in self.below.items()}
        # Of each: its own tree while it runs, its number, whether it is up, how often it was started, and its processes and calls by their
        # numbers in its own tree.
        self.own, self.process, self.is_up = [None] * self.count, [None] * self.count, [False] * self.count
        self.starts, self.numbers, self.asked = [0] * self.count, [{} for _ in places], [{} for _ in places]
        self.begin(0, None)

    def close(self):
        for own in filter(None, self.own):
            own.close()

    def begin(self, place, number):
        """It is started under this number."""
        self.end(place)
        own = Driver(self.library, alone(self.trees[place]).toml())
        own.tick(self.reading)
        self.own[place], self.process[place], self.numbers[place], self.asked[place] = own, number, {}, {}
        self.starts[place] += number is not None

    def end(self, place):
        """It has no process any more. The root's tree stays, as it answers calls."""
        self.process[place], self.is_up[place] = None, False
        if self.own[place]:
            self.own[place].close()
            self.own[place] = None

    def lose(self, place):
        """Its process is gone, and all below it with it."""
        for below, parent in self.parents.items():
            if parent == place:
                self.lose(below)
        self.end(place)

    def nested(self, place, name, number):
        """The supervisor that the child is under whose number it was started, if it is one: by id, start word and type."""
        below, start = self.below.get((place, name), (None, None))
        row = next((it for it in self.own[place].children(0) if it.process() == number), None)
        is_one = below is not None and row is not None and str(row.spec.start) == start and row.spec.type == 2
        return below if is_one else None

    def at(self, place, number):
        """The supervisor that runs under this number as a child of another."""
        return next((below for below, parent in self.parents.items() if parent == place and self.process[below] == number), None)

    def local(self, place, number):
        return next((own for own, whole in self.numbers[place].items() if whole == number), NOBODY)

    # ---- the calls of the driver ----

    def next(self):
        """The next order of any, with its number in the whole tree, and the supervisor that a start is of."""
        for place, own in enumerate(self.own):
            order = own.next() if own else None
            if order:
                order.supervisor, order.below = place, None
                word = ORDERS[order.kind]
                if word == "start":
                    self.last += 1
                    self.numbers[place][order.number] = self.last
                    order.below = self.nested(place, str(order.id), order.number)
                if word == "reply":
                    order.number = self.asked[place][order.number]
                elif word != "ready" and word != "end":
                    order.number = self.numbers[place][order.number]
                self.answering = place
                return order
        return None

    def answer(self):
        place = self.answering
        return re.sub(r"#(\d+)", lambda found: f"#{self.numbers[place][int(found[1])]}", self.own[place].answer())

    def note(self, reading, place, what, number, reason=""):
        self.reading = reading
        if self.own[place]:
            self.own[place].note(reading, 0, what, self.local(place, number), reason)

    def ask(self, reading, place, words):
        self.calls += 1
        words = [words[0], f"#{self.local(place, int(words[1][1:]))}"] if words[1:] and words[1].startswith("#") else words
        self.asked[place][self.own[place].ask(reading, 0, words)] = self.calls

    def stop(self, reading, place=0):
        self.own[place].stop(reading)

    def tick(self, reading):
        self.reading = reading
        for own in filter(None, self.own):
            own.tick(reading)

    def deadline(self):
        return min((due for own in filter(None, self.own) if (due := own.deadline()) is not None), default=None)

    def look(self, place):
        own = self.own[place]
        phase = own.look(0).phase if own else PHASES.index("ended" if self.starts[place] else "unopened")
        return Standing(phase, self.starts[place], self.process[place])

    def children(self, place):
        rows = self.own[place].children(0) if self.own[place] else []
        for row in rows:
            row.number = self.numbers[place].get(row.number, row.number)
            row.nested = self.at(place, row.number) or 0
        return rows


class ApartWorld(World):
    """The same world, in which what goes between supervisors is done here."""

    def drive(self, library, tree):
        self.nested_may_be_told = True
        return Apart(library, tree)

    def obey(self, order):
        word, place, number = ORDERS[order.kind], order.supervisor, order.number
        below = order.below if word == "start" else self.driver.at(place, number) if word in ("ask", "kill") else None
        if word in ("ready", "end") and place:
            self.orders.append((self.time, *self.words_of(word, order)))
            self.tell_parent(place, word, self.orders[-1][3])
        elif word == "start" and below is not None and not self.plan_of(place, str(order.id)):
            self.orders.append((self.time, *self.words_of(word, order)))
            self.count_start(place, str(order.id))
            self.driver.begin(below, number)
        else:
            super().obey(order)

    def tell_parent(self, place, word, text):
        parent, number = self.driver.parents[place], self.driver.process[place]
        if word == "ready":
            self.driver.is_up[place] = True
            self.tell(parent, "up", number)
            return
        what, reason = "exit" if self.driver.is_up[place] else "fail", text.split(" ")[0]
        self.driver.end(place)
        self.tell(parent, what, number, reason)

    def end(self, place, number, reason):
        """A process ends as it is asked to, or late; a supervisor begins to shut down."""
        below = self.driver.at(place, number)
        if below is not None:
            self.driver.stop(self.time, below)
        elif place == 0 or self.driver.process[place] is not None:
            self.tell(place, "exit", number, reason)

    def exit(self, place, child, reason):
        row = self.row(place, child)
        number = row and row.process()
        if not number or number in self.ended:
            return None
        self.late = [it for it in self.late if it[2] != number]
        if row.nested:
            self.driver.lose(row.nested)
        self.tell(place, "exit", number, reason)
        self.settle()
        return DONE

"""Plays a script on the library's driver as `otp try` plays it: each start succeeds, and each process that is asked to end does, but
where the script said otherwise. What is told to the driver is written down, so that other engines can be told the same."""

from library import CAUSES, ORDERS, PHASES, STATES, Driver, reason_of

DONE, UNMET = "done", "it is not so"


class Crowded(Exception):
    """Two things come at one moment, and no page says which comes first."""


class Plan:
    """That a child's next start goes so, or that it ends so much later than it is asked to (None: it doesn't)."""

    def __init__(self, supervisor, child, what):
        self.supervisor, self.child, self.what = supervisor, child, what


class World:
    def __init__(self, library, tree):
        self.nested_may_be_told = False
        self.driver = self.drive(library, tree)
        self.places = {path: number for number, (path, _) in enumerate(tree.supervisors())}
        self.paths = list(self.places)
        self.trees = [sup for _, sup in tree.supervisors()]
        self.nested = {(number, child.name) for number, sup in enumerate(self.trees) for child in sup.children if child.tree}
        self.time, self.starts, self.late = 0, [], []
        self.hanging = []
        # Numbers whose end was told; how often children were started, each since its supervisor was.
        self.ended, self.begun = set(), {}
        # Orders as (time, words), and beside them what was told, as (time, supervisor, words): an order has no supervisor there.
        self.orders, self.told = [], []
        # Numbers of processes outside.
        self.outside = set()
        self.settle()

    def drive(self, library, tree):
        return Driver(library, tree.toml())

    def close(self):
        self.driver.close()

    # ---- what the driver orders, and what comes of it ----

    def settle(self):
        """Takes orders until there is none. What comes of one is told before the next is taken, as `try` hears it."""
        while order := self.driver.next():
            self.obey(order)

    def obey(self, order):
        word, place, number = ORDERS[order.kind], order.supervisor, order.number
        self.orders.append((self.time, *self.words_of(word, order)))
        self.told.append((self.time, None, self.orders[-1][1:]))
        if word == "start":
            self.outside.add(number)
            self.count_start(place, str(order.id))
            self.begin(place, str(order.id), number)
        elif word == "ask":
            hang = next((it for it in self.hanging if it.supervisor == place and it.child in (str(order.id) or None, f"#{number}")), None)
            if hang is None:
                self.end(place, number, "shutdown")
            else:
                self.put_off(hang, place, number)
        elif word == "kill":
            self.late = [it for it in self.late if it[2] != number]
            self.end(place, number, "killed")

    def words_of(self, word, order):
        """An order as `try` tells it: the word, the path of the child or supervisor, and the number or the text."""
        path = self.paths[order.supervisor]
        if word in ("start", "ask", "kill"):
            return word, f"{path}{str(order.id) or '-'}", order.number
        text = {"reply": lambda: f"{order.number} {self.driver.answer()}", "ready": str, "end": lambda: end_of(order)}[word]()
        return word, path[:-1] or "root", text

    def begin(self, place, name, number):
        """A process is started: it is up, or its start goes as a line has said."""
        plan = self.plan_of(place, name)
        if plan:
            self.starts.remove(plan)
        what, reason = plan.what if plan else ("up", "")
        self.tell(place, what, number, reason)

    def plan_of(self, place, name):
        return next((it for it in self.starts if it.supervisor == place and it.child == name), None)

    def put_off(self, hang, place, number):
        self.hanging.remove(hang)
        if hang.what is not None:
            self.late.append((self.time + hang.what, place, number))

    def end(self, place, number, reason):
        """A process ends as it was asked to, or by itself."""
        self.tell(place, "exit", number, reason)

    def tell(self, place, what, number, reason=""):
        if what == "exit":
            self.ended.add(number)
        self.told.append((self.time, place, " ".join(filter(None, [what, str(number), reason]))))
        self.driver.note(self.time, place, what, number, reason)

    def count_start(self, place, name):
        since = self.driver.look(place).starts
        before, count = self.begun.get((place, name), (since, 0))
        self.begun[place, name] = (since, count + 1 if before == since else 1)

    def started(self, place, name):
        """How often a child was started since its supervisor was."""
        since, count = self.begun.get((place, name), (0, 0))
        return count if since == self.driver.look(place).starts else 0

    # ---- the clock ----

    def go_to(self, time):
        """The clock goes on. What is due before comes before, each at its time."""
        while True:
            deadline = self.driver.deadline()
            late = [it for it in self.late if it[0] <= time]
            due = min([it[0] for it in late] + [deadline] * (deadline is not None and deadline <= time), default=None)
            if due is None:
                break
            self.time = max(self.time, due)
            ending = [it for it in late if it[0] <= self.time]
            if len(ending) > 1 or ending and deadline is not None and deadline <= self.time:
                raise Crowded
            self.read_clock()
            for it in ending:
                self.late.remove(it)
                self.end(it[1], it[2], "shutdown")
            self.settle()
        self.time = max(self.time, time)
        self.read_clock()
        self.settle()

    def read_clock(self):
        self.told.append((self.time, 0, f"at {self.time}"))
        self.driver.tick(self.time)

    # ---- lines ----

    def play(self, step):
        """Plays a line: what `try` says of it, or None where it can do nothing; the clock may have gone on then."""
        for turn in range(step.times):
            # What is left of a line after the root's end is left out.
            if turn and self.has_ended():
                return DONE
            how, time = step.when
            if how == "at" and time < self.time:
                return None
            if how != "now":
                self.go_to(time if how == "at" else self.time + time)
            result = self.act(step)
            if result != DONE:
                return result
        return DONE

    def has_ended(self):
        return PHASES[self.driver.look(0).phase] == "ended"

    def act(self, step):
        if step.path not in self.places:
            return None
        verb, place, words = step.words[0], self.places[step.path], step.words[1:]
        if verb in ("crash", "exit", "hang", "slow") and words[0].startswith("#") and not step.path:
            place = self.place_of(int(words[0][1:]))
        if place and not self.driver.look(place).has_process:
            return self.without_process(step)
        if verb == "expect":
            return self.expect(place, words)
        if verb in ("crash", "exit"):
            return self.exit(place, words[0], words[1] if len(words) > 1 else "error:crash")
        if verb in ("fail", "ignore"):
            return self.plan_start(place, verb, words)
        if verb in ("hang", "slow"):
            return self.plan_hang(place, verb, words)
        if verb == "stop":
            return self.stop()
        return self.call(place, step.words)

    def without_process(self, step):
        """A supervisor that has no process, as none of its children has."""
        if step.words[0] != "expect":
            return None
        return DONE if step.words[1] == "end" else UNMET

    def row(self, place, child):
        """The child that a line means."""
        by_number = child.startswith("#")
        return next((it for it in self.driver.children(place) if (it.process() == int(child[1:]) if by_number else str(it.id) == child)), None)

    def place_of(self, number):
        """The supervisor that runs and has a child with this process; the root where there is none."""
        for place in range(self.driver.count):
            runs = place == 0 or self.driver.look(place).has_process
            if runs and any(it.process() == number for it in self.driver.children(place)):
                return place
        return 0

    def exit(self, place, child, reason):
        row = self.row(place, child)
        number = row and row.process()
        # The driver is told no end of a supervisor of the tree.
        if not number or row.nested or number in self.ended:
            return None
        self.late = [it for it in self.late if it[2] != number]
        self.end(place, number, reason)
        self.settle()
        return DONE

    def may_be_told(self, place, name):
        """Whether something may be said of the child: not of one that the driver starts and stops by itself."""
        return self.nested_may_be_told or (place, name) not in self.nested

    def plan_start(self, place, verb, words):
        name = words[0]
        is_known = self.row(place, name) is not None
        if self.has_ended() or self.trees[place].is_simple() or not is_known or not self.may_be_told(place, name):
            return None
        what = ("ignore", "") if verb == "ignore" else ("fail", words[1] if len(words) > 1 else "error:fail")
        self.starts.append(Plan(place, name, what))
        return DONE

    def plan_hang(self, place, verb, words):
        row = self.row(place, words[0])
        if row is None or not self.may_be_told(place, str(row.id)):
            return None
        self.hanging.append(Plan(place, words[0], int(words[1][:-2]) if verb == "slow" else None))
        return DONE

    def stop(self):
        if self.has_ended():
            return None
        self.told.append((self.time, 0, "stop"))
        self.driver.stop(self.time)
        self.settle()
        return DONE

    def call(self, place, words):
        self.told.append((self.time, place, " ".join(words)))
        self.driver.ask(self.time, place, words)
        self.settle()
        return DONE

    def expect(self, place, words):
        """What is expected of a supervisor, or of a child of it, by what the driver shows."""
        what, *rest = words
        if not rest:
            has_ended = PHASES[self.driver.look(place).phase] == "ended"
            return DONE if has_ended == (what == "end") else UNMET
        name = rest[0]
        row, count = self.row(place, name), self.started(place, name)
        if not self.may_be_told(place, name) and (what == "restarts" or row is None):
            return None
        if what == "restarts":
            return None if not count else DONE if count - 1 == int(rest[1]) else UNMET
        if row is None:
            return None if not count else DONE if what == "end" else UNMET
        state = STATES[row.state]
        return DONE if (state == "up" if what == "up" else state in ("undefined", "restarting")) else UNMET

    # ---- how it ended ----

    def standing(self):
        """Of each supervisor: its path, whether it runs, how often it was started, and its process where it has one."""
        for place, path in enumerate(self.paths):
            it = self.driver.look(place)
            runs = PHASES[it.phase] != "ended" if place == 0 else bool(it.has_process)
            yield path[:-1] or "root", runs, it.starts, it.process if place and it.has_process else None


def end_of(order):
    """How the root has ended: the reason, and the cause."""
    return f"{reason_of(order.reason, order.text)} {CAUSES[order.cause]}"


def played(library, tree, steps, world_of=World):
    """Plays those lines that can do something: them, what `try` says of each and the orders that came of it, and the world behind
    the last. Who calls closes it."""
    steps = list(steps)
    while True:
        world = world_of(library, tree)
        kept, told = [], [(None, world.orders[:])]
        for step in steps:
            before, time = len(world.orders), world.time
            try:
                result = world.play(step)
            except Crowded:
                result = None
            if result is None and (world.time != time or step.times > 1 or step.when[0] == "at"):
                break
            if result is not None:
                kept.append(step)
                told.append((result, world.orders[before:]))
        else:
            return kept, told, world
        # Time has gone on in vain: from the beginning, without that line.
        world.close()
        steps = kept + steps[steps.index(step) + 1 :]

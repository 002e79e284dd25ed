"""Calls at the limits: their files, lines and outputs are made by loops. `play` runs them behind those of the tables."""

CHILD = '[[child]]\nid = "{0}"\nstart = "{1}"\n'
TREE = CHILD.format("a", "a")
# What helps people with a tree file that is refused.
TIP = "tip: otp check tree tells why\n"
LINES_TIP = "tip: otp help lines says which lines there are\n"


def calls(make):
    """All of them; `make` makes a call, as `play` has it."""

    def sim(name, tree, lines, shows, tells="", status=0):
        return make(name, ["sim", "tree"], {"tree": tree.encode()}, lines.encode(), shows.encode(), tells.encode(), status)

    yield from greatest_intensity(sim)
    yield more_events_than_a_history_holds(sim)
    yield from most_children(sim)
    yield from children_alike(sim)
    yield from most_supervisors(sim)
    yield from deepest_supervisor(sim)
    yield many_restarts_far_apart(sim)
    yield longest_printed_line(sim)
    yield long_file(sim)
    yield long_input(sim)
    yield too_long_line(sim)
    yield bytes_that_are_no_text(make)
    yield from large_files(make)
    yield from strange_names(make)
    yield from check_at_limits(make)
    yield starts_beside_busy_ones(make)


def with_children(count):
    """A tree file with so many children, c0, c1 and so on."""
    return "".join(CHILD.format(f"c{index}", "c") for index in range(count))


def greatest_intensity(sim):
    """The most restarts that an intensity allows, all at once; the next one is one too many."""
    tree = "intensity = 1000\nperiod = 1000000\n" + TREE
    lines = "up 1\n" + "".join(f"exit {number} error:x\nup {number + 1}\n" for number in range(1, 1001))
    shows = "start a #1\nready\n" + "".join(f"start a #{number + 1}\n" for number in range(1, 1001))
    yield sim("greatest_intensity", tree, lines, shows)
    yield sim("one_restart_too_many", tree, lines + "exit 1001 error:x\n", shows + "end shutdown\n")


def more_events_than_a_history_holds(sim):
    """A history holds 65,536 events, of which the opening is the first; the last call here is one more. Its supervisor lives on,
    and nothing is printed of that."""
    count = 65_536
    shows = "ready\n" + "".join(f"reply {number} count specs 0 active 0 supervisors 0 workers 0\n" for number in range(1, count + 1))
    return sim("more_events_than_a_history_holds", "", "count\n" * count, shows)


def most_children(sim):
    """256 children start, and one more is refused."""
    lines = "".join(f"up {number}\n" for number in range(1, 257)) + "start z z permanent false 5000 worker\n"
    shows = "".join(f"start c{number - 1} #{number}\n" for number in range(1, 257)) + "ready\nreply 1 error too_many_children\n"
    yield sim("most_children", with_children(256), lines, shows)
    yield sim("one_child_too_many", with_children(257), "up 1\n", "", TIP + "tree refused: E7\n", 1)


def refused(sim, name, tree, code):
    """A tree file that is refused for this fault."""
    return sim(name, tree, "up 1\n", "", TIP + f"tree refused: {code}\n", 1)


def children_alike(sim):
    """That children have one id is told only where there aren't too many."""
    for count, code in ((256, "E3"), (257, "E7")):
        yield refused(sim, f"children_alike, {count}", TREE * count, code)


def most_supervisors(sim):
    """64 supervisors are read, and no more. The root has the others."""
    for count in (63, 64):
        tree = "".join(CHILD.format(f"c{place}", "a") + "tree = {}\n" for place in range(count))
        name = f"most_supervisors, {count + 1}"
        yield refused(sim, name, tree, "E15") if count > 63 else sim(name, tree, "up 1\n", "start c0 #1\nstart c1 #2\n")


def deepest_supervisor(sim):
    """Supervisors are read down to the 16th level, and no deeper."""
    for depth in (16, 17):
        paths = ["child" + ".tree.child" * level for level in range(depth - 1)]
        tree = "".join(f'[[{path}]]\nid = "a"\nstart = "a"\n[{path}.tree]\n' for path in paths)
        name = f"deepest_supervisor, {depth}"
        yield refused(sim, name, tree, "E14") if depth > 16 else sim(name, tree, "up 1\n", "start a #1\nready\n")


def many_restarts_far_apart(sim):
    """Restarts are counted for as long as a supervisor lives, however far apart they are. These are two events each, which is more
    than a history holds."""
    lines = "up 1\n" + "".join(f"at {number * 2000}\nexit {number} error:x\nup {number + 1}\n" for number in range(1, 40_001))
    shows = "start a #1\nready\n" + "".join(f"start a #{number + 1}\n" for number in range(1, 40_001))
    return sim("many_restarts_far_apart", "intensity = 1\nperiod = 1\n" + TREE, lines, shows)


def longest_printed_line(sim):
    """One line of 44 KiB: 256 children whose names are as long as names are, with as many modules as there may be."""
    names = [f"thirty-two-bytes-are-a-name-{number:04}" for number in range(1, 257)]
    tree = "".join(CHILD.format(name, "s") + f"modules = [{', '.join([chr(34) + name + chr(34)] * 4)}]\n" for name in names)
    lines = "".join(f"up {number}\n" for number in range(1, 257)) + "which\n"
    shows = "".join(f"start {name} #{number}\n" for number, name in enumerate(names, 1)) + "ready\n"
    children = "".join(f" {name},#{number},worker,{'+'.join([name] * 4)}" for number, name in enumerate(names, 1))
    assert len(children) > 44 * 1024
    return sim("longest_printed_line", tree, lines, shows + f"reply 1 which{children}\n")


def starts_beside_busy_ones(make):
    """256 children that want turn after turn are started by one thread in a few turns each: a new one doesn't wait for a turn of
    each of the others, which would take 32,896 turns."""
    tree = "".join(CHILD.format(f"c{index}", "steady") for index in range(256))
    call = make("starts_beside_busy_ones", ["run", "tree", "--schedulers", "1", "--turns", "4000"], {"tree": tree.encode()})
    call.how, call.shows = {"shows": "part"}, b"table 0 starts 256 restarts 0 end shutdown"
    return call


def long_file(sim):
    """A tree file may be long: here each child has a comment."""
    comment = "# what this child is for, and why it is started after the one before it\n" * 16
    tree = "".join(CHILD.format(f"c{index}", "c") + comment for index in range(256))
    assert len(tree) > 256 * 1024
    return sim("long_file", tree, "up 1\n", "start c0 #1\nstart c1 #2\n")


def long_input(sim):
    """Lines that say nothing may be as many as they like."""
    return sim("long_input", with_children(1), "\n" * (4 << 20) + "up 1\n", "start c0 #1\nready\n")


def too_long_line(sim):
    """A line has at most 512 bytes."""
    lines = "up 1\n" + "x" * 513 + "\nup 2\n"
    return sim("too_long_line", with_children(2), lines, "start c0 #1\nstart c1 #2\n", LINES_TIP + "line 2 refused: more than 512 bytes\n", 3)


def bytes_that_are_no_text(make):
    """A tree file need not be a text."""
    return make("bytes_that_are_no_text", ["sim", "tree"], {"tree": b"period = 5 # \xff\n"}, tells=TIP.encode() + b"tree refused: E10\n", status=1)


def large_files(make):
    """A file of a byte more than 1 MiB is not parsed by what people use, and one of 1 MiB is."""
    for size, status in ((1 << 20, 0), ((1 << 20) + 1, 1)):
        tree = TREE.encode().ljust(size, b"\n")
        for line in ("check tree", "tree tree", "try tree", "limits tree", "shutdown tree", "suggest tree --child a --every 1h", "diff tree tree"):
            # Without a line of a script nothing is played, which has a status of its own.
            ends = 8 if line == "try tree" and not status else status
            call = make(f"large_files, {size} bytes", line.split(), {"tree": tree}, status=ends)
            call.how = {"shows": "part", "tells": "part"}
            # What `check` finds is what it writes.
            if status and line == "check tree":
                call.shows = b"1048576 bytes"
            elif status:
                call.tells = b"1048576 bytes"
            yield call
        # A log may be as long on standard input as a tree file, and in a file as long as it likes.
        log = b"1 crash a\n".ljust(size)
        call = make(f"long_logs, {size} bytes", ["replay", "tree", "-"], {"tree": TREE.encode()}, log, status=status)
        call.how, call.tells = {"shows": "part", "tells": "part"}, b"1048576 bytes" if status else b""
        yield call
        call = make(f"long_logs, {size} bytes", ["replay", "tree", "log"], {"tree": TREE.encode(), "log": log})
        call.how = {"shows": "part"}
        yield call


def strange_names(make):
    """What would move the cursor in the name of a file is escaped."""
    name = "a\x1b[31m\n\u202e.toml"
    shown = b"a\\u{1b}[31m\\n\\u{202e}.toml"
    yield make("strange_names", ["check", name], {}, shows=shown + b": can't be read: there is no such file\n", status=1)
    yield make("strange_names", ["check", name], {name: TREE.encode()}, shows=shown + b": a lawful tree\n")


def check_at_limits(make):
    """The 64th table is looked at as the others are, and the 65th is one too many; so is the 257th child, and of a later one that is
    no table that is told too."""

    def found(name, tree, *lines):
        return make(name, ["check", "tree"], {"tree": tree.encode()}, shows="".join(f"tree:{line}\n" for line in lines).encode(), status=1)

    def wide(trees):
        # In the last of these trees the period is 0.
        return "".join(CHILD.format(f"c{place}", "m") + f"tree = {{period = {int(place < trees)}}}\n" for place in range(1, trees + 1))

    yield found("last_table", wide(63), "252: E1: child 63 (c63), tree, period: read 0; allowed: a whole number, 1 to 1000000 (seconds)")
    yield found("one_table_too_many", wide(64), "256: E15: child 64 (c64), tree: more than 64 supervisors; put children of some into the tree of another")
    many = "child = [" + "".join(f'{{id = "c{place}", start = "m"}}, ' for place in range(1, 260)) + "1]"
    yield found(
        "child_behind_the_last",
        many,
        "1: E13: child 260: no table; each child is one, [[child]]",
        "1: E7: supervisor: more than 256 children; a supervisor has at most so many: put some into the tree of a child",
    )

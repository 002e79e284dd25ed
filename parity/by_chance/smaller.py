"""Makes a tree and a script smaller for as long as they still fail."""

import copy



def without_some(steps):
    """Scripts of fewer lines: without a half of them, a quarter, and so on down to one."""
    size = len(steps) // 2
    while size:
        for begin in range(0, len(steps), size):
            yield steps[:begin] + steps[begin + size :]
        size //= 2


def plainer_steps(steps):
    """Scripts in which one line is plainer: at once, or once."""
    for place, step in enumerate(steps):
        for name, value in (("times", 1), ("when", ("now", 0))):
            if getattr(step, name) != value and not (name == "when" and step.times > 1):
                plain = copy.copy(step)
                setattr(plain, name, value)
                yield steps[:place] + [plain] + steps[place + 1 :]


def supervisors(tree):
    return [sup for _, sup in tree.supervisors()]


def smaller_trees(tree):
    """Trees with a child fewer, with a child that has no tree any more, or with plainer flags or keys."""
    for number, sup in enumerate(supervisors(tree)):
        for place, child in enumerate(sup.children):
            if len(sup.children) > 1:
                yield changed(tree, number, lambda it, place=place: it.children.pop(place))
            if child.tree:
                yield changed(tree, number, lambda it, place=place: without_tree(it.children[place]))
            for name, value in (("restart", "permanent"), ("significant", False), ("shutdown", None)):
                if getattr(child, name) != value:
                    yield changed(tree, number, lambda it, place=place, name=name, value=value: setattr(it.children[place], name, value))
        for name, value in (("strategy", "one_for_one"), ("intensity", 1), ("auto", "never")):
            if getattr(sup, name) != value:
                yield changed(tree, number, lambda it, name=name, value=value: setattr(it, name, value))


def without_tree(child):
    child.tree, child.kind = None, "worker"


def changed(tree, number, change):
    made = copy.deepcopy(tree)
    change(supervisors(made)[number])
    return made


def smaller(tree, steps, fails):
    """The smallest that still fails of those that were tried. `fails` says how, or None; a tree that is refused doesn't fail."""
    why, is_smaller = fails(tree, steps), True
    while is_smaller:
        is_smaller = False
        candidates = [(tree, fewer) for fewer in without_some(steps)] + [(it, steps) for it in smaller_trees(tree)]
        for candidate in candidates + [(tree, plainer) for plainer in plainer_steps(steps)]:
            said = fails(*candidate)
            if said is not None:
                (tree, steps), why, is_smaller = candidate, said, True
                break
    return tree, steps, why



#!/usr/bin/env python3
"""Works out what the program `compare` has to print, from the written rules alone.

Prints the lines of crates/compare/stdout. It enumerates the same books and makes the same larger ones by chance, asks them with a
prover of its own, and counts. It takes some minutes; the gate does not run it.
"""
from itertools import product

BUDGET, ROOM, LONGEST_CHANGED, BY_CHANCE, LONGEST_RULE_BODIES = 1000, 64, 16, 100, 8


# ---- rules: a rule is (number, head, bodies)
def grow(nodes):
    """The rules that nodes (depth, head) write down, numbered as they end."""
    ended = 0

    def rules_at(place, depth):
        nonlocal ended
        rules = []
        while place < len(nodes) and nodes[place][0] == depth:
            head = nodes[place][1]
            bodies, place = rules_at(place + 1, depth + 1)
            rules.append((ended, head, bodies))
            ended += 1
        return rules, place

    rules, place = rules_at(0, 1)
    assert place == len(nodes) == ended
    return rules


def table_of(rules, table):
    for rule in rules:
        table[rule[0]] = rule
        table_of(rule[2], table)
    return table


def numbers(rules):
    return frozenset(rule[0] for rule in rules)


# ---- the search
class Spent(Exception):
    pass


class Search:
    def __init__(self, table, goal, again, budget):
        self.table, self.goal, self.again, self.budget, self.count = table, goal, again, budget, 0

    def ask(self, name, force, way):
        """The tree of a name, or None."""
        if (name, force) in way:
            return None
        if self.count == self.budget:
            raise Spent
        self.count += 1
        way = way | {(name, force)}
        for number in sorted(force):
            _, head, bodies = self.table[number]
            if head == name:
                tree = [1, number]
                for body in bodies:
                    below = self.ask(body[1], force | numbers(body[2]), way)
                    if below is None:
                        break
                    tree += below
                else:
                    return tree
        if self.again:
            below = self.ask(self.goal, force, way)
            if below is not None:
                return [2] + below
        return None


def decide(table, goal, force, again, budget):
    search = Search(table, goal, again, budget)
    try:
        tree = search.ask(goal, force, frozenset())
    except Spent:
        return "spent", search.count, None
    return ("no" if tree is None else "yes"), search.count, tree


# ---- the check
def is_tree(table, goal, force, again, data):
    """Whether bytes are one whole tree: a stack of open queries, the next on top."""
    stack, place = [(goal, force)], 0
    while stack:
        if place >= len(data):
            return False
        name, now = stack.pop()
        if data[place] == 2 and again:
            stack.append((goal, now))
            place += 1
        elif data[place] == 1 and place + 1 < len(data):
            number = data[place + 1]
            if number not in now or table[number][1] != name:
                return False
            for body in reversed(table[number][2]):
                stack.append((body[1], now | numbers(body[2])))
            place += 2
        else:
            return False
    return place == len(data)


# ---- the books
def every(size):
    """Every book of so many nodes, in the order of the program."""
    def depths(prefix):
        if len(prefix) == size:
            yield prefix
            return
        for depth in range(1, prefix[-1] + 2):
            yield from depths(prefix + [depth])

    def heads(prefix):
        if len(prefix) == size:
            yield prefix
            return
        for head in range(max(prefix) + 2):
            yield from heads(prefix + [head])

    for way in depths([1]):
        for naming in heads([0]):
            yield list(zip(way, naming))


class Chance:
    state = 1

    def below(self, limit):
        self.state = (self.state * 6364136223846793005 + 1442695040888963407) % 2**64
        return self.state // 2**33 % limit


def by_chance(chance, size, names, deepest):
    nodes, unused, last, standing = [], 0, 0, [0] * 9
    for _ in range(size):
        depth = 1 + chance.below(min(last, deepest - 1) + 1)
        if standing[depth] >= LONGEST_RULE_BODIES:
            depth = 1
        head = chance.below(min(unused + 1, names))
        nodes.append((depth, head))
        unused, last = max(unused, head + 1), depth
        if depth > 1:
            standing[depth] += 1
        for deeper in range(depth + 1, 9):
            standing[deeper] = 0
    return nodes


# ---- the charts: how many lawful ones there are, by their sizes
def lawful_sizes(names):
    """For each lawful chart of up to three releases over so many names, its size."""
    sizes = []
    for size in (1, 2, 3):
        releases = range(size)
        for bits in product((False, True), repeat=size * size):
            follows = {(w, v): bits[w * size + v] for w in releases for v in releases}
            if not all(follows[w, w] for w in releases):
                continue
            if any(follows[w, v] and follows[v, u] and not follows[w, u] for w in releases for v in releases for u in releases):
                continue
            kept = sum(
                all(not follows[w, v] or not carried[w] or carried[v] for w in releases for v in releases)
                for carried in product((False, True), repeat=size)
            )
            sizes.append((size, kept**names))
    return sizes


def looks(names):
    return sum(size * charts for size, charts in lawful_sizes(names))


# ---- the counts
books = 0
counts = dict.fromkeys(
    ["rules taken", "yes", "no", "spent", "long", "trees checked", "changed trees that are trees",
     "changed trees that are none", "looks"], 0)


def note_ask(kind, tree, room):
    counts["long" if kind == "yes" and len(tree) > room else kind] += 1


def compare(nodes, changes):
    global books
    rules = grow(nodes)
    table = table_of(rules, {})
    goal = rules[-1]
    force = numbers(rules[:-1]) | numbers(goal[2])
    books += 1
    for form in ("text", "codes"):
        counts["rules taken"] += len(rules) - 1
        for again in (False, True):
            kind, count, tree = decide(table, goal[1], force, again, BUDGET)
            note_ask(kind, tree, ROOM)
            if count > 1:
                less = decide(table, goal[1], force, again, count - 1)
                assert less[0] == "spent" and less[1] == count - 1
                note_ask(less[0], less[2], ROOM)
            if kind == "yes":
                assert is_tree(table, goal[1], force, again, tree)
                counts["trees checked"] += 1
                note_ask("yes", tree, len(tree))
                note_ask("yes", tree, len(tree) - 1)
                if form == "text" and changes and len(tree) <= LONGEST_CHANGED:
                    change(table, goal[1], force, tree)


def change(table, goal, force, tree):
    for place in range(len(tree)):
        for value in range(256):
            if value != tree[place]:
                data = tree[:place] + [value] + tree[place + 1:]
                for again in (False, True):
                    right = is_tree(table, goal, force, again, data)
                    counts["changed trees that are trees" if right else "changed trees that are none"] += 1


def main():
    for size in range(1, 7):
        for nodes in every(size):
            compare(nodes, size <= 5)
            if size <= 4:
                counts["looks"] += LOOKS[1 + max(head for _, head in nodes)]
    chance = Chance()
    for size in (8, 12, 16, 24, 32):
        for names in range(2, 7):
            for _ in range(BY_CHANCE):
                nodes = by_chance(chance, size, names, 2 + names % 3)
                compare(nodes, True)
                if names == 2:
                    counts["looks"] += LOOKS[2]
    print(f"books: {books}")
    for kind, count in counts.items():
        print(f"{kind}: {count} agreed")
    lawful = sum(charts for _, charts in lawful_sizes(2))
    print(f"charts filled: {lawful} agreed")
    print(f"charts refused: {sum(2 ** (n * n) * 4 ** n for n in (1, 2, 3)) - lawful} agreed")


LOOKS = {names: looks(names) for names in (1, 2, 3, 4)}
main()

#!/usr/bin/env python3
"""Writes crates/test_calls/data/script.txt, a script of calls, and crates/test_calls/stdout, what the program must print for it.

    tools/calls_script.py

Every answer, and what every table holds afterwards, is that of rust/plain, the planner in plain Rust. crates/test_commands/src/lib.rt and
crates/test_calls/src/main.rt say what a command is.
"""
import itertools
import os

from plain_calls import HERE, ROW, ROWS, WORDS, Script

LARGEST = 2 ** 64 - 1


class Random:
    """A linear congruential generator, so that the script is the same everywhere."""

    def __init__(self, seed):
        self.x = seed

    def below(self, k):
        self.x = (self.x * 6364136223846793005 + 1442695040888963407) % 2 ** 64
        return (self.x >> 33) % k

    def pick(self, xs):
        return xs[self.below(len(xs))]

    def shuffled(self, xs):
        xs = list(xs)
        for i in range(len(xs) - 1, 0, -1):
            j = self.below(i + 1)
            xs[i], xs[j] = xs[j], xs[i]
        return xs


def whole(n):
    return list(range(1, n + 1))


# ---- document 01's circles

def circles(s):
    rings = [
        ("a", 1, [[1]]), ("b", 2, [[1], [2, 1]]), ("c", 3, [[2], [3, 1], [1, 2, 3]]),
        ("d e f g", 5, [[1, 3], [3, 5], [1, 5], [2, 4]]),
        ("h", 4, [[1, 2], [3, 4], [2, 3], [1, 4]]), ("i", 5, [[1, 2], [3, 4], [2, 3], [1, 4]]),
        ("j", 6, [[1, 2], [3, 4], [2, 3]]), ("k", 6, [[2, 4], [2, 5]]), ("l", 5, [[2, 3, 4, 5]]),
    ]
    for _, n, groups in rings:
        s.open(n)
        s.order(n)
        s.text(n)
        count = 0
        for g in groups:
            s.trial(n, count, g)
            s.conflict(n, count, g)
            count += s.join(n, count, g)[0] == 0
            s.order(n)
            s.text(n)
        for k in range(count + 2):
            s.aim(n, count, k)


# ---- refusals

BAD_N = [0, 257, LARGEST]
SHORT = [dict(have=255), dict(a=ROWS - 1), dict(b=WORDS - 1)]
E = [[1, 3], [3, 5]]


def pairs(*causes):
    """Whether at most two of the causes are there, or all of them."""
    return sum(map(bool, causes)) <= 2 or all(causes)


def sequence(s):
    """Calls with several causes at once: the first down the table counts."""
    for full, damage in itertools.product((False, True), (None, "nodes", "book", "both")):
        if damage is None:
            s.grow(5, E + [whole(5)] * (94 if full else 0))
            kept = s.kept()
        count = 96 if full else 2
        s.restore(kept)
        if damage in ("nodes", "both"):
            s.node(ROW + 3, 5)
        if damage in ("book", "both"):
            s.word(4, kept[1][4] + 32)
        for n, short, much, group in itertools.product([5] + BAD_N, [{}] + SHORT, (count, 97), ([2, 4], [1, 5], [], [9], [2, 2])):
            if not pairs(n != 5, short, damage or much == 97, group != [2, 4], full):
                continue
            s.trial(n, much, group, **short)
            if s.join(n, much, group, **short)[0] == 0:
                s.restore(kept)
            if not short or "b" in short:
                s.conflict(n, much, group, **short)
                s.conflict(n, much, group, c=95, **short)
        for n, short, much, k in itertools.product([5] + BAD_N, [{}] + SHORT, (count, 97), (1, 0, 3, 98, LARGEST)):
            if not full and pairs(n != 5, short, damage or much == 97, k != 1):
                s.aim(n, much, k, **short)
        if not full:
            s.words(0, [2, 5])  # not consecutive in the standard order, 1 2 4 5 3
            for n, short, much in itertools.product([5] + BAD_N, [{}] + SHORT, (count, 97)):
                s.aim(n, much, 1, **short)
            s.words(0, E[0])
        for n, short in itertools.product([5] + BAD_N, [{}, dict(have=255), dict(a=ROWS - 1)]):
            if damage in (None, "nodes") and not full:
                s.order(n, c=5, **short)
                s.order(n, c=4, **short)
                s.text(n, c=2048, **short)
                s.text(n, c=2047, **short)
    for n, short in itertools.product([5] + BAD_N, [{}] + SHORT):
        for t in (b"1 C(P(2 4) 5 3)", b"1 C(P(2 4) 5 3", b"", b"1 C(P(2 4) 3 5)", b"1 C(P(4 2) 5 3)"):
            s.read(n, t, **short)
        s.open(n, **short)


def sizes(s):
    for n in [1, 2, 3, 4, 5, 63, 64, 65, 127, 128, 129, 191, 192, 193, 254, 255, 256, 257, 258, 65535, 65536, 65537, 2 ** 32 + 5, LARGEST, 0]:
        s.open(n, a=65793, b=385)
        s.trial(n, 0, [1], have=LARGEST, a=65793, b=385)
        s.order(n, c=min(n, 257))
        if 1 <= n <= 256:
            s.order(n, c=n - 1)
            s.order(n, c=257, have=1000, a=65793)
            s.join(n, 0, [n])
            s.join(n, 1, whole(n))
            s.join(n, 2, whole(n)[:n // 2] or [1])
            s.conflict(n, 3, [n], b=385, c=97)
            for k in range(5):
                s.aim(n, 3, k)
        s.text(n)
    for short in (dict(have=0), dict(a=0), dict(b=0), dict(have=0, a=0, b=0), dict(have=LARGEST, a=ROWS - 1), dict(have=255, a=65793, b=385)):
        s.open(5, **short)
        s.trial(5, 0, [1], **short)
        s.join(5, 0, [1], **short)
    s.order(0, c=0)
    s.order(5, c=0)
    s.conflict(5, 0, [1], b=0, c=0)
    s.text(5, c=0)


def each_alone(s, cases):
    """Each list, of those for so many bins, tried, judged for conflicts and joined to a fresh ring or rack by itself."""
    for n, groups in cases:
        s.open(n)
        kept = s.kept()
        for g in groups:
            s.trial(n, 0, g)
            s.conflict(n, 0, g)
            if s.join(n, 0, g)[0] == 0:
                s.restore(kept)


def lists(s):
    cases = [
        (1, [[1], [2], [0], [1, 1], [1, 2], [2, 1]]),
        (2, [[1], [2], [1, 2], [2, 1], [3], [1, 2, 1], [1, 2, 3], [2, 2], [65535]]),
        (5, [[2, 2, 9], [9, 2, 2], [2, 9, 2], [2, 0, 2], [0], [6], [5, 5], [0, 0], [6, 6], [3, 3, 0], [3, 0, 3], [65535, 1], [1, 65535],
             [1, 2, 3, 4, 5, 5], [1, 2, 3, 4, 5, 6], [1, 2, 3, 4, 5, 0], [5, 4, 3, 2, 1, 1], [5, 4, 3, 2, 1], [1, 3, 1], [3, 1, 1, 0]]),
        (64, [[64], [65], [0], [64, 1, 64], whole(64) + [1], whole(64) + [65]]),
        (256, [[256], [257], [256, 256], [255, 257], [300, 256], whole(256), whole(256) + [1], whole(256) + [256], whole(256) + [257],
               whole(256) + [0], whole(256)[::-1] + [256], whole(255) + [255], [65535], [513], [256, 512]]),
    ]
    each_alone(s, cases)


def full_book(s):
    for n, first in ((5, E), (255 if s.rack else 256, [])):
        s.grow(n, first)
        for k in range(len(first), 94):
            s.words(k, whole(n))
        for count in (94, 95):
            assert s.join(n, count, whole(n)) == (0, count + 1)
        for g in (whole(n), [1, 5], [1], [], [n + 1], [3, 3]):
            for count in (96, 97, 95, LARGEST):
                if len(g) < 256 or count == 96:
                    s.trial(n, count, g)
                    s.join(n, count, g)
                    s.conflict(n, count, g)
        for k in (1, 2, 3, 95, 96, 97):
            s.aim(n, 96, k)
    # 97 groups, one entry past the words
    s.open(5)
    s.word(384, 31)
    s.trial(5, 97, [1], b=385)
    s.word(384, 12345)


# ---- damage

def ask(s, n, count, group, kept, which="JTSAWC"):
    if "T" in which:
        s.trial(n, count, group)
    if "J" in which and s.join(n, count, group)[0] == 0:
        s.restore(kept)
    if "S" in which:
        s.order(n)
    if "A" in which:
        s.aim(n, count, 1)
    if "W" in which:
        s.text(n)
    if "C" in which:
        s.conflict(n, count, group)


def damage(s):
    s.grow(5, E)
    kept = s.kept()
    places = [ROW * r + i for r in range(4) for i in range(8)]
    places += [8, 100, 255, 256, ROW + 256, 2 * ROW + 100, 100 * ROW, 100 * ROW + 1, 254 * ROW + 256, 255 * ROW, 255 * ROW + 1, 65790, 65791, 65792]
    for i in places:
        for v in {0, 1, kept[0][i] + 1, 4, 65535} - {kept[0][i]}:
            s.node(i, v)
            ask(s, 5, 2, [2, 4], kept, "JTSW" if v in (0, 65535) else "TS")
            s.node(i, kept[0][i])
    words = list(range(12)) + [100, 379, 380, 381, 382, 383, 384]
    for i in words:
        for v in {0, 1, kept[1][i] + 1, 32, LARGEST} - {kept[1][i]}:
            s.word(i, v)
            ask(s, 5, 2, [2, 4], s.kept(), "JTAC")
            s.word(i, kept[1][i])
    for n in (1, 2, 3, 4, 6, 256):
        ask(s, n, 2, [1], kept)
    for count in (0, 1, 3, 96, 97, 2 ** 32 + 2, LARGEST):
        ask(s, 5, count, [2, 4], kept, "JTAC")


def random_damage(s, r, times):
    """Random trees with one or two entries changed, mostly where the tree stands."""
    for _ in range(times):
        n = 3 + r.below(10)
        groups = random_groups(s, r, n, 6)
        s.open(n)
        count = 0
        for g in groups:
            count += s.join(n, count, g)[0] == 0
        used = next(i for i in range(256) if s.nodes()[ROW * i] == 0)
        kept = s.kept()
        for _ in range(6):
            for _ in range(1 + r.below(2)):
                row = r.below(used + 1)
                i = ROW * row + r.below(2 + s.nodes()[ROW * row + 1] % 256 + 1)
                v = r.pick([0, 1, 2, 3, s.nodes()[i] + 1, n, n + 1, 256, 257, 258, 256 + used, 1 + r.below(n), 1 + r.below(n), r.below(65536)])
                s.node(i, v % 65536)
            ask(s, n, count, r.pick(groups), s.kept(), "TSW")
            s.restore(kept)


def other_books(s, r, times):
    """Books that nobody joined: groups in any sequence, impossible together, not consecutive in the standard order."""
    for _ in range(times):
        n = r.pick([1, 2, 3, 4, 5, 6, 8, 12])
        s.open(n)
        count = 1 + r.below(7)
        for k in range(count):
            s.words(k, r.shuffled(whole(n))[:1 + r.below(n)])
        for k in range(1, count + 1):
            s.aim(n, count, k)
        for g in random_groups(s, r, n, 3):
            s.conflict(n, count, g)
        s.conflict(n, count, whole(n))
        s.trial(n, count, whole(n))
        s.trial(n, count - 1, whole(n))


# ---- large trees

def large(s):
    # nested groups: 96 nodes in each other; neighbours: one long C-node
    for n, groups in ((256, [list(range(256 - k, 257)) for k in range(1, 97)]), (97, [[k, k + 1] for k in range(1, 97)])):
        s.grow(n, groups[:95])
        for g in ([1, n], [1, n // 2], [2, n], [n - 1, n], whole(n)[:50], groups[95]):
            s.trial(n, 95, g)
            s.conflict(n, 95, g)
        s.join(n, 95, groups[95])
        s.order(n)
        s.text(n)
        for k in range(1, 97, 5):
            s.aim(n, 96, k)
    # as many nodes as there can be, 254, every second one named C: each is read as a P-node
    n = 256
    s.open(n)
    text = "1 " + "".join("%s(%d " % ("PC"[k % 2], k) for k in range(2, n)) + str(n) + ")" * (n - 2)
    for t in (text[:-1], text + ")", text.replace("256", "255"), text.replace("C(255 256)", "C(256 255)"), text):
        s.read(n, t.encode())
    kept = s.kept()
    for g in ([255, 256], [2, 3], [1, 2], [1, 256], [1, 100, 256], list(range(100, 257))):
        s.trial(n, 0, g)
    s.order(n)
    s.text(n)
    for i in (0, 1, 2, 3, 4, 5, 256, 257):
        for r in (252, 253, 254, 255):
            s.node(ROW * r + i % ROW, s.nodes()[ROW * r + i % ROW] + 1)
            s.order(n)
            s.restore(kept)
    s.join(n, 0, [2, 4])
    s.join(n, 1, [1, 256])
    s.order(n)
    s.text(n)


# ---- random rings and racks

def random_groups(s, r, n, many):
    """Runs of one order, so that many are kept, and some at random."""
    order = r.shuffled(whole(n))
    groups = []
    for _ in range(many):
        size = 1 + r.below(n)
        start = r.below(n + 1 - size if s.rack else n)
        if r.below(4) == 0:
            groups.append(r.shuffled(whole(n))[:size])
        else:
            groups.append(r.shuffled((order + order)[start:start + size]))
    return groups


def random_joins(s, r, sizes):
    for n in sizes:
        a, b = (ROWS, WORDS) if r.below(2) else (65793, 385)
        s.node(65792, r.below(65536))
        s.word(384, r.below(2 ** 31))
        s.open(n, a=a, b=b)
        count = 0
        for g in random_groups(s, r, n, 8 if n <= 64 else 12):
            if r.below(2):
                s.trial(n, count, g, a=a, b=b)
            answer = s.join(n, count, g, a=a, b=b)
            if answer[0]:
                s.conflict(n, count, g)
            count += answer[0] == 0
            if r.below(3) == 0:
                s.order(n, c=n + r.below(258 - n))
        s.order(n)
        s.text(n)
        for k in range(1, count + 1, 1 + n % 3):
            s.aim(n, count, k)
        if n <= 64 and r.below(2):
            read_back(s, r, n)


def read_back(s, r, n):
    """The tree's text read into a fresh ring, whole and damaged."""
    text = s.tree_text(n)
    s.open(n)
    for _ in range(2):
        t = list(text)
        i = r.below(len(t))
        kind = r.below(4)
        if kind == 0:
            t[i] = r.pick(list(b" ()PC0123456789") + [r.below(256)])
        elif kind == 1:
            del t[i]
        elif kind == 2:
            t.insert(i, r.pick(list(b" ()PC12")))
        else:
            del t[i:]
        s.read(n, t)
    s.read(n, text)
    s.order(n)


# ---- groups with no bins

def empty_lists(s):
    """Lists with no bins: on fresh rings, beside other groups, until the book is full and after."""
    for n in (1, 2, 3, 5, 64, 65, 256):
        s.open(n)
        for count, g in enumerate(([], whole(n), [], [n])):
            s.trial(n, count, g)
            s.conflict(n, count, g)
            s.join(n, count, g)
        s.order(n)
        s.text(n)
        for k in range(6):
            s.aim(n, 4, k)
    s.grow(5, [[]] * 95)
    for g in ([], [2, 4]):
        s.join(5, 95, g)
        for h in ([], [1, 3], [1, 2, 3, 4, 5], [6], [2, 2]):
            for count in (95, 96, 97):
                s.trial(5, count, h)
                s.conflict(5, count, h)
            s.join(5, 96, h)
        for k in (0, 1, 95, 96, 97):
            s.aim(5, 96, k)
        s.words(95, [])


def empty_marks(s):
    """Books that hold groups without marks, by themselves possible or not; the count may be above their number, or leave out one with marks."""
    for more in ([], [[1, 5]], [[], [2, 3], [1, 5], []]):
        s.grow(5, [[], [1, 3], [], [3, 5], []])
        for k, g in enumerate(more):
            s.words(5 + k, g)
        kept = s.kept()
        for count in (0, 3, 4, 5, 6, 7, 9, 95, 96, 97):
            for g in ([], [2, 4], [1, 5], [1, 2, 3, 4, 5], [0], [4, 4]):
                s.trial(5, count, g)
                s.conflict(5, count, g)
                if s.join(5, count, g)[0] == 0:
                    s.restore(kept)
            for k in (1, 2, 3, 4, 5, 6, 8, 96):
                s.aim(5, count, k)
    # a full book, impossible by its first, a middle and its last group
    s.open(5)
    for k, g in ((0, [1, 3]), (50, [3, 5]), (95, [1, 5])):
        s.words(k, g)
    for g in ([], [1, 3], [2, 4], [1, 2, 4]):
        s.conflict(5, 96, g)
        s.join(5, 96, g)
    for k in (0, 1, 2, 51, 95, 96, 97):
        s.aim(5, 96, k)


def empty_aims(s):
    """The aim of an empty group with each cause that is checked before it, and in a book with a group that is not consecutive."""
    s.grow(5, [[1, 3], [], [3, 5]])
    kept = s.kept()
    for damage in (None, "nodes", "book", "both"):
        s.restore(kept)
        if damage in ("nodes", "both"):
            s.node(ROW + 3, 5)
        if damage in ("book", "both"):
            s.word(4, 32)
        for n, short, much, k in itertools.product([5] + BAD_N, [{}] + SHORT, (3, 4, 97), (2, 4, 0, 5, LARGEST)):
            if pairs(n != 5, short, damage or much == 97, not 1 <= k <= much):
                s.aim(n, much, k, **short)
    s.restore(kept)
    s.words(0, [2, 5])  # not consecutive in the standard order, 1 2 4 5 3
    for k in range(6):
        s.aim(5, 4, k)


def random_empty(s, r, times):
    """Random joins with empty lists among the others; then books that nobody joined, with groups without marks."""
    for _ in range(times):
        n = r.pick([1, 2, 3, 4, 5, 6, 8, 12, 64])
        s.open(n)
        count = 0
        for g in random_groups(s, r, n, 6):
            g = g if r.below(3) else []
            s.trial(n, count, g)
            s.conflict(n, count, g)
            count += s.join(n, count, g)[0] == 0
        s.text(n)
        for k in range(1, count + 2):
            s.aim(n, count, k)
        for k in range(8):
            s.words(k, r.shuffled(whole(n))[:1 + r.below(n)] if r.below(3) else [])
        for g in [[]] + random_groups(s, r, n, 2):
            s.conflict(n, 8, g)
            s.trial(n, 8, g)
        for k in range(1, 9):
            s.aim(n, 8, k)


# ---- nodes with three neighbours

def two_items(text):
    """The places of a tree text's letters whose nodes have two items."""
    places, opened = [], []
    for i, b in enumerate(text):
        if b in b"PC":
            opened.append([i, 1])
        elif b in b" " and opened:
            opened[-1][1] += 1
        elif b in b")":
            i, items = opened.pop()
            places += [i] * (items == 2)
    return sorted(places)


def held_threes(s, n):
    """The table with each of its nodes of two items as a C-node, lent to each call that looks at one."""
    kept = s.kept()
    for i in range(0, ROWS, ROW):
        if kept[0][i:i + 2] == [1, 2]:
            s.node(i, 2)
            ask(s, n, 0, [1, n], s.kept(), "JTSAW")
            s.restore(kept)


def threes(s):
    """Texts that name a C-node with two items, in its direction and in the other, and tables that hold one."""
    cases = [
        (3, "1 C(2 3)", ["1 C(3 2)", "1 P(3 2)"]),
        (4, "1 C(2 C(3 4))", ["1 C(C(3 4) 2)", "1 C(2 C(4 3))", "1 C(2 C(4 3)", "1 C(4 C(3 2))", "1 P(4 C(3 2))", "1 C(C(3) 4)"]),
        (5, "1 C(C(2 5) 4 3)", ["1 C(C(5 2) 4 3)", "1 C(4 C(5 2) 3)", "1 C(3 4 C(2 5))", "1 C(5 C(4 3) 2)"]),
        (5, "1 C(C(3 2 4) 5)", ["1 C(5 C(3 2 4))", "1 C(C(4 2 3) 5)"]),
        (7, "1 C(C(2 6) P(3 C(4 7)) 5)", ["1 C(C(2 6) P(3 C(7 4)) 5)", "1 C(5 P(C(4 7) 3) C(2 6))", "1 P(C(2 6) P(3 C(4 7)) 5)"]),
    ]
    for n, text, others in cases:
        s.open(n)
        for t in [text] + others:
            if s.read(n, t.encode())[0] == 0:
                s.text(n)
                s.order(n)
        held_threes(s, n)
        count = 0
        for g in ([2, n], [1, 2], whole(n)[1:-1]):
            s.trial(n, count, g)
            count += s.join(n, count, g)[0] == 0
            s.text(n)
    # as many C-nodes one in another as there can be, 127
    n = 256
    text = "1 " + "".join("C(%d %d " % (k, k + 1) for k in range(2, n, 2)) + str(n) + ")" * 127
    for last in ("256 255 254", "254 C(255 256)", "254 255 256"):
        s.read(n, text.replace("254 255 256", last).encode())
        s.order(n)
        s.text(n)
    for g in ([255, 256], [254, 256], [1, 2, 256], [2, 3], [2, 4], [4, 5], list(range(100, 257)), list(range(101, 257))):
        s.trial(n, 0, g)
    s.join(n, 0, [1, 256])
    s.join(n, 1, [4, 5])
    s.text(n)


def random_threes(s, r, times):
    """Random trees whose texts name some of the nodes with two items C."""
    for _ in range(times):
        n = 3 + r.below(12)
        s.open(n)
        count = 0
        for g in random_groups(s, r, n, 6):
            count += s.join(n, count, g)[0] == 0
        text = s.tree_text(n)
        places = two_items(text)
        for i in places:
            text[i] = r.pick(b"PC")
        s.read(n, text)
        s.text(n)
        held_threes(s, n)


# ---- racks

def rack_sequence(s):
    """Calls on a rack with two causes at once: the first down the table counts."""
    s.grow(5, E)
    kept = s.kept()
    for damage, n, short in itertools.product((None, "nodes", "book"), [5, 256] + BAD_N, [{}] + SHORT):
        if not pairs(damage, n != 5, short):
            continue
        if damage == "nodes":
            s.node(ROW + 3, 5)
        if damage == "book":
            s.word(4, kept[1][4] + 32)  # the hidden end bin
        for group in ([2, 4], [1, 5], [6], [2, 2]):
            if pairs(damage, n != 5, short, group != [2, 4]):
                s.trial(n, 2, group, **short)
                if s.join(n, 2, group, **short)[0] == 0:
                    s.restore(kept)
                if not short or "b" in short:
                    s.conflict(n, 2, group, **short)
        for k in (1, 3):
            s.aim(n, 2, k, **short)
        if "b" not in short:
            s.order(n, c=5, **short)
            s.order(n, c=4, **short)
            s.text(n, **short)
        s.restore(kept)
    for n, short in itertools.product([5, 256] + BAD_N, [{}] + SHORT):
        for t in (b"1 C(P(2 4 6) 5 3)", b"1 C(P(2 4) 5 3)", b"1 C(P(2 6 4) 5 3)", b""):
            s.read(n, t, **short)
        s.open(n, **short)


def rack_sizes(s):
    for n in [1, 2, 3, 4, 5, 62, 63, 64, 65, 127, 128, 191, 192, 254, 255]:
        s.open(n, a=65793, b=385)
        s.order(n)
        s.order(n, c=n - 1)
        s.order(n, c=257, have=1000, a=65793)
        for count, g in enumerate(([n], whole(n), whole(n)[:n // 2], whole(n)[1:], whole(n)[:-1])):
            s.join(n, count, g)
        s.order(n)
        s.text(n)
        for k in range(1, 6):
            s.aim(n, 5, k)
    for n in [256, 257, 65535, 65536, LARGEST, 0]:
        s.open(n)
        s.trial(n, 0, [1])
        s.conflict(n, 0, [1])
        s.aim(n, 0, 1)
        s.order(n, c=257)
        s.text(n)
        s.read(n, b"1")


def rack_lists(s):
    """Lists that name the hidden end bin, and others that are no groups."""
    cases = [
        (1, [[], [1], [2], [1, 1], [1, 2]]),
        (2, [[1, 2], [2, 1], [3], [1, 3], [3, 1]]),
        (5, [[6], [5, 6], [6, 6], [5, 5, 6], [0, 6], [6, 0], [7], [1, 2, 3, 4, 5, 6], [1, 2, 3, 4, 5]]),
        (63, [[63], [64], [65], whole(63), whole(64)]),
        (255, [[255], [256], [257], [255, 256], whole(255), whole(256), [65535]]),
    ]
    each_alone(s, cases)


def other_layout(s):
    """The tables of a rack lent as those of rings, and the other way round; a book that names bin n."""
    for rack, n, groups in ((1, 5, E), (0, 5, E), (0, 6, E + [[1, 6]]), (1, 1, []), (0, 2, [[2]]), (1, 255, [[1, 255]]), (0, 256, [[1, 256]])):
        s.rack = rack
        s.grow(n, groups)
        kept = s.kept()
        ask(s, n, len(groups), [1], kept)
        s.rack = 1 - rack
        for m in (n, n - 1, n + 1):
            ask(s, m, len(groups), [1], kept)
    s.rack = 1


def past_the_ends(s):
    """Groups that a ring keeps, and that a rack refuses; aims of all groups of a fresh rack, some of which are runs only past the ends."""
    for n in (3, 4, 5, 8):
        s.open(n)
        for count in range(n):
            g = [count + 1, count + 2] if count < n - 1 else [n, 1]
            s.trial(n, count, g)
            s.conflict(n, count, g)
            s.join(n, count, g)
        s.order(n)
        s.text(n)
    for n in (1, 2, 3, 4, 5):
        s.open(n)
        for marks in range(2 ** n):
            s.words(0, [b for b in whole(n) if marks >> b - 1 & 1])
            s.aim(n, 1, 1)


def rack_texts(s):
    """Trees with the hidden end bin anywhere: small ones, texts with C-nodes of two items, and the deepest ones."""
    cases = [
        (1, ["1 2", "1"]), (2, ["1 P(2 3)", "1 C(2 3)", "1 C(3 2)"]), (3, ["1 C(2 3 4)", "1 C(2 4 3)", "1 C(3 2 4)", "1 P(P(2 4) 3)", "1 C(4 2 3)"]),
        (4, ["1 P(2 C(3 5 4))", "1 C(P(2 5) 3 4)", "1 C(3 P(2 5) 4)", "1 C(2 5 3 4)", "1 P(3 C(4 2 5))", "1 P(3 C(5 2 4))"]),
        (6, ["1 P(3 C(4 7 2 P(5 6)))", "1 C(P(2 7) P(3 5) 6 4)", "1 C(C(3 2 7 5) 6 4)", "1 C(3 C(5 2 7) 6 4)"]),
        (6, ["1 P(2 P(3 P(4 P(5 P(6 7)))))", "1 P(P(P(P(P(2 3) 4) 5) 6) 7)"]),
    ]
    for n, texts in cases:
        s.open(n)
        for t in texts:
            if s.read(n, t.encode())[0] == 0:
                s.order(n)
                s.text(n)
                held_threes(s, n)
    n = 255
    deepest = [
        "1 " + "".join("P(%d " % k for k in range(2, 256)) + "256" + ")" * 254,
        "1 " + "P(" * 254 + "2" + "".join(" %d)" % k for k in range(3, 257)),
        "1 " + "".join("C(%d %d " % (k, k + 1) for k in range(2, 256, 2)) + "256" + ")" * 127,
    ]
    for t in deepest:
        s.read(n, t.encode())
        s.order(n)
        for g in ([1, 255], [254, 255], [2, 3], list(range(100, 200)), whole(255)):
            s.trial(n, 0, g)
        s.join(n, 0, whole(255))
        s.aim(n, 1, 1)
        s.join(n, 1, [2, 255])
        s.order(n)
        s.text(n)


def rings(s, r):
    for part in (circles, sequence, sizes, lists, full_book, damage, large):
        part(s)
    random_damage(s, r, 60)
    other_books(s, r, 60)
    random_joins(s, r, [1 + i % 12 for i in range(290)] + [64] * 8 + [256] * 4)
    for part in (empty_lists, empty_marks, empty_aims):
        part(s)
    random_empty(s, r, 24)
    threes(s)
    random_threes(s, r, 30)


def racks(s, r):
    s.rack = 1
    for part in (circles, rack_sequence, rack_sizes, rack_lists, full_book, other_layout, past_the_ends, rack_texts):
        part(s)
    random_damage(s, r, 15)
    other_books(s, r, 20)
    random_joins(s, r, [1 + i % 12 for i in range(96)] + [63, 64] * 2 + [255] * 2)
    random_empty(s, r, 8)
    random_threes(s, r, 8)


def main():
    s = Script()
    rings(s, Random(20260101))
    racks(s, Random(20260102))
    folder = os.path.join(HERE, "crates", "test_calls")
    os.makedirs(os.path.join(folder, "data"), exist_ok=True)
    with open(os.path.join(folder, "data", "script.txt"), "w") as f:
        f.write("\n".join(s.lines) + "\n")
    with open(os.path.join(folder, "stdout"), "w") as f:
        f.write("\n".join(s.out) + "\n")
    print("%d commands, %d calls" % (len(s.lines), len(s.out)))
    for letter in "OJTSACWR":
        print(letter, " ".join("%d:%d" % (k, v) for (l, k), v in sorted(s.seen.items()) if l == letter))


if __name__ == "__main__":
    main()

"""The calls of crates/test_calls as rust/plain answers them (its example `script`): lines of the script, and what is printed for each."""
import collections
import os
import subprocess

HERE = os.path.dirname(os.path.dirname(os.path.abspath(__file__)))
ROW, ROWS, WORDS = 257, 65792, 384


def planner():
    rust = os.path.join(HERE, "rust")
    subprocess.run(["cargo", "build", "--release", "--offline", "-q", "-p", "plain", "--example", "script"], cwd=rust, check=True)
    program = os.path.join(rust, "target", "release", "examples", "script")
    return subprocess.Popen([program], stdin=subprocess.PIPE, stdout=subprocess.PIPE, text=True)


def words_of(group):
    marks = sum(1 << b - 1 for b in group)
    return [marks >> 64 * i & 2 ** 64 - 1 for i in range(4)]


class Script:
    def __init__(self):
        self.lines, self.out = [], []
        self.seen = collections.Counter()
        self.planner = planner()
        self.cells = {}
        self.rack = 0  # 1 where the calls are told that they are lent a rack

    def tell(self, line):
        self.planner.stdin.write(line + "\n")

    def ask(self, line):
        self.tell(line)
        self.planner.stdin.flush()
        return self.planner.stdout.readline().rstrip("\n")

    # ---- tables

    def table(self, letter):
        """The node table's numbers (?) or the book's words (!) as they are now."""
        if letter not in self.cells:
            self.cells[letter] = [int(x) for x in self.ask(letter).split()]
        return self.cells[letter]

    def nodes(self):
        return self.table("?")

    def book(self):
        return self.table("!")

    def node(self, i, v):
        self.nodes()[i] = v
        self.set("N %d %d" % (i, v))

    def word(self, i, v):
        self.book()[i] = v
        self.set("B %d %d" % (i, v))

    def set(self, line):
        self.lines.append(line)
        self.tell(line)

    def words(self, k, group):
        """The book's group k (from 0) is this one."""
        for i, w in enumerate(words_of(group)):
            if self.book()[4 * k + i] != w:
                self.word(4 * k + i, w)

    def kept(self):
        return list(self.nodes()), list(self.book())

    def restore(self, kept):
        for i, v in enumerate(kept[0]):
            if self.nodes()[i] != v:
                self.node(i, v)
        for i, v in enumerate(kept[1]):
            if self.book()[i] != v:
                self.word(i, v)

    # ---- calls: each returns the numbers that the planner answers

    def call(self, letter, *numbers):
        line = " ".join([letter, str(self.rack)] + [str(x) for x in numbers])
        said = self.ask(line)
        answer = tuple(int(x) for x in said.split(" :")[0].split()[1:])
        if letter in "OJR" and answer[0] == 0:
            self.cells = {}
        self.lines.append(line)
        self.out.append(said)
        self.seen[letter, answer[0]] += 1
        return answer

    def open(self, n, have=256, a=ROWS, b=WORDS):
        return self.call("O", n, have, a, b)

    def join(self, n, count, group, have=256, a=ROWS, b=WORDS):
        return self.call("J", n, have, a, b, count, *group)

    def trial(self, n, count, group, have=256, a=ROWS, b=WORDS):
        return self.call("T", n, have, a, b, count, *group)

    def order(self, n, c=None, have=256, a=ROWS):
        return self.call("S", n, have, a, n if c is None else c)

    def aim(self, n, count, k, have=256, a=ROWS, b=WORDS):
        return self.call("A", n, have, a, b, count, k)

    def conflict(self, n, count, group, b=WORDS, c=96):
        return self.call("C", n, b, count, c, *group)

    def text(self, n, c=2048, have=256, a=ROWS):
        return self.call("W", n, have, a, c)

    def read(self, n, text, have=256, a=ROWS, b=WORDS):
        return self.call("R", n, have, a, b, *text)

    def grow(self, n, groups, **lent):
        """Opens, and joins groups that can be kept."""
        assert self.open(n, **lent)[0] == 0
        for i, g in enumerate(groups):
            assert self.join(n, i, g, **lent)[0] == 0

    def tree_text(self, n):
        """The bytes of the tree text, which no table is lent for."""
        return [int(x) for x in self.ask("= %d %d" % (self.rack, n)).split()]

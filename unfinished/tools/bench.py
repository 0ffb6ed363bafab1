"""Answers the commands of the test bench by the model: python3 tools/bench.py < commands > answers."""
import re
import sys

from answers import answer as reading
from model import Book, Fault

LONGEST = 9999999
TAIL = 4096
MOST_OVERLAYS = 2
MEMORY = 1 << 40
# the words of each command: n a number, b bytes
WORDS = {
    "flat": "nb", "overlay": "", "append": "b", "cut": "n", "byte": "n", "bytes": "",
    "open": "", "revisions": "", "list": "n", "fetch": "nnn", "draw": "n",
    "begin": "", "put": "nb", "remove": "n", "commit": "", "abandon": "", "back": "n",
    "token": "b", "object": "b", "body": "b", "frame": "nb",
}
SHOWN = ("put", "remove", "commit", "abandon")
READING = ("token", "object", "body", "frame")
NUMBER = re.compile("[0-9]{1,19}")
BYTES = re.compile("(?:[0-9a-f]{2})*")


class Flat:
    def __init__(self, data, space):
        self.data, self.room = bytes(data), space

    def space(self):
        return self.room

    def append(self, more):
        if len(more) > self.room:
            raise Fault(54, 6, 0)
        self.data += more
        self.room -= len(more)

    def cut(self, n):
        if n > len(self.data):
            raise Fault(56, 6, 0)
        self.room += len(self.data) - n
        self.data = self.data[:n]


class Overlay:
    def __init__(self, below):
        self.shown, self.tail = below, b""

    @property
    def data(self):
        return self.shown + self.tail

    def space(self):
        return TAIL - len(self.tail)

    def append(self, more):
        if len(more) > self.space():
            raise Fault(54, 6, 0)
        self.tail += more

    def cut(self, n):
        if n > len(self.data):
            raise Fault(56, 6, 0)
        if n < len(self.shown):
            self.shown, self.tail = self.shown[:n], b""
        else:
            self.tail = self.tail[: n - len(self.shown)]


class Error(Exception):
    pass


def word(words):
    if not words:
        raise Error("a word is missing")
    return words.pop(0)


# the name of the command, whether a spent slip is shown, and the words behind
def parsed(line):
    try:
        text = line.decode()
    except UnicodeDecodeError:
        raise Error("the line is no text")
    if not text:
        raise Error("the line is empty")
    words = text.split(" ")
    name = word(words)
    spent = name == "spent"
    if spent:
        name = word(words)
    if name not in (SHOWN if spent else WORDS):
        raise Error("there is no such command")
    values = []
    for kind in WORDS[name]:
        value = word(words)
        if kind == "n" and not NUMBER.fullmatch(value):
            raise Error("a number has one to 19 decimal digits")
        if kind == "b" and not BYTES.fullmatch(value):
            raise Error("bytes are pairs of lower-case hex digits")
        values.append(int(value) if kind == "n" else bytes.fromhex(value))
    if words:
        raise Error("there is a word too many")
    return name, spent, values


class Bench:
    def __init__(self):
        self.store, self.overlays, self.book, self.spent = None, 0, None, True

    def fresh(self, store):
        self.store, self.book, self.spent = store, Book(store.data, store.space()), True

    def opened(self, object=0):
        if self.book.phase == "shut":
            raise Fault(41, 5, 0, object)
        return self.book.revs

    def revision(self, k, object=0):
        revs = self.opened(object)
        if not 1 <= k <= len(revs):
            raise Fault(46, 5, 0, object)
        return revs[k - 1]

    # one call of the book, and what it does to the store
    def call(self, name, *words):
        fault = self.book.call(name, *words)
        if fault:
            raise Fault(*fault)
        if name == "commit":
            self.store.append(self.book.file[len(self.store.data):])
        if name == "back":
            self.store.cut(len(self.book.file))
        self.book.space = self.store.space()
        self.book.total = self.book.space + len(self.book.file)
        if name == "begin":
            self.spent = False
        if name in ("commit", "abandon"):
            self.spent = True

    def perform(self, name, spent, words):
        if name == "frame" and words[0] > LONGEST:
            raise Error("places count from at most 9999999")
        if name in READING:
            return reading(" ".join([name] + [w.hex() if isinstance(w, bytes) else str(w) for w in words]))
        if name == "flat":
            space, data = words
            if space > MEMORY:
                raise Error("there is too little memory")
            if len(data) > LONGEST:
                raise Fault(17, 6, 0)
            self.fresh(Flat(data, space))
            self.overlays = 0
            return "ok"
        if self.store is None:
            raise Error("there is no store")
        if name == "overlay":
            if self.overlays == MOST_OVERLAYS:
                raise Error("there are two overlays already")
            if len(self.store.data) > LONGEST:
                raise Fault(17, 6, 0)
            self.fresh(Overlay(self.store.data))
            self.overlays += 1
            return "ok"
        if name in ("append", "cut"):
            if self.book.phase != "shut":
                raise Error("the book is open")
            if name == "append":
                self.store.append(words[0])
            else:
                self.store.cut(words[0])
            self.book = Book(self.store.data, self.store.space())
            return "ok"
        if name == "byte":
            data = self.store.data
            return f"ok {data[words[0]]}" if words[0] < len(data) else "ok none"
        if name == "bytes":
            return f"ok {len(self.store.data)} {self.store.space()} {self.store.data.hex()}"
        if name in ("revisions", "list", "fetch", "draw"):
            return self.ask(name, words)
        return self.act(name, spent, words)

    def ask(self, name, words):
        if name == "revisions":
            return f"ok {len(self.opened())}"
        if name == "list":
            r = self.revision(words[0])
            used = sum(1 for s in r["states"] if s[0] == "used")
            return f"ok {r['off']} {r['end']} {r['size']} {used}"
        if name == "draw":
            return f"ok {self.store.data[:self.revision(words[0])['end']].hex()}"
        k, n, room = words
        if room > MEMORY:
            raise Error("there is too little memory")
        r = self.revision(k, n)
        if not (n < r["size"] and r["states"][n][0] == "used"):
            raise Fault(47, 5, 0, n)
        _, generation, body = r["states"][n]
        if len(body) > room:
            raise Fault(16, 5, 0, n)
        return f"ok {generation} {len(body)} {body.hex()}"

    def act(self, name, spent, words):
        shown = [spent or self.spent] if name in SHOWN else []
        self.call(name, *shown, *words)
        return f"ok {len(self.book.revs)}" if name in ("open", "commit") else "ok"

    def answer(self, line):
        try:
            return self.perform(*parsed(line))
        except Fault as fault:
            return "fault {} layer {} place {} object {}".format(*fault.t)
        except Error as error:
            return f"error {error}"


if __name__ == "__main__":
    sys.setrecursionlimit(100000)
    bench = Bench()
    lines = sys.stdin.buffer.read().split(b"\n")
    if not lines[-1]:
        lines.pop()
    for line in lines:
        print(bench.answer(line))

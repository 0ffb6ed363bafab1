"""Commands of the test bench for files and books: python3 tools/book_cases.py, or with SEED COUNT for random ones.

Files of our own making and of another producer's habits, files with one thing wrong in each, and long lists of calls.
"""
import random
import sys

from model import Book, opens, written

W = (b"%PDF-1.4\n1 0 obj\n<</A 2 0 R>>\nendobj\n2 0 obj\n(pump)\nendobj\nxref\n0 3\n0000000000 65535 f \n0000000009 00000 n \n"
     b"0000000037 00000 n \ntrailer\n<<\n/Root 1 0 R\n/Size 3\n>>\nstartxref\n59\n%%EOF\n")
OUT = []


def say(line):
    OUT.append(line)


def flat(data, space=5000):
    say(f"flat {space} {bytes(data).hex()}")


def opened(data, space=5000):
    flat(data, space)
    say("open")


def ask_all(data):
    """Every question about every revision and some that are not there."""
    opened(data)
    revs = opens(data)
    say("revisions")
    for k in range(0, len(revs) + 2):
        say(f"list {k}")
        size = revs[k - 1]["size"] if 1 <= k <= len(revs) else 2
        for n in range(0, size + 1):
            say(f"fetch {k} {n} 400")
    say("draw 1")
    say(f"draw {len(revs)}")
    say("draw 0")


class Maker:
    """A file of another producer: ends of line, gaps, comments, subsections and free lists as one likes."""

    def __init__(self, header=b"%PDF-1.7\r%\xe2\xe3\xcf\xd3\r\n", eol=b"\r\n", end=b" \r"):
        self.file, self.eol, self.end, self.prev = bytearray(header), eol, end, None

    def put(self, n, g, body, sep=b"\r\n"):
        at = len(self.file)
        self.file += b"%d %d obj" % (n, g) + sep + body + sep + b"endobj" + sep
        return at

    def section(self, subs, trailer, gap=b""):
        self.file += gap
        at = len(self.file)
        e = self.eol
        self.file += b"xref" + e
        for first, rows in subs:
            self.file += b"%d %d" % (first, len(rows)) + e
            for f, g, m in rows:
                self.file += b"%010d %05d " % (f, g) + m + self.end
        prev = b"" if self.prev is None else b"/Prev %d" % self.prev
        self.file += b"trailer" + e + b"<<" + trailer + prev + b">>" + e + b"startxref" + e + b"%d" % at + e + b"%%EOF" + e
        self.prev = at
        return at


def another_producer():
    m = Maker()
    a = m.put(1, 0, b"<</Type/Catalog % comment\r/Pages 2 0 R>>")
    b = m.put(2, 0, b"<</Type/Pages/Kids[]/Count 0>>", b"\n")
    c = m.put(4, 3, b"<</Length 5>>stream\r\nab\ncd\rendstream", b" ")
    m.section([(0, [(5, 65535, b"f"), (a, 0, b"n"), (b, 0, b"n"), (0, 7, b"f"), (c, 3, b"n"), (3, 0, b"f")])], b"/Size 6/Root 1 0 R/Info null")
    m.file += b"% a gap\r\r\n\x00\x0c"
    m.eol, m.end = b"\r", b"\r\n"
    d = m.put(3, 7, b"[1 0 R 2 0 R 4 3 R]", b"%c\n")
    m.section([(0, [(4, 65535, b"f")]), (3, [(d, 7, b"n"), (5, 4, b"f")])], b" /Root 1 0 R\r/S#69ze 6/ID[<41><42>]")
    m.eol, m.end = b"\n", b" \n"
    e = m.put(6, 0, b"null", b"\r")
    m.section([(4, [(4, 65535, b"f")]), (6, [(e, 0, b"n")])], b"/Size 7/Root 1 0 R/ID [<41> <42>]", gap=b"\n\n")
    return bytes(m.file)


def broken_files():
    """Files with one thing wrong."""
    def swap(old, new, data=W):
        assert data.count(old) == 1, (old, data.count(old))
        return data.replace(old, new)

    yield b""
    yield b"%PDF-1.4\n"
    yield swap(b"%PDF-1.4", b"%PDF-1.8")
    yield swap(b"%PDF-1.4", b"%PDF-2.0")
    yield W[:-1]
    yield W + b"\n"
    yield swap(b"%%EOF", b"%%EOG")
    yield swap(b"startxref\n59", b"startxref\n00000000059")
    yield swap(b"startxref\n59", b"startxref\n0000000059")
    yield swap(b"startxref\n59", b"startxref\n58")
    yield swap(b"startxref\n59", b"startxref\n181")
    yield swap(b"startxref\n59", b"startxref\n182")
    yield swap(b"startxref\n59", b"startxref\n9999999999")
    yield swap(b"xref\n0 3", b"xref 0 3")
    yield swap(b"xref\n0 3", b"xreg\n0 3")
    yield swap(b"\n0 3\n", b"\n0  3\n")
    yield swap(b"\n0 3\n", b"\n0 3 \n")
    yield swap(b"\n0 3\n", b"\n0 0\n")
    yield swap(b"\n0 3\n", b"\n0 2\n")
    yield swap(b"\n0 3\n", b"\n0 4\n")
    yield swap(b"\n0 3\n", b"\n1 3\n")
    yield swap(b"\n0 3\n", b"\n998 3\n")
    yield swap(b"\n0 3\n", b"\n00000000000 3\n")
    yield swap(b"\n0 3\n", b"\n0 9999999999\n")
    yield swap(b"0000000009 00000 n ", b"000000009  00000 n ")
    yield swap(b"0000000009 00000 n ", b"0000000009 00000 m ")
    yield swap(b"0000000009 00000 n \n", b"0000000009 00000 n\n\n")
    yield swap(b"0000000009 00000 n \n", b"0000000009 00000 n\r\n")
    yield swap(b"0000000009 00000 n \n", b"0000000009 00000 n \r")
    yield swap(b"0000000009 00000 n", b"0000000009 00001 n")
    yield swap(b"0000000009 00000 n", b"0000000010 00000 n")
    yield swap(b"0000000009 00000 n", b"0000000008 00000 n")
    yield swap(b"0000000009 00000 n", b"0000000037 00000 n")
    yield swap(b"0000000009 00000 n", b"0000000059 00000 n")
    yield swap(b"0000000009 00000 n", b"0000000009 65535 n")
    yield swap(b"0000000009 00000 n", b"0000000000 00000 f")
    yield swap(b"0000000037 00000 n", b"0000000003 00000 f")
    yield swap(b"0000000037 00000 n", b"0000000001 65536 f")
    yield swap(b"0000000037 00000 n", b"0000000002 65535 f")
    yield swap(b"0000000037 00000 n", b"0000000037 00009 n")
    yield swap(b"0000000000 65535 f", b"0000000000 65534 f")
    yield swap(b"0000000000 65535 f", b"0000000000 65535 n")
    yield swap(b"0000000000 65535 f", b"0000000003 65535 f")
    yield swap(b"0000000000 65535 f", b"0000000002 65535 f")
    yield swap(b"/Size 3", b"/Size 4")
    yield swap(b"/Size 3", b"/Size 2")
    yield swap(b"/Size 3", b"/Size -3")
    yield swap(b"/Size 3", b"/Size +3")
    yield swap(b"/Size 3", b"/Size 3.")
    yield swap(b"/Size 3", b"/Size null")
    yield swap(b"/Size 3", b"/Size 3 0 R")
    yield swap(b"/Size 3\n", b"\n")
    yield swap(b"/Root 1 0 R", b"/Root 1 1 R")
    yield swap(b"/Root 1 0 R", b"/Root 3 0 R")
    yield swap(b"/Root 1 0 R", b"/Root 0 65535 R")
    yield swap(b"/Root 1 0 R", b"/Root 1")
    yield swap(b"/Root 1 0 R", b"/Root null")
    yield swap(b"/Root 1 0 R", b"/Root 1 0 R/Encrypt 2 0 R")
    yield swap(b"/Root 1 0 R", b"/Root 1 0 R/Encrypt null")
    yield swap(b"/Root 1 0 R", b"/Root 1 0 R/XRefStm 9")
    yield swap(b"/Root 1 0 R", b"/Root 1 0 R/Root 1 0 R")
    yield swap(b"/Root 1 0 R", b"/Root 1 0 R/Prev 59")
    yield swap(b"/Root 1 0 R", b"/Root 1 0 R/Prev 60")
    yield swap(b"/Root 1 0 R", b"/Root 1 0 R/Prev -1")
    yield swap(b"/Root 1 0 R", b"/Root 1 0 R/Prev 0")
    yield swap(b"/Root 1 0 R", b"/Root 1 0 R/Prev null")
    yield swap(b"/Root 1 0 R", b"/Root 1 0 R/Prev(x)")
    yield swap(b"/Root 1 0 R", b"/Root 1 0 R/Prev 37 0 R")
    yield swap(b"trailer\n<<", b"trailer<<")
    yield swap(b"trailer\n<<", b"trailer % c\n <<")
    yield swap(b"trailer\n<<", b"trailer\n[<<")
    yield swap(b"trailer\n<<", b"trailer\n(")
    yield swap(b"trailer\n<<", b"trailer")
    yield swap(b"trailer\n<<", b"trailed\n<<")
    yield swap(b">>\nstartxref", b">>startxref")
    yield swap(b">>\nstartxref", b">> % c\n\nstartxref")
    yield swap(b">>\nstartxref", b">>\nx startxref")
    yield swap(b">>\nstartxref", b"\nstartxref")
    yield swap(b"2 0 obj\n(pump)", b"2 0 obj\n(pump")
    yield swap(b"2 0 obj\n(pump)", b"2 0 obj\n(pum))")
    yield swap(b"2 0 obj\n(pump)", b"2 0 obj\n[pump]")
    yield swap(b"2 0 obj\n(pump)", b"3 0 obj\n(pump)")
    yield swap(b"2 0 obj\n(pump)", b"2 1 obj\n(pump)")
    yield swap(b"2 0 obj\n(pump)", b"2 0 obh\n(pump)")
    yield swap(b"2 0 obj\n(pump)", b"2 0 R  \n(pump)")
    yield swap(b"<</A 2 0 R>>", b"<</A 2/A 3 >>")
    yield swap(b"<</A 2 0 R>>", b"<</A 2 0 R >>")
    yield swap(b"(pump)\nendobj", b"(pump)\nendobx")


def whole(second, trailer=b"/Root 1 0 R/Size 3", gap=b""):
    """A file of one revision with two objects, the second as given."""
    m = Maker(b"%PDF-1.4\n", b"\n", b" \n")
    a = m.put(1, 0, b"<<>>", b"\n")
    b = len(m.file)
    m.file += second
    m.section([(0, [(0, 65535, b"f"), (a, 0, b"n"), (b, 0, b"n")])], trailer, gap)
    return bytes(m.file)


VALUES = [b"(a", b"(a\\)", b"<</A" * 33, b"(" * 33 + b")" * 33, b"99999999999", b"-2147483649", b"[" * 33 + b"]" * 33, b"<</A 1/A 2>>", b"<</A 1/#41 2>>", b"[1 2", b"<</A 1", b"<</A>>",
          b"<<1 2>>", b"]", b">>", b")", b"{", b"<4x>", b"/A#0", b"/#00", b"+", b"1.2.3", b"x", b"R", b"<41", b"<", b">"]
FRAMES = [b"2 0 obj\n", b"2 0 obj\nendobj\n", b"2 0 obj\n7", b"2 0 obj\n7\nendobk\n", b"2 0 obj\n7 8\nendobj\n", b" 2 0 obj\n7\nendobj\n", b"%c\n2 0 obj\n7\nendobj\n",
          b"+2 0 obj\n7\nendobj\n", b"2 +0 obj\n7\nendobj\n", b"2 0 objx\n7\nendobj\n", b"2 0\n7\nendobj\n", b"2", b"", b"2 0 obj 7endobj\n", b"2 0 obj(7)endobj\n", b"2 0 obj 1 0 R endobj\n",
          b"3 0 obj\n7\nendobj\n", b"2 7 obj\n7\nendobj\n", b"2 0 obj\n<</Length 3>>stream\nabc\nendstream\nendobj\n", b"2 0 obj\n<</Length 3>>stream\r\nabcendstream endobj\n",
          b"2 0 obj\n<</Length 3>>stream\rabc\nendstream\nendobj\n", b"2 0 obj\n<</Length 3>> stream abc\nendstream\nendobj\n", b"2 0 obj\n<</Length 4>>stream\nabc\nendstream\nendobj\n",
          b"2 0 obj\n<</Length 2>>stream\nabc\nendstream\nendobj\n", b"2 0 obj\n<</Length 99>>stream\nabc\nendstream\nendobj\n", b"2 0 obj\n<</Length -1>>stream\nabc\nendstream\nendobj\n",
          b"2 0 obj\n<</Length 1 0 R>>stream\nabc\nendstream\nendobj\n", b"2 0 obj\n<<>>stream\nabc\nendstream\nendobj\n", b"2 0 obj\n<</Length 3>>stream", b"2 0 obj\n<</Length 3>>stream\r",
          b"2 0 obj\n<</Length 3>>stream\nabc\nendstreamx\nendobj\n", b"2 0 obj\n<</Length 3>>streams\nabc\nendstream\nendobj\n"]


def unreadable_files():
    """Files whose second object, or whose trailer, does not read."""
    for value in VALUES:
        yield whole(b"2 0 obj\n" + value + b"\nendobj\n")
        yield whole(b"2 0 obj\n7\nendobj\n", b"/Root 1 0 R/Size 3/A " + value)
    for frame in FRAMES:
        yield whole(frame)
    for value in (b"true", b"[1]", b"(3)", b"/Three", b"0003", b"3 0 R", b"-0"):
        yield whole(b"2 0 obj\n7\nendobj\n", b"/Root 1 0 R/Size " + value)
        yield whole(b"2 0 obj\n7\nendobj\n", b"/Size 3/Root " + value)
        yield whole(b"2 0 obj\n7\nendobj\n", b"/Size 3/Root 1 0 R/Prev " + value)
    yield whole(b"2 0 obj\n7\nendobj\n", b"/Root 1 0 R/Size 3" + b" " * 32700)


def behind(data, subs, trailer, objects=()):
    """One section more behind a file; it has the places of objects that are put before it."""
    m = Maker(data, b"\n", b" \n")
    m.prev = opens(data)[-1]["off"]
    places = [m.put(n, g, body, b"\n") for n, g, body in objects]
    m.section([(first, [(places[f] if isinstance(f, int) and x == b"n" else f, g, x) for f, g, x in rows]) for first, rows in subs], trailer)
    return bytes(m.file)


def free_file(size):
    """A file of that Size in which only Root is in use."""
    m = Maker(b"%PDF-1.4\n", b"\n", b" \n")
    a = m.put(1, 0, b"<<>>", b"\n")
    m.section([(0, [(2, 65535, b"f"), (a, 0, b"n")] + [((n + 1) % size, 0, b"f") for n in range(2, size)])], b"/Root 1 0 R/Size %d" % size)
    return bytes(m.file)


def updated(data, count):
    """The file with that many updates more."""
    for k in range(count):
        objects, section, _ = written(data, opens(data)[-1], {2: b"%d" % k})
        data += objects + section
    return data


def bounds():
    """The bounds on numbers, revisions, Size and sections."""
    opened(behind(W, [(0, [(0, 65535, b"f")]), (1000, [(0, 0, b"f")])], b"/Root 1 0 R/Size 1001"))
    opened(behind(W, [(998, [(0, 0, b"f")] * 3)], b"/Root 1 0 R/Size 1001"))
    opened(behind(W, [(999, [(0, 0, b"f")])], b"/Root 1 0 R/Size 1000"))
    opened(behind(W, [(9999999999, [(0, 0, b"f")])], b"/Encrypt 1"))
    opened(behind(W, [(3, [(0, 0, b"n")])], b"/Root 1 0 R/Size 4", [(3, 0, b"8")]))
    last = updated(W, 63)
    opened(last)
    say("revisions")
    say("list 64")
    say("fetch 64 2 9")
    objects, section, _ = written(last, opens(last)[-1], {2: b"63"})
    opened(last + objects + section)
    say("revisions")
    opened(free_file(999))
    for n in (1000, 999):
        say("begin")
        say(f"put {n} 37")
        say("put 1000 37")
        say("remove 1")
        say("commit")
    say("abandon")
    for n in (1001, 1000):
        say("begin")
        say(f"put {n} 37")
        say("commit")
        say("abandon")
    say("list 2")
    say("begin")
    say("put 2 37")
    say("commit")
    say("fetch 3 2 1")


def long_section():
    """A trailer whose carried entries let an update's section grow to its bound."""
    def made(length):
        return whole(b"2 0 obj\n7\nendobj\n", b"/Root 1 0 R/Size 3/A(" + b"a" * length + b")")
    length = 32500
    while len(written(made(length), opens(made(length))[-1], {2: b"8"})[1]) < 32768:
        length += 1
    opened(made(length), 99999)
    for _ in range(2):
        say("begin")
        say("put 2 38")
        say("commit")
    say("abandon")
    say("begin")
    say("put 2 38")
    say("put 3 38")
    say("commit")
    say("spent abandon")
    say("abandon")
    say("list 2")
    say("back 1")
    say("begin")
    say("remove 2")
    say("commit")


def shown_slips():
    """Put, remove, commit and abandon with a spent slip, in every state, and a slip that is used up."""
    opened(W)
    four = ["put 2 37", "put 0 20", "remove 2", "remove 1", "commit", "abandon"]
    for c in four:
        say(f"spent {c}")
    say("begin")
    for c in four:
        say(f"spent {c}")
    say("put 2 38")
    for c in four:
        say(f"spent {c}")
    say("commit")
    for c in four:
        say(c)
    say("begin")
    say("abandon")
    for c in four:
        say(c)
    for line in ("begin", "put 2 39", f"flat 400 {W.hex()}", "commit", "open", "commit", "begin", "put 2 39", "overlay", "abandon", "commit", "open", "list 1", "put 2 39", "begin",
                 "put 2 39", "overlay", "open", "begin", "remove 2", "overlay", "remove 2", "commit", "bytes", "overlay", "revisions", "flat 9999999999999999999 ", "begin", "append 00",
                 "cut 3", "byte 3", "byte 999", "abandon", "cut 3"):
        say(line)


def words():
    """Lines that are no commands."""
    for line in ("spent", "spent ", "spent open", "spent begin", "spent back 1", "spent spent commit", "spent list 1", "spent commit ", "spent commit 1", "spent put 2", "spent put x 37", "spent put 2 3",
                 "spent remove", "spent remove 2 2", "open ", "open 1", "opens", "Open", "begin 1", "commit 1", "abandon 1", "put", "put 2", "put 2 ", "put 2 3", "put 2 G0", "put x 37", "put 2 37 37",
                 "put -1 37", "remove", "remove x", "remove 2 2", "back", "back x", "back 1 1", "revisions 1", "list", "list x", "list 1 1", "list 00000000000000000001", "fetch", "fetch 1", "fetch 1 1",
                 "fetch x 1 1", "fetch 1 x 1", "fetch 1 1 x", "fetch 1 1 1 1", "fetch 1 1 9999999999999999999", "draw", "draw x", "draw 1 1", "draw 9999999999999999999", "list 9999999999999999999",
                 "fetch 9999999999999999999 1 1", "fetch 1 9999999999999999999 1", "put 9999999999999999999 37", "remove 9999999999999999999", "back 9999999999999999999"):
        say(line)


def damaged_updates():
    """Three revisions, with one thing wrong in a later one."""
    book = Book(W, 100000)
    book.call("open")
    for changes in ([(2, b"(gate)"), (3, b"7")], [(2, None)]):
        book.call("begin")
        for n, b in changes:
            book.call("remove", False, n) if b is None else book.call("put", False, n, b)
        book.call("commit", False)
    three = book.file
    yield three
    yield three.replace(b"/Prev 220", b"/Prev 221")
    yield three.replace(b"/Prev 220", b"/Prev 356")
    yield three.replace(b"/Prev 220", b"/Prev 059")
    yield three.replace(b"/Prev 59", b"/Prev 58")
    yield three.replace(b"/Prev 59", b"/Prev 99")
    yield three.replace(b"/Prev 59\n", b"        \n")
    yield three.replace(b"0000000181 00000 n", b"0000000203 00000 n")
    yield three.replace(b"0000000181 00000 n", b"0000000037 00000 n")
    yield three.replace(b"0000000181 00000 n", b"0000000220 00000 n")
    yield three.replace(b"0000000203 00000 n", b"0000000203 00001 n")
    yield three.replace(b"/Size 4", b"/Size 5")
    yield three.replace(b"/Size 4", b"/Size 3")
    yield three.replace(b"0000000000 00001 f", b"0000000004 00001 f")
    yield three.replace(b"0000000000 00001 f", b"0000000003 00001 f")
    yield three.replace(b"0000000002 65535 f", b"0000000002 65534 f")
    yield three.replace(b"%%EOF\n2 0 obj", b"%%EOG\n2 0 obj")
    yield three.replace(b"startxref\n220", b"startxref\n221")
    yield three.replace(b"startxref\n356", b"startxref\n220")
    yield three[:355]
    yield three[:356]
    yield three[:356] + three[:356]


def worked():
    opened(W, 4000)
    say("begin")
    say(f"put 2 {b'(gate)'.hex()}")
    say(f"put 3 {b'7'.hex()}")
    say("fetch 1 2 10")
    say("commit")
    say("bytes")
    say("list 2")
    say("fetch 2 3 1")
    say("fetch 2 3 0")
    say("begin")
    say("remove 2")
    say("commit")
    say("bytes")
    say("fetch 3 2 10")
    say("fetch 2 2 10")
    say("begin")
    say(f"put 2 {b'(weir)'.hex()}")
    say("commit")
    say("bytes")
    say("fetch 4 2 10")
    say("back 2")
    say("bytes")
    say("list 3")
    for k in (1, 2):
        say(f"draw {k}")


BODIES = [b"7", b"(gate)", b"<</A 1 0 R>>", b"[1 2 3]", b"<41>", b"/N", b"null", b"<</Length 3>>stream\nabc\nendstream", b"-.5", b"true"]
BAD = [b"", b" 7", b"7 ", b"%c", b"(a", b"[1", b"1 0", b"x", b"<</A 1/A 2>>", b"99999999999", b"[" * 33, b"7%c", b"<</Length 4>>stream\nabc\nendstream"]


def every_state():
    calls = ["open", "begin", "put 2 37", "remove 2", "commit", "abandon", "back 1", "spent put 2 37", "spent remove 2", "spent commit",
             "spent abandon", "revisions", "list 1", "fetch 1 1 99", "draw 1", "put 0 37", "remove 0"]
    flat(W)
    for c in calls[1:]:
        say(c)
    say("open")
    for c in calls:
        if c not in ("begin", "back 1"):
            say(c)
    say("begin")
    for c in ("open", "begin", "back 1", "back 9", "spent put 9 2037", "spent remove 9", "spent commit", "spent abandon", "commit", "put 0 37",
              "put 9 37", "put 4 37", "put 3 37", "put 4 37", "put 3 38", "remove 3", "remove 9", "remove 1", "remove 2", "remove 2", "put 2 37",
              "revisions", "list 1", "list 2", "fetch 1 3 9", "append 00", "cut 0", "bytes"):
        say(c)
    for b in BAD:
        say(f"put 5 {b.hex()}")
    say("abandon")
    say("abandon")
    say("commit")
    say("append 00")


def limits():
    opened(W, 100000)
    say("begin")
    for n in range(3, 36):
        say(f"put {n} 37")
    say("remove 2")
    say("commit")
    say("begin")
    say(f"put 2 {(b'(' + b'a' * 16382 + b')').hex()}")
    say("put 3 37")
    say("remove 3")
    say("commit")
    say("begin")
    say(f"put 2 {(b'(' + b'a' * 16383 + b')').hex()}")
    say("abandon")
    opened(W, 174)
    say("begin")
    say(f"put 2 {b'(gate)'.hex()}")
    say("put 3 37")
    say("commit")
    say("abandon")
    opened(W, 175)
    say("begin")
    say(f"put 2 {b'(gate)'.hex()}")
    say("put 3 37")
    say("commit")
    say("begin")
    say("put 2 38")
    say("commit")
    say("spent commit")
    say("abandon")
    flat(W)
    say("overlay")
    say("open")
    say("begin")
    say("remove 2")
    say("commit")
    say("back 1")
    say("bytes")
    say("begin")
    say("put 2 39")
    say("commit")
    say("bytes")


def sixty_four():
    opened(W, 100000)
    for k in range(64):
        say("begin")
        say(f"put 2 {(b'%d' % k).hex()}")
        say("commit")
    say("abandon")
    say("list 64")
    say("back 1")
    say("revisions")


def random_work(seed, count, start):
    rnd = random.Random(seed)
    model = Book(start, 9000)
    opened(start, 9000)
    model.call("open")
    spent = True
    for _ in range(count):
        size = model.revs[-1]["size"]
        what = rnd.choices(["begin", "put", "remove", "commit", "abandon", "back", "open", "fetch", "list", "bytes"], [10, 30, 12, 14, 3, 5, 1, 12, 5, 2])[0]
        shown = "spent " if rnd.random() < 0.05 else ""
        n = rnd.choice([rnd.randrange(size + 2), rnd.randrange(1, size + 1)])
        k = rnd.randrange(0, len(model.revs) + 2)
        if what == "put":
            body = rnd.choice(BODIES if rnd.random() < 0.9 else BAD)
            say(f"{shown}put {n} {body.hex()}")
            model.call("put", spent or bool(shown), n, body)
        elif what == "remove":
            say(f"{shown}remove {n}")
            model.call("remove", spent or bool(shown), n)
        elif what in ("commit", "abandon"):
            say(f"{shown}{what}")
            if model.call(what, spent or bool(shown)) is None:
                spent = True
        elif what == "back":
            say(f"back {k}")
            model.call("back", k)
        elif what == "begin":
            say("begin")
            if model.call("begin") is None:
                spent = False
        elif what == "fetch":
            say(f"fetch {k} {n} {rnd.choice([0, 5, 60, 60, 60])}")
        elif what == "list":
            say(f"list {k}")
        else:
            say(what)
    say("bytes")


ALPHABET = b"0123456789 \n\r()<>[]/%nfRx#\\+-.\x00"


def mutated(rnd, data):
    """A file with a few bytes changed, left out, added or moved."""
    data = bytearray(data)
    for _ in range(rnd.choice([1, 1, 1, 2, 3])):
        at = rnd.randrange(len(data))
        what = rnd.randrange(8)
        if what < 4:
            data[at] = rnd.choice(ALPHABET)
        elif what == 4:
            del data[at]
        elif what == 5:
            data.insert(at, rnd.choice(ALPHABET))
        elif what == 6:
            to = rnd.randrange(len(data))
            data[at:at + 8], data[to:to + 8] = data[to:to + 8], data[at:at + 8]
        else:
            digits = [i for i, c in enumerate(data) if 48 <= c <= 57]
            data[rnd.choice(digits)] = rnd.choice(b"0123456789")
    return bytes(data)


def random_files(seed, count):
    """Files with mishaps, each opened and asked, and changed where it opens."""
    rnd = random.Random(seed)
    starts = [W, another_producer(), next(damaged_updates()), updated(W, 5)]
    for _ in range(count):
        flat(mutated(rnd, rnd.choice(starts)), rnd.choice([0, 100, 150, 999, 5000]))
        for _ in range(rnd.randrange(3) if rnd.random() < 0.2 else 0):
            say(rnd.choice(["overlay", "append 00", "append 0a", f"cut {rnd.randrange(400)}", "open", "begin"]))
        for _ in range(rnd.randrange(4, 16)):
            n, k = rnd.randrange(9), rnd.randrange(5)
            say(rnd.choice(["open", "open", "revisions", f"list {k}", f"fetch {k} {n} {rnd.choice([0, 6, 90])}", f"draw {k}", "begin", "begin", f"put {n} {rnd.choice(BODIES).hex()}",
                            f"put {n} {rnd.choice(BAD).hex()}", f"remove {n}", "commit", "commit", "abandon", f"back {k}", "bytes", "spent commit", f"spent remove {n}", "overlay"]))


def main():
    if len(sys.argv) > 1:
        seed, count = map(int, sys.argv[1:])
        random_files(seed, count)
        for k in range(count // 50):
            random_work(seed + k, 300, random.Random(seed + k).choice([W, another_producer(), updated(W, 5)]))
        print("\n".join(OUT))
        return
    words()
    worked()
    words()
    ask_all(W)
    ask_all(another_producer())
    for data in broken_files():
        opened(data)
    for data in unreadable_files():
        opened(data)
    for data in damaged_updates():
        opened(data)
        say("revisions")
    every_state()
    limits()
    sixty_four()
    bounds()
    long_section()
    shown_slips()
    random_work(1, 260, W)
    random_work(2, 260, another_producer())
    print("\n".join(OUT))


if __name__ == "__main__":
    main()

"""Writes the costliest records that we know: every object ends in the same bytes, and every revision lists every object again.

    python3 bench/make_worst.py OUT comment|keys [OBJECTS [REVISIONS]]

Object n begins in the comment of object n - 1, so that each reading of one of them goes through almost a whole window of 32,768 bytes:
through a comment, or through one dictionary with as many keys as fit, each of which is compared with those before it.
"""
import itertools
import sys

WINDOW = 32_768


def keys(room):
    """A dictionary of at most that many bytes, with short keys."""
    letters = b"ABCDEFGHIJKLMNOPQRSTUVWXYZabcdefghijklmnopqrstuvwxyz0123456789"
    out = bytearray(b"<<")
    for a, b in itertools.product(letters, letters):
        entry = b"/%c%c[]" % (a, b)
        if len(out) + len(entry) + 2 > room:
            break
        out += entry
    return bytes(out + b">>")


def make(kind, objects, revisions):
    data = bytearray(b"%PDF-1.4\n")
    offsets = []
    for number in range(1, objects + 1):
        offsets.append(len(data))
        data += b"%d 0 obj %%" % number
    # the first object's window has to hold all of it
    room = WINDOW - (len(data) - offsets[0]) - len(b"\n\nendobj\n")
    if kind == "keys":
        data += b"\n" + keys(room) + b"\nendobj\n"
    else:
        data += b"-" * (room - 1) + b"\n7\nendobj\n"
    previous = None
    for _ in range(revisions):
        at = len(data)
        data += b"xref\n0 %d\n0000000000 65535 f \n" % (objects + 1)
        for offset in offsets:
            data += b"%010d 00000 n \n" % offset
        data += b"trailer\n<<\n/Root 1 0 R\n/Size %d\n" % (objects + 1)
        if previous is not None:
            data += b"/Prev %d\n" % previous
        data += b">>\nstartxref\n%d\n%%%%EOF\n" % at
        previous = at
    return bytes(data)


if __name__ == "__main__":
    numbers = [int(word) for word in sys.argv[3:]]
    with open(sys.argv[1], "wb") as out:
        out.write(make(sys.argv[2], *(numbers + [999, 64][len(numbers):])))

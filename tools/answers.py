"""Answers the reading commands of the test bench by the model: python3 tools/answers.py < commands.

A line that is no such command is answered by `error`, without the bench's reason.
"""
import re
import sys

from model import Fault, Win, bodycheck, frame, obj, token

WORDS = (b"true", b"false", b"null", b"R", b"obj", b"endobj", b"stream", b"endstream")
COMMAND = re.compile(r"(token|object|body) ((?:[0-9a-f]{2})*)|(frame) ([0-9]{1,19}) ((?:[0-9a-f]{2})*)")


def tokens(data):
    window, place, told = Win(data), 0, ["ok"]
    while True:
        kind, value, start, end = token(window, place)
        if kind == "end":
            return " ".join(told)
        if kind == "word":
            kind = value.decode() if value in WORDS else "word"
        told.append(f"{kind}:{start}:{end}")
        place = end


def framed(base, data):
    number, generation, start, end, _ = frame(Win(data, base), base)
    return f"ok {number} {generation} {start} {end}"


def answer(line):
    match = COMMAND.fullmatch(line)
    if not match:
        return "error"
    try:
        if match[1] == "token":
            return tokens(bytes.fromhex(match[2]))
        if match[1] == "object":
            return f"ok {obj(Win(bytes.fromhex(match[2])), 0)[1]}"
        if match[1] == "body":
            bodycheck(bytes.fromhex(match[2]))
            return "ok"
        return framed(int(match[4]), bytes.fromhex(match[5]))
    except Fault as fault:
        return "fault {} layer {} place {} object {}".format(*fault.t)


if __name__ == "__main__":
    sys.setrecursionlimit(100000)
    for command in sys.stdin:
        print(answer(command.rstrip("\n")))

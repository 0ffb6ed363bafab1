"""How long a commit takes in small and in large records, through the bench.

    python3 bench/commit.py PATH-TO-REPLAY [ROUNDS]

In records of 1, 5 and 9 MB with ten revisions it puts thirty bodies, commits and goes back, again and again, in turn, and prints medians for
one commit and one going back, each with its line in and its answer out.
"""
import os
import statistics
import subprocess
import sys
import time

from make_record import make

ROUNDS = 15
CHANGES = 30
BODY = b"(" + b"g" * 448 + b")"


class Bench:
    def __init__(self, program, data):
        self.child = subprocess.Popen([program], stdin=subprocess.PIPE, stdout=subprocess.PIPE)
        self.ask(b"flat 100000 " + data.hex().encode())
        self.revisions = int(self.ask(b"open").split()[1])

    def ask(self, line):
        self.child.stdin.write(line + b"\n")
        self.child.stdin.flush()
        answer = self.child.stdout.readline()
        if not answer.startswith(b"ok"):
            raise SystemExit(f"{line[:60]}: {answer}")
        return answer

    def timed(self, line):
        start = time.perf_counter()
        self.ask(line)
        return (time.perf_counter() - start) * 1000

    def round(self):
        self.ask(b"begin")
        for number in range(4, 4 + CHANGES):
            self.ask(b"put %d %s" % (number, BODY.hex().encode()))
        return self.timed(b"commit"), self.timed(b"back %d" % self.revisions)


def main():
    program = os.path.abspath(sys.argv[1])
    rounds = int(sys.argv[2]) if len(sys.argv) > 2 else ROUNDS
    records = [make(megabytes, 10) for megabytes in (1, 5, 9)]
    benches = [Bench(program, data) for data in records]
    times = [[] for _ in records]
    for _ in range(rounds):
        for bench, taken in zip(benches, times):
            taken.append(bench.round())
    for data, taken in zip(records, times):
        commit = statistics.median(t[0] for t in taken)
        back = statistics.median(t[1] for t in taken)
        print(f"{len(data)} bytes: commit {commit:.2f} ms, back {back:.2f} ms")


if __name__ == "__main__":
    main()

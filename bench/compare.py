"""Runs `pdfrev list` beside other tools on the same records, alternating, and prints the ratios.

    python3 bench/compare.py PATH-TO-PDFREV [ROUNDS]

It needs qpdf, pdfresurrect and mutool (Debian: qpdf pdfresurrect mupdf-tools). It makes records of 1, 2, 5 and 9.8 MB with 64 revisions
in a temporary folder. Times are wall clock, medians; memory is the largest resident size, as /usr/bin/time (Debian: time) tells it.
"""
import os
import statistics
import subprocess
import sys
import tempfile
import time

from make_record import make

ROUNDS = 9


def once(words):
    with open(os.devnull, "wb") as sink:
        start = time.perf_counter()
        child = subprocess.Popen(words, stdout=sink, stderr=sink)
        status = child.wait()
        took = time.perf_counter() - start
    return took * 1000, status


def resident(words):
    """A child of this process would count this process's memory, so another one starts it."""
    told = subprocess.run(["/usr/bin/time", "-f", "%M", *words], stdout=subprocess.DEVNULL, stderr=subprocess.PIPE, check=False)
    return int(told.stderr.split()[-1]) / 1024


def main():
    pdfrev = os.path.abspath(sys.argv[1])
    rounds = int(sys.argv[2]) if len(sys.argv) > 2 else ROUNDS
    with tempfile.TemporaryDirectory() as folder:
        for megabytes in (1, 2, 5, 9.8):
            path = os.path.join(folder, f"{megabytes}.pdf")
            data = make(megabytes, 64)
            with open(path, "wb") as f:
                f.write(data)
            tools = {
                "pdfrev list": [pdfrev, "list", path],
                "pdfrev check": [pdfrev, "check", path],
                "qpdf --check": ["qpdf", "--check", path],
                "pdfresurrect -q": ["pdfresurrect", "-q", path],
                "mutool info": ["mutool", "info", path],
            }
            times = {name: [] for name in tools}
            memory = {name: resident(words) for name, words in tools.items()}
            codes = {name: 0 for name in tools}
            for _ in range(rounds):
                for name, words in tools.items():
                    took, code = once(words)
                    times[name].append(took)
                    codes[name] = code
            own = statistics.median(times["pdfrev list"])
            print(f"{len(data)} bytes, 64 revisions, {rounds} rounds")
            for name in tools:
                median = statistics.median(times[name])
                print(f"  {name:16} {median:8.2f} ms  {median / own:5.2f} of pdfrev list  {memory[name]:6.1f} MB  status {codes[name]}")


if __name__ == "__main__":
    main()

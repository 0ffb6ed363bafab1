"""Makes a record near the bounds: a PDF with one page, sheets of 30 KB each, and many incremental updates.

    python3 make_record.py OUT [MEGABYTES] [REVISIONS]

The first revision has as many sheets as the size asks for; each update changes thirty objects and has about 14 KB of bodies.
"""
import sys

SHEET = 30000
CHANGES = 30
BODY = 450


def stream(data, extra=b''):
    return b'<</Length %d%s>>\nstream\n%s\nendstream' % (len(data), extra, data)


def page_text(revision):
    return b'BT /F1 24 Tf 72 700 Td (Revision %d) Tj ET' % revision


def sheet(number, revision, size):
    line = b'sheet %d of revision %d: gate limit %d mm\n' % (number, revision, 1000 + number)
    return (line * (size // len(line) + 1))[:size]


class Record:
    def __init__(self):
        self.file = bytearray(b'%PDF-1.7\n')
        self.table = {}
        self.section = None
        self.size = 0

    def put(self, number, body, generation=0):
        self.table[number] = (len(self.file), generation)
        self.file += b'%d %d obj\n%s\nendobj\n' % (number, generation, body)

    def finish(self, changed):
        at = len(self.file)
        self.file += b'xref\n'
        run = []
        for number in sorted(changed) + [None]:
            if run and number != run[-1] + 1:
                self.file += b'%d %d\n' % (run[0], len(run))
                for n in run:
                    if n == 0:
                        self.file += b'0000000000 65535 f \n'
                    else:
                        self.file += b'%010d %05d n \n' % self.table[n]
                run = []
            if number is not None:
                run.append(number)
        self.size = max(self.size, max(changed) + 1)
        self.file += b'trailer\n<<\n/Root 1 0 R\n/Size %d\n' % self.size
        if self.section is not None:
            self.file += b'/Prev %d\n' % self.section
        self.file += b'>>\nstartxref\n%d\n%%%%EOF\n' % at
        self.section = at


def make(megabytes, revisions):
    r = Record()
    updates = (revisions - 1) * (CHANGES * (BODY + 70) + 400)
    sheets = max(CHANGES, (int(megabytes * 1000000) - updates) // (SHEET + 90))
    numbers = list(range(6, 6 + sheets))
    r.put(1, b'<</Type/Catalog/Pages 2 0 R/Sheets[%s]>>' % b' '.join(b'%d 0 R' % n for n in numbers))
    r.put(2, b'<</Type/Pages/Kids[3 0 R]/Count 1>>')
    r.put(3, b'<</Type/Page/Parent 2 0 R/MediaBox[0 0 612 792]/Contents 4 0 R/Resources<</Font<</F1 5 0 R>>>>>>')
    r.put(4, stream(page_text(1)))
    r.put(5, b'<</Type/Font/Subtype/Type1/BaseFont/Helvetica>>')
    for n in numbers:
        r.put(n, stream(sheet(n, 1, SHEET)))
    r.finish([0] + list(range(1, 6 + sheets)))
    for k in range(2, revisions + 1):
        chosen = sorted({numbers[(k * 7 + i * 11) % sheets] for i in range(CHANGES - 1)})
        r.put(4, stream(page_text(k)))
        for n in chosen:
            r.put(n, stream(sheet(n, k, BODY)))
        r.finish([0, 4] + chosen)
    return bytes(r.file)


if __name__ == '__main__':
    out = sys.argv[1]
    megabytes = float(sys.argv[2]) if len(sys.argv) > 2 else 9.8
    revisions = int(sys.argv[3]) if len(sys.argv) > 3 else 64
    data = make(megabytes, revisions)
    assert len(data) <= 9999999, len(data)
    with open(out, 'wb') as f:
        f.write(data)
    print(out, len(data), 'bytes', revisions, 'revisions')

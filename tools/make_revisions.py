"""Makes a small record that viewers open: one page, and an incremental update for each later revision.

    python3 tools/make_revisions.py OUT

Revision 1 is an ordinary PDF. 2 changes the page's text and adds a note. 3 withdraws the note and changes the text again. 4 puts a note under the same number.
"""
import sys


def stream(data):
    return b'<</Length %d>>\nstream\n%s\nendstream' % (len(data), data)


def page(*lines):
    shown = b' T* '.join(b'(%s) Tj' % line for line in lines)
    return stream(b'BT /F1 18 Tf 24 TL 72 700 Td %s ET' % shown)


class Record:
    def __init__(self):
        self.file = bytearray(b'%PDF-1.4\n%\xe2\xe3\xcf\xd3\n')
        self.entries = {}  # number: (offset, generation), or (None, generation) where it is free
        self.section = None

    def write(self, changes):
        """One revision: a body for each number that is put, None for one that is withdrawn."""
        for number, body in sorted(changes.items()):
            generation = self.entries.get(number, (None, 0))[1]
            if body is None:
                self.entries[number] = (None, generation + 1)
            else:
                self.entries[number] = (len(self.file), generation)
                self.file += b'%d %d obj\n%s\nendobj\n' % (number, generation, body)
        free = [0] + sorted(n for n, (offset, _) in self.entries.items() if offset is None)
        links = dict(zip(free, free[1:] + [0]))
        listed = sorted(set(changes) | {0})
        at = len(self.file)
        self.file += b'xref\n'
        for run in runs(listed):
            self.file += b'%d %d\n' % (run[0], len(run))
            for n in run:
                self.file += self.entry(n, links)
        self.file += b'trailer\n<<\n/Root 1 0 R\n/Size %d\n' % (max(self.entries) + 1)
        if self.section is not None:
            self.file += b'/Prev %d\n' % self.section
        self.file += b'>>\nstartxref\n%d\n%%%%EOF\n' % at
        self.section = at

    def entry(self, number, links):
        if number == 0:
            return b'%010d 65535 f \n' % links[0]
        offset, generation = self.entries[number]
        if offset is None:
            return b'%010d %05d f \n' % (links[number], generation)
        return b'%010d %05d n \n' % (offset, generation)


def runs(numbers):
    found = []
    for n in numbers:
        if found and n == found[-1][-1] + 1:
            found[-1].append(n)
        else:
            found.append([n])
    return found


def make():
    r = Record()
    r.write({
        1: b'<</Type/Catalog/Pages 2 0 R>>',
        2: b'<</Type/Pages/Kids[3 0 R]/Count 1>>',
        3: b'<</Type/Page/Parent 2 0 R/MediaBox[0 0 595 842]/Contents 4 0 R/Resources<</Font<</F1 5 0 R>>>>>>',
        4: page(b'Lock 7, inspection', b'Revision 1: gate not yet seen'),
        5: b'<</Type/Font/Subtype/Type1/BaseFont/Helvetica>>',
    })
    r.write({
        4: page(b'Lock 7, inspection', b'Revision 2: gate leaks'),
        6: b'<</Type/Note/Text(call the fitter)>>',
    })
    r.write({
        4: page(b'Lock 7, inspection', b'Revision 3: gate repaired'),
        6: None,
    })
    r.write({6: b'<</Type/Note/Text(next inspection in spring)>>'})
    return bytes(r.file)


if __name__ == '__main__':
    with open(sys.argv[1], 'wb') as f:
        f.write(make())

"""A model of the format and of the book, written from the rules and independent of the definitions.

It makes the expected answers of the test bench. It is no part of the gate.
"""
WHITE = set([0, 9, 10, 12, 13, 32])
DELIM = set(b'()<>[]{}/%')

class Fault(Exception):

    def __init__(s, num, layer, place, obj=0):
        s.t = (num, layer, place, obj)

def regular(c):
    return c not in WHITE and c not in DELIM

def isdig(c):
    return 48 <= c <= 57
HEX = b'0123456789abcdefABCDEF'

class Win:

    def __init__(s, d, base=0):
        s.d = bytes(d)
        s.b = base
        s.end = base + len(d)

    def at(s, p):
        i = p - s.b
        return s.d[i] if 0 <= i < len(s.d) else None

    def sl(s, a, z):
        return s.d[a - s.b:z - s.b]

def skip(w, p):
    while True:
        c = w.at(p)
        if c is None:
            return p
        if c in WHITE:
            p += 1
            continue
        if c == 37:
            while w.at(p) is not None and w.at(p) not in (10, 13):
                p += 1
            continue
        return p

def eol(w, p):
    """place behind an EOL or None"""
    c = w.at(p)
    if c == 10:
        return p + 1
    if c == 13:
        return p + 2 if w.at(p + 1) == 10 else p + 1
    return None

def string(w, p, depth=1):
    if depth > 32:
        raise Fault(6, 1, p)
    q = p + 1
    while True:
        c = w.at(q)
        if c is None:
            raise Fault(4, 1, w.end)
        if c == 92:
            if w.at(q + 1) is None:
                raise Fault(4, 1, w.end)
            q += 2
        elif c == 40:
            q = string(w, q, depth + 1)
        elif c == 41:
            return q + 1
        else:
            q += 1

def token(w, p):
    """(kind,val,from,to)"""
    p = skip(w, p)
    c = w.at(p)
    if c is None:
        return ('end', None, p, p)
    if regular(c):
        q = p
        while w.at(q) is not None and regular(w.at(q)):
            q += 1
        r = w.sl(p, q)
        if isdig(c) or c in b'+-.':
            import re
            if re.fullmatch(b'[+-]?[0-9]+', r):
                v = int(r)
                if not -2147483648 <= v <= 2147483647:
                    raise Fault(7, 1, p)
                return ('int', (v, isdig(c)), p, q)
            if re.fullmatch(b'[+-]?([0-9]+\\.[0-9]*|\\.[0-9]+)', r):
                return ('real', r, p, q)
            raise Fault(5, 1, p)
        return ('word', r, p, q)
    if c == 47:
        q = p + 1
        while w.at(q) is not None and regular(w.at(q)):
            q += 1
        r = w.sl(p + 1, q)
        out = bytearray()
        i = 0
        while i < len(r):
            if r[i] == 35:
                h = r[i + 1:i + 3]
                if len(h) < 2 or h[0] not in HEX or h[1] not in HEX or (int(h, 16) == 0):
                    raise Fault(5, 1, p)
                out.append(int(h, 16))
                i += 3
            else:
                out.append(r[i])
                i += 1
        return ('name', bytes(out), p, q)
    if c == 40:
        q = string(w, p)
        return ('string', w.sl(p, q), p, q)
    if c == 60:
        n = w.at(p + 1)
        if n is None:
            raise Fault(4, 1, w.end)
        if n == 60:
            return ('<<', None, p, p + 2)
        q = p + 1
        while True:
            c = w.at(q)
            if c is None:
                raise Fault(4, 1, w.end)
            if c == 62:
                return ('hex', w.sl(p, q + 1), p, q + 1)
            if c in WHITE or c in HEX:
                q += 1
            else:
                raise Fault(5, 1, p)
    if c == 62:
        n = w.at(p + 1)
        if n is None:
            raise Fault(4, 1, w.end)
        if n == 62:
            return ('>>', None, p, p + 2)
        raise Fault(5, 1, p)
    if c == 91:
        return ('[', None, p, p + 1)
    if c == 93:
        return (']', None, p, p + 1)
    raise Fault(5, 1, p)

def obj(w, p, depth=1):
    """(tree,end)"""
    k, v, f, t = token(w, p)
    if k == 'end':
        raise Fault(4, 2, w.end)
    if k == 'int':
        if v[1] and v[0] >= 1:
            try:
                k2, v2, f2, t2 = token(w, t)
                if k2 == 'int' and v2[1] and (v2[0] <= 65535):
                    k3, v3, f3, t3 = token(w, t2)
                    if k3 == 'word' and v3 == b'R':
                        return (('ref', v[0], v2[0]), t3)
            except Fault:
                pass
        return (('int', v[0]), t)
    if k == 'real':
        return (('real', v), t)
    if k in ('string', 'hex'):
        return ((k, v), t)
    if k == 'name':
        return (('name', v), t)
    if k == 'word':
        if v in (b'true', b'false', b'null'):
            return ((v.decode(),), t)
        raise Fault(5, 2, f)
    if k in (']', '>>'):
        raise Fault(5, 2, f)
    if depth > 32:
        raise Fault(6, 2, f)
    if k == '[':
        out = []
        q = t
        while True:
            if skip(w, q) < w.end and w.at(skip(w, q)) == 93:
                return (('array', out), skip(w, q) + 1)
            o, q = obj(w, q, depth + 1)
            out.append(o)
    return dic(w, t, depth)

def dic(w, q, depth):
    ents = []
    while True:
        k, v, f, t = token(w, q)
        if k == 'end':
            raise Fault(4, 2, w.end)
        if k == '>>':
            return (('dict', ents), t)
        if k != 'name':
            raise Fault(5, 2, f)
        if any((e[0] == v for e in ents)):
            raise Fault(8, 2, f)
        s = skip(w, t)
        o, q = obj(w, t, depth + 1)
        ents.append((v, w.sl(f, t), w.sl(s, q), o))

def body(w, p):
    """(tree,start,end)"""
    s = skip(w, p)
    o, e = obj(w, p)
    if o[0] != 'dict':
        return (o, s, e)
    try:
        k, v, f, t = token(w, e)
    except Fault:
        return (o, s, e)
    if not (k == 'word' and v == b'stream'):
        return (o, s, e)
    L = [x for x in o[1] if x[0] == b'Length']
    if not L or L[0][3][0] != 'int' or L[0][3][1] < 0:
        raise Fault(9, 2, f)
    n = L[0][3][1]
    c = w.at(t)
    if c is None:
        raise Fault(4, 2, w.end)
    if c == 10:
        q = t + 1
    elif c == 13:
        if w.at(t + 1) is None:
            raise Fault(4, 2, w.end)
        if w.at(t + 1) != 10:
            raise Fault(9, 2, t)
        q = t + 2
    else:
        raise Fault(9, 2, t)
    if q + n > w.end:
        raise Fault(4, 2, w.end)
    q += n
    e2 = eol(w, q)
    if e2 is not None:
        q = e2
    if w.sl(q, q + 9) != b'endstream' or (w.at(q + 9) is not None and regular(w.at(q + 9))):
        raise Fault(9, 2, q)
    return (o, s, q + 9)

def frame(w, p):

    def want(q, pred):
        k, v, f, t = token(w, q)
        if k == 'end':
            raise Fault(4, 2, w.end)
        if not pred(k, v):
            raise Fault(9, 2, f)
        return (v, t)
    c = w.at(p)
    if c is not None and (c in WHITE or c == 37):
        raise Fault(9, 2, p)
    n, t = want(p, lambda k, v: k == 'int' and v[1])
    g, t = want(t, lambda k, v: k == 'int' and v[1])
    _, t = want(t, lambda k, v: k == 'word' and v == b'obj')
    o, s, e = body(w, t)
    _, t = want(e, lambda k, v: k == 'word' and v == b'endobj')
    return (n[0], g[0], s, e, t)

def bodycheck(b):
    b = bytes(b)
    w = Win(b)
    if b and (b[0] in WHITE or b[0] == 37):
        raise Fault(14, 2, 0)
    o, s, e = body(w, 0)
    if e != len(b):
        raise Fault(14, 2, e)

class Short(Exception):
    pass

class Misfit(Exception):
    pass

def lit(w, p, s):
    for i, c in enumerate(s):
        x = w.at(p + i)
        if x is None:
            raise Short
        if x != c:
            raise Misfit
    return p + len(s)

def leol(w, p):
    if w.at(p) is None:
        raise Short
    q = eol(w, p)
    if q is None:
        raise Misfit
    return q

def ldig(w, p):
    q = p
    while w.at(q) is not None and isdig(w.at(q)):
        q += 1
    if q - p > 10:
        raise Misfit
    if q == p:
        if w.at(q) is None:
            raise Short
        raise Misfit
    return (int(w.sl(p, q)), q)

def ldigs(w, p, k):
    for i in range(k):
        x = w.at(p + i)
        if x is None:
            raise Short
        if not isdig(x):
            raise Misfit
    return (int(w.sl(p, p + k)), p + k)

def line(w, p, f):
    try:
        return f()
    except Short:
        raise Fault(4, 3, w.end)
    except Misfit:
        raise Fault(10, 3, p)

def entry(w, p):
    f, q = ldigs(w, p, 10)
    q = lit(w, q, b' ')
    g, q = ldigs(w, q, 5)
    q = lit(w, q, b' ')
    x = w.at(q)
    if x is None:
        raise Short
    if x not in b'nf':
        raise Misfit
    a = w.at(q + 1)
    b = w.at(q + 2)
    if a is None:
        raise Short
    if b is None:
        if a in (32, 13):
            raise Short
        raise Misfit
    if not (a == 32 and b in (10, 13) or (a == 13 and b == 10)):
        raise Misfit
    return ((x == 110, f, g), q + 3)

def section(w, off):
    p = line(w, off, lambda: leol(w, lit(w, off, b'xref')))
    subs = []
    low = 0
    first = True
    while first or (w.at(p) is not None and isdig(w.at(p))):

        def sl():
            n, q = ldig(w, p)
            q = lit(w, q, b' ')
            c, q = ldig(w, q)
            return (n, c, leol(w, q))
        n, c, q = line(w, p, sl)
        if n < low or c < 1:
            raise Fault(10, 3, p)
        rows = []
        for i in range(c):
            s, q2 = line(w, q, lambda: entry(w, q))
            rows.append((n + i, s))
            q = q2
        subs.append((n, c, rows))
        low = n + c
        first = False
        p = q
    p = line(w, p, lambda: lit(w, p, b'trailer'))
    k, v, f, t = token(w, p)
    if k == 'end':
        raise Fault(4, 2, w.end)
    if k != '<<':
        raise Fault(5, 2, f)
    d, p = dic(w, t, 1)
    p = skip(w, p)
    p = line(w, p, lambda: leol(w, lit(w, p, b'startxref')))

    def nl():
        n, q = ldig(w, p)
        q = leol(w, q)
        if n != off:
            raise Misfit
        return q
    p = line(w, p, nl)
    p = line(w, p, lambda: leol(w, lit(w, p, b'%%EOF')))
    return dict(off=off, end=p, subs=subs, mark=f, trailer=d[1])
import re

def opens(file):
    file = bytes(file)
    if len(file) > 9999999:
        raise Fault(13, 4, 0)
    if not re.match(b'%PDF-1\\.[0-7]', file):
        raise Fault(2, 4, 0)
    m = re.search(b'startxref(?:\\r\\n|\\n|\\r)([0-9]+)(?:\\r\\n|\\n|\\r)%%EOF(?:\\r\\n|\\n|\\r)\\Z', file, re.S)
    if not m:
        raise Fault(3, 4, len(file))
    if len(m.group(1)) > 10:
        raise Fault(3, 4, len(file))
    off = int(m.group(1))
    links = []
    limit = None
    while True:
        if len(links) == 64:
            raise Fault(13, 4, 0)
        if off > len(file):
            raise Fault(4, 3, len(file))
        s = section(Win(file[off:off + 32768], off), off)
        if any((n > 999 for _, _, rows in s['subs'] for n, _ in rows)):
            raise Fault(13, 4, 0)
        T = {k: o for k, _, _, o in s['trailer'] if o != ('null',)}
        bad = b'Encrypt' in T or b'XRefStm' in T or T.get(b'Size', ('x',))[0] != 'int' or (T.get(b'Root', ('x',))[0] != 'ref') or (b'Prev' in T and T[b'Prev'][0] != 'int')
        if bad:
            raise Fault(11, 3, s['mark'])
        if b'Prev' in T and (not 0 <= T[b'Prev'][1] < off):
            raise Fault(12, 4, off)
        if s['end'] != len(file) if limit is None else s['end'] > limit:
            raise Fault(12, 4, off)
        s['size'] = T[b'Size'][1]
        s['root'] = T[b'Root'][1:]
        links.insert(0, s)
        if b'Prev' not in T:
            break
        limit = off
        off = T[b'Prev'][1]
    revs = []
    table = {}
    for i, s in enumerate(links):
        off = s['off']
        if i == 0 and (not (len(s['subs']) == 1 and s['subs'][0][0] == 0)):
            raise Fault(12, 4, off)
        rows = [r for _, _, rs in s['subs'] for r in rs]
        for n, (u, f, g) in rows:
            if u:
                okk = n >= 1 and g <= 65534 and (f < off)
            elif n == 0:
                okk = g == 65535 and f < s['size']
            else:
                okk = g <= 65535 and f < s['size']
            if not okk:
                raise Fault(12, 4, off, n)
        nums = set(table) | set((n for n, _ in rows))
        if s['size'] != max(nums) + 1 or any((n not in nums for n in range(s['size']))):
            raise Fault(12, 4, off)
        cur = {n: ('used', st[1], None) if st[0] == 'used' else st for n, st in table.items()}
        for n, (u, f, g) in rows:
            cur[n] = ('used', g, None) if u else ('free', g, f)
        rn, rg = s['root']
        if not (rn in cur and cur[rn][0] == 'used' and (cur[rn][1] == rg)):
            raise Fault(12, 4, off, rn)
        table = dict(table)
        for n, (u, f, g) in rows:
            if not u:
                table[n] = ('free', g, f)
                continue
            try:
                fn, fg, bs, be, _ = frame(Win(file[f:min(f + 32768, off)], f), f)
            except Fault as e:
                raise Fault(*e.t[:3], n)
            if (fn, fg) != (n, g):
                raise Fault(12, 4, off, n)
            table[n] = ('used', g, file[bs:be])
        revs.append(dict(off=off, end=s['end'], size=s['size'], root=s['root'], trailer=s['trailer'], states=[table[n] for n in range(s['size'])]))
    return revs

def written(file, rev, upd):
    size = rev['size'] + sum((1 for n in upd if n >= rev['size']))
    L = len(file)
    objs = b''
    st = {}
    for n in range(size):
        old = rev['states'][n] if n < rev['size'] else None
        if n in upd:
            c = upd[n]
            if c is None:
                st[n] = ('f', old[1] + 1, None)
            else:
                g = old[1] if old else 0
                st[n] = ('n', g, L + len(objs))
                objs += b'%d %d obj\n%s\nendobj\n' % (n, g, c)
        else:
            st[n] = ('k', old)
    free = [n for n in range(size) if st[n][0] == 'f' or (st[n][0] == 'k' and st[n][1][0] == 'free')]
    nxt = {a: b for a, b in zip(free, free[1:] + [0])}
    lst = {}
    for n in range(size):
        s = st[n]
        if s[0] == 'n':
            lst[n] = b'%010d %05d n \n' % (s[2], s[1])
        elif s[0] == 'f':
            lst[n] = b'%010d %05d f \n' % (nxt[n], s[1])
        elif s[1][0] == 'free' and (n == 0 or nxt[n] != s[1][2]):
            lst[n] = b'%010d %05d f \n' % (nxt[n], s[1][1])
    sec = b'xref\n'
    ns = sorted(lst)
    i = 0
    while i < len(ns):
        j = i
        while j + 1 < len(ns) and ns[j + 1] == ns[j] + 1:
            j += 1
        sec += b'%d %d\n' % (ns[i], j - i + 1) + b''.join((lst[n] for n in ns[i:j + 1]))
        i = j + 1
    sec += b'trailer\n<<\n' + b''.join((kb + b' ' + vb + b'\n' for k, kb, vb, o in rev['trailer'] if k not in (b'Size', b'Prev')))
    at = L + len(objs)
    sec += b'/Size %d\n/Prev %d\n>>\nstartxref\n%d\n%%%%EOF\n' % (size, rev['off'], at)
    return (objs, sec, size)

class Book:

    def __init__(s, file, space):
        s.file = bytes(file)
        s.space = space
        s.total = space + len(file)
        s.phase = 'shut'
        s.upd = None

    def call(s, name, *a):
        """a tuple: accepted -> None, else fault tuple"""
        try:
            getattr(s, 'c_' + name)(*a)
            return None
        except Fault as e:
            return e.t

    def c_open(s):
        if s.phase != 'shut':
            raise Fault(42, 5, 0)
        s.revs = opens(s.file)
        s.phase = 'standing'

    def c_begin(s):
        if s.phase == 'shut':
            raise Fault(41, 5, 0)
        if s.phase == 'updating':
            raise Fault(43, 5, 0)
        s.phase = 'updating'
        s.upd = {}

    def st(s, spent, n=0):
        if s.phase == 'shut':
            raise Fault(41, 5, 0, n)
        if s.phase == 'standing':
            raise Fault(44, 5, 0, n)
        if spent:
            raise Fault(45, 5, 0, n)

    def c_put(s, spent, n, b):
        s.st(spent, n)
        r = s.revs[-1]
        new = r['size'] + sum((1 for m in s.upd if m >= r['size']))
        if n == 0 or n > new or (n < r['size'] and r['states'][n][0] == 'free' and (r['states'][n][1] == 65535)):
            raise Fault(48, 5, 0, n)
        if n in s.upd:
            raise Fault(50, 5, 0, n)
        try:
            bodycheck(b)
        except Fault as e:
            raise Fault(*e.t[:3], n)
        if len(s.upd) >= 32 or sum((len(x) for x in s.upd.values() if x is not None)) + len(b) > 16384:
            raise Fault(51, 5, 0, n)
        s.upd[n] = bytes(b)

    def c_remove(s, spent, n):
        s.st(spent, n)
        r = s.revs[-1]
        if not (n < r['size'] and r['states'][n][0] == 'used'):
            raise Fault(47, 5, 0, n)
        if n == r['root'][0]:
            raise Fault(49, 5, 0, n)
        if n in s.upd:
            raise Fault(50, 5, 0, n)
        if len(s.upd) >= 32:
            raise Fault(51, 5, 0, n)
        s.upd[n] = None

    def c_commit(s, spent):
        s.st(spent)
        if not s.upd:
            raise Fault(52, 5, 0)
        o, sec, size = written(s.file, s.revs[-1], s.upd)
        if len(s.revs) >= 64 or size > 1000 or len(s.file) + len(o) + len(sec) > 9999999 or (len(sec) > 32768):
            raise Fault(53, 5, 0)
        if len(o) + len(sec) > s.space:
            raise Fault(54, 6, 0)
        s.file += o + sec
        s.space -= len(o) + len(sec)
        s.revs = opens(s.file)
        s.phase = 'standing'
        s.upd = None

    def c_abandon(s, spent):
        s.st(spent)
        s.phase = 'standing'
        s.upd = None

    def c_back(s, k):
        if s.phase == 'shut':
            raise Fault(41, 5, 0)
        if s.phase == 'updating':
            raise Fault(43, 5, 0)
        if not 1 <= k <= len(s.revs):
            raise Fault(46, 5, 0)
        s.file = s.file[:s.revs[k - 1]['end']]
        s.space = s.total - len(s.file)
        s.revs = opens(s.file)

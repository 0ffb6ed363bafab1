"""Commands of the test bench for objects, bodies and objects in the file: python3 tools/reading_cases.py."""
def O(b):
    return 'object ' + bytes(b).hex()

def B(b):
    return 'body ' + bytes(b).hex()

def F(p, b):
    return 'frame %d %s' % (p, bytes(b).hex())
L = ['object', 'object 0', 'object 31 32', 'body', 'body 3', 'body 31 ', 'frame', 'frame 1', 'frame x 31', 'frame 1 31 32', 'frame 1 3']
OBJ = [b'', b' ', b'%c', b'null', b'true', b'false', b'0', b'-1', b'+1', b'.5', b'(a)', b'<41>', b'/A', b'/', b'1 0 R', b'1 0 R 2', b'1 0 r', b'0 0 R', b'1 65535 R', b'1 65536 R', b'+1 0 R', b'1 +0 R', b'1 0%c\nR', b'1 0 (', b'1 0', b'1 2 3 R', b'[]', b'[ ]', b'[1 0 R]', b'[1 0]', b'[1 0 R 2 0 R]', b'[', b'[1', b'[1 2', b'[%c', b'[(a]', b'[>>]', b'[)', b'[x]', b']', b'>>', b'R', b'obj', b'x', b'<<>>', b'<</A 1>>', b'<</A 1/B 2>>', b'<</A 1/A 2>>', b'<</A 1/#41 2>>', b'<</A null/A 1>>', b'<</A>>', b'<</A 1', b'<<', b'<<1 2>>', b'<</A 1 2>>', b'<</A<</A 1>>>>', b'<</A<</B 1/B 2>>>>', b'<</A (>>', b'<</A 1/B x>>', b'<< /A ]>>', b'[' * 32 + b']' * 32, b'[' * 33 + b']' * 33, b'<</A' * 32 + b' 1' + b'>>' * 32, b'<</A' * 33 + b' 1' + b'>>' * 33, b'[<</A ' * 16 + b'1' + b'>>]' * 16, b'[<</A ' * 16 + b'[]' + b'>>]' * 16, b'2147483648', b'[2147483648]', b'1 2147483648 R', b'1 0 2147483648', b'{', b'1a', b'\x00\r%x\r\n7', b'[1 2147483648', b'<</A 1/A (', b'[]x', b'1 ]', b'<</#00 1>>', b'[' * 33]
for b in OBJ:
    L.append(O(b))
    L.append(B(b))
ST = [b'<</Length 3>>stream\nabc\nendstream', b'<</Length 3>>stream\r\nabc\r\nendstream', b'<</Length 3>>stream\nabcendstream', b'<</Length 3>>stream\nabc\rendstream', b'<</Length 3>>stream\rabc\nendstream', b'<</Length 3>>stream abc\nendstream', b'<</Length 3>>streamabc', b'<</Length 3>>stream', b'<</Length 3>>stream\r', b'<</Length 3>>stream\n', b'<</Length 3>>stream\nab', b'<</Length 3>>stream\nabc', b'<</Length 3>>stream\nabc\n', b'<</Length 3>>stream\nabc\nendstrea', b'<</Length 3>>stream\nabc\nendstreams', b'<</Length 3>>stream\nabc\nendstream/x', b'<</Length 3>>stream\nabc\nendstream ', b'<</Length 2>>stream\nabc\nendstream', b'<</Length 0>>stream\nendstream', b'<</Length 0>>stream\n\nendstream', b'<</Length -1>>stream\nendstream', b'<</Length 1.0>>stream\nendstream', b'<</Length 1 0 R>>stream\nendstream', b'<<>>stream\nendstream', b'<</L#65ngth 1>>stream\na\nendstream', b'<</Length 2147483647>>stream\na\nendstream', b'<</Length 3>>%c\nstream\nabc\nendstream', b'<</Length 3>> strea', b'<</Length 3>>(', b'[]stream\nendstream', b'1 stream', b'<</Length 9>>stream\nendstream\nendstream', b'<</Length 3>>stream\nabc\n\nendstream', b'<</Length 3>>stream\nabc\n endstream']
for b in ST:
    L.append(O(b))
    L.append(B(b))
    L.append(F(1000, b'7 0 obj ' + b + b'\nendobj'))
FR = [b'', b' 1 0 obj 1 endobj', b'%c\n1 0 obj 1 endobj', b'1', b'1 0', b'1 0 obj', b'1 0 obj 1', b'1 0 obj 1 endobj', b'1 0 obj\n1\nendobj\n', b'1 0 obj%c\n 1 endobj x', b'1 0 obj[]endobj', b'0 0 obj 1 endobj', b'+1 0 obj 1 endobj', b'1 -0 obj 1 endobj', b'1 0 R 1 endobj', b'1 0 ob 1 endobj', b'1 0 obj 1 endob', b'1 0 obj 1 endobjx', b'1 0 obj 1 2 endobj', b'1 0 obj endobj', b'1 0 obj 1 0 R endobj', b'x 0 obj', b'1 x obj', b'1 0 obj (', b'1 0 obj 1 (', b'1 65536 obj 1 endobj', b'2147483647 2147483647 obj 1 endobj', b'2147483648 0 obj 1 endobj', b'1 0 obj <</A 1/A 2>> endobj', b'1 0 obj ] endobj', b'1 0 obj' + b'[' * 33, b'1 0 obj 1 ', b'1.0 0 obj']
for b in FR:
    L.append(F(0, b))
    L.append(F(4096, b))
L += [F(9999999, b'1 0 obj 1 endobj'), F(9999999999999999999, b'1 0 obj 1 endobj'), F(9999999999999999999, b'(')]
if __name__ == '__main__':
    for l in L:
        print(l)

# Writes a capture of Ethernet anew, its frames in turn in the named tunnels:
#   python3 wrap.py FROM TO vxlan|geneve|both|gre|ipip|mpls ..
import struct, sys
src, out = sys.argv[1], sys.argv[2]
d = open(src, 'rb').read()
e = '<' if d[:4] in (b'\xd4\xc3\xb2\xa1', b'\x4d\x3c\xb2\xa1') else '>'
link = struct.unpack(e + 'I', d[20:24])[0]
assert link == 1, link
records, o = [], 24
while o < len(d):
    s, u, n, m = struct.unpack(e + 'IIII', d[o:o + 16])
    records.append((s, u, d[o + 16:o + 16 + n]))
    o += 16 + n
def checksum(b):
    t = sum(struct.unpack('>%dH' % (len(b) // 2), b))
    while t >> 16: t = (t & 0xffff) + (t >> 16)
    return t ^ 0xffff
def ip(proto, body, src=b'\xc0\xa8\x64\x01', dst=b'\xc0\xa8\x64\x02'):
    h = struct.pack('>BBHHHBBH4s4s', 0x45, 0, 20 + len(body), 1, 0, 64, proto, 0, src, dst)
    return h[:10] + struct.pack('>H', checksum(h)) + h[12:] + body
def eth(kind, body):
    return b'\x02\0\0\0\0\x02\x02\0\0\0\0\x01' + struct.pack('>H', kind) + body
def udp(port, body):
    return struct.pack('>HHHH', 54321, port, 8 + len(body), 0) + body
def vxlan(frame): return eth(0x800, ip(17, udp(4789, b'\x08\0\0\0\0\0\x2a\0' + frame)))
def geneve(frame): return eth(0x800, ip(17, udp(6081, b'\x02\0\x65\x58\0\0\x2a\0' + b'\x01\x02\x80\x01\0\0\0\x07' + frame)))
kinds = {
    'vxlan': vxlan, 'geneve': geneve, 'both': lambda f: vxlan(geneve(f)),
    'gre': lambda f: eth(0x800, ip(47, b'\0\0\x65\x58' + f)),
    'ipip': lambda f: eth(0x800, ip(4, f[14:])),
    'mpls': lambda f: eth(0x8847, b'\0\0\x11\x40' + f[14:]),
}
with open(out, 'wb') as w:
    w.write(struct.pack('<IHHiIII', 0xa1b2c3d4, 2, 4, 0, 0, 262144, 1))
    for k, (s, u, f) in enumerate(records):
        names = sys.argv[3:]
        g = kinds[names[k % len(names)]](f)
        w.write(struct.pack('<IIII', s, u, len(g), len(g)) + g)

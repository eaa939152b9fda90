# Messages of memberlist and Serf as bytes, and files with them, for tests/growth.py. Members have numbers, from which
# their names and addresses come.
import random, struct, zlib
from frames import packet, pcap, tcp, udp

VERSIONS = bytes([1, 5, 2, 0, 0, 0])

# ---- messages

def packed(value):
    """The shortest MessagePack that go-msgpack writes for this value."""
    if isinstance(value, bool):
        return bytes([0xc2 + value])
    if isinstance(value, int):
        if value < 128:
            return bytes([value])
        width = next(at for at in range(4) if value < 256 ** 2 ** at)
        return bytes([0xcc + width]) + value.to_bytes(2 ** width, "big")
    if isinstance(value, float):
        return b"\xcb" + struct.pack(">d", value)
    if isinstance(value, bytes):
        if len(value) < 32:
            return bytes([0xa0 + len(value)]) + value
        if len(value) < 65536:
            return b"\xda" + struct.pack(">H", len(value)) + value
        return b"\xdb" + struct.pack(">I", len(value)) + value
    short, long = (0x90, b"\xdc") if isinstance(value, list) else (0x80, b"\xde")
    head = bytes([short + len(value)]) if len(value) < 16 else long + struct.pack(">H", len(value))
    if isinstance(value, list):
        return head + b"".join(map(packed, value))
    pairs = [(key if isinstance(key, bytes) else key.encode(), value[key]) for key in value]
    return head + b"".join(packed(each) for pair in pairs for each in pair)

def message(kind, **fields):
    return bytes([kind]) + packed(fields)

def name(i):
    return b"node-%06d" % i

def address(i):
    return bytes([10]) + i.to_bytes(3, "big")

def host(i):
    return ".".join(map(str, address(i)))

def alive(i, inc=1, at=None, meta=b""):
    return message(4, Addr=address(i if at is None else at), Incarnation=inc, Meta=meta, Node=name(i), Port=7946,
                   Vsn=VERSIONS)

def suspect(i, by, inc=1):
    return message(3, From=name(by), Incarnation=inc, Node=name(i))

def dead(i, by, inc=1):
    return message(5, From=name(by), Incarnation=inc, Node=name(i))

def compound(parts):
    return bytes([7, len(parts)]) + struct.pack(">%dH" % len(parts), *map(len, parts)) + b"".join(parts)

def record(i, state=0, inc=1, at=None):
    return packed(dict(Addr=address(i if at is None else at), Incarnation=inc, Meta=b"", Name=name(i), Port=7946,
                       State=state, Vsn=VERSIONS))

def stream(records, user=b""):
    return message(6, Join=False, Nodes=len(records), UserStateLen=len(user)) + b"".join(records) + user

def ping(seq, of, by):
    return message(0, Node=name(of), SeqNo=seq, SourceAddr=address(by), SourceNode=name(by), SourcePort=7946)

def indirect(seq, of, by):
    return message(1, Nack=True, Node=name(of), Port=7946, SeqNo=seq, SourceAddr=address(by), SourceNode=name(by),
                   SourcePort=7946, Target=address(of))

def ack(seq, payload=b""):
    return message(2, Payload=payload, SeqNo=seq)

def serf(kind, **fields):
    """A user message with one of Serf's."""
    return b"\x08" + message(kind, **fields)

def compressed(data):
    """The message in LZW, as Go's compress/lzw writes it, but for a dictionary that is cleared after 3,000 words."""
    out, bits, held, coded, words, word = bytearray(), 256, 9, 0, {}, data[:1]
    def put(code):
        nonlocal bits, held, coded
        bits |= code << held
        held += 9 + (coded > 254) + (coded > 766) + (coded > 1790)
        coded += 1
        while held > 7:
            out.append(bits & 255)
            bits, held = bits >> 8, held - 8
    for byte in data[1:]:
        longer = word + bytes([byte])
        if longer in words:
            word = longer
            continue
        put(words.get(word, word[0]))
        words[longer] = 258 + len(words)
        if coded == 3000:
            put(256)
            coded, words = 0, {}
        word = bytes([byte])
    put(words.get(word, word[0]))
    put(257)
    return message(9, Algo=0, Buf=bytes(out) + bytes([bits] if held else []))

def checked(message):
    return b"\x0c" + struct.pack(">I", zlib.crc32(message)) + message

# ---- files

def write(path, data):
    with open(path, "wb") as file:
        file.write(data)

def lines(packets):
    write("in", b"".join(each.hex().encode() + b"\n" for each in packets))

def shuffled(values):
    values = list(values)
    random.Random(7).shuffle(values)
    return values

def datagram(source, target, message):
    """A packet from the member with one number to that with another."""
    return packet(host(source), 17, udp(7946, message), host(target))

def gossip(path, messages, step=1000):
    """A capture of these messages, each from node 1 to node 2, a step after the one before."""
    pcap(path, [(at * step, datagram(1, 2, each)) for at, each in enumerate(messages)])

def segment(port, seq, flags, data=b"", source=1, target=2):
    return packet(host(source), 6, tcp(port, seq, flags, data), host(target))

def cut(data, length=1400):
    return [data[at:at + length] for at in range(0, len(data), length)]

def connection(port, data, source=1):
    """The segments of a whole connection that carries this to node 2."""
    sent = [segment(port, 99, 2, source=source)]
    sent += [segment(port, 100 + 1400 * at, 24, each, source) for at, each in enumerate(cut(data))]
    return sent + [segment(port, 100 + len(data), 17, source=source)]

def timed(packets, step=1000):
    return [(at * step, each) for at, each in enumerate(packets)]

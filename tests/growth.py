# Inputs of a size, for tests/scale and tests/speed/run:
#   python3 growth.py SHAPE SIZE..
# makes a folder for each size that has none yet, named after it, with the files that the shape has at that size; `in`
# is what the program reads from standard input. Names and addresses are counted, and shuffled with a fixed seed.
import base64, os, random, struct, sys
from frames import block, packet, pcap
from wire import *

SECOND = 10**6

# ---- shapes: packets, dumps and scripts

def nothing(n):
    gossip("all.pcap", [])

def new_names(n):
    lines(map(alive, shuffled(range(n))))

def ascending_names(n):
    lines(map(alive, range(n)))

def descending_names(n):
    lines(map(alive, reversed(range(n))))

def known_names(n):
    lines(alive(i % 50, 1 + i // 50) for i in range(n))

def compounds(n):
    lines(map(compound, zip(*[iter(map(alive, shuffled(range(50 * n))))] * 50)))

def one_name(n):
    lines(alive(1, at=i) for i in shuffled(range(n)))

def dumps(n):
    """Two dumps of n names in random order, of which they share half."""
    write("a.bin", stream([record(i) for i in shuffled(range(n))]))
    write("b.bin", stream([record(i, i % 3) for i in shuffled(range(n // 2, n // 2 + n))]))

def random_dump(n):
    write("a.bin", stream([record(i) for i in shuffled(range(n))]))

def ascending_dump(n):
    write("a.bin", stream([record(i) for i in range(n)]))

def halves(n):
    """Two dumps, each with half of the names."""
    order = shuffled(range(n))
    write("a.bin", stream([record(i) for i in order[:n // 2]]))
    write("b.bin", stream([record(i) for i in order[n // 2:]]))

def same_dumps(n):
    """Two dumps with all names, each in another order."""
    order = shuffled(range(n))
    write("a.bin", stream([record(i) for i in order]))
    write("b.bin", stream([record(i) for i in order[::-1]]))

def small_dumps(n):
    for i in shuffled(range(n)):
        write("%06d.bin" % i, stream([record(i)]))

def script(nodes, events):
    node = "node %s %s 7946 - 010502000000 1"
    write("in", "\n".join([node % (name(i).decode(), address(i).hex()) for i in range(nodes)] + events).encode())

def hear(node, messages):
    return ["hear %d %s" % (node, each.hex()) for each in messages]

def equal_exchanges(n):
    script(2, hear(0, map(alive, shuffled(range(n)))) + ["exchange 0 1"] * n)

def pairs_of_nodes(n):
    script(n, ["exchange %d %d" % (i, i + 1) for i in range(0, n - 1, 2)])

def refutations(n):
    script(2, [line for i in range(n) for line in (*hear(0, [suspect(0, 1, i + 1)]), "refute 0")])

# ---- shapes: what is sent, and keys

KEY = "AAECAwQFBgcICQoLDA0ODxAREhMUFRYXGBkaGxwdHh8="
SEALED = bytes.fromhex("016e6f6e63652d6e756d6265723920ab3d76e6704b1981b2c4e261f17ba5fc3f130ff8cd1d66bc9156e844b4b8bc"
                       "30546c509b67376ac0f3e39120cd22726524f5faf2fb12e1daac6fa1317d508d4045")

def wrapped(n):
    lines(checked(each if at % 2 else compressed(each)) for at, each in enumerate(map(alive, range(n))))

def keys(n):
    """One packet under the last of n keys, in a line and in a capture; it is tests/unwrapped's."""
    others = [random.Random(i).randbytes(32) for i in range(n - 1)]
    write("keys", "\n".join([base64.b64encode(each).decode() for each in others] + [KEY]).encode())
    os.chmod("keys", 0o600)
    lines([SEALED])
    gossip("sealed.pcap", [SEALED])

def sealed(n):
    write("keys", KEY.encode())
    os.chmod("keys", 0o600)
    lines([SEALED] * n)
    gossip("sealed.pcap", [SEALED] * n)

def long_stream(n):
    write("a.bin", stream([], bytes(100 * n)))

def dump_sent(n):
    """A stream of n records, in the clear and compressed, and a capture of it."""
    gossip("none.pcap", [alive(0)])
    whole = stream([record(i) for i in shuffled(range(n))])
    write("a.bin", whole)
    write("a.lzw", compressed(whole))
    pcap("stream.pcap", timed(connection(40000, whole)))
    pcap("compressed.pcap", timed(connection(40000, compressed(whole))))

def one_byte_over(n):
    """A stream whose text is one byte again and again, so that the words of its compression are long."""
    write("a.lzw", compressed(stream([], bytes(100 * n))))

# ---- shapes: gossip

def claims_of_few(n):
    gossip("all.pcap", [alive(i % 50, 1 + i // 50) for i in range(n)])

def same_claims(n):
    """Packets of several claims, most of which are known already."""
    gossip("all.pcap", [compound([alive((i + k) % 50) for k in range(3)]) for i in range(n)])

def crowd(packets, count):
    """Packets of eight claims each between any two members of so many, of which one in a hundred is news."""
    chance = random.Random(7)
    inc = [1] * count
    def claim():
        i = chance.randrange(count)
        inc[i] += chance.random() < 0.01
        return alive(i, inc[i])
    pcap("all.pcap", timed(datagram(*chance.sample(range(count), 2), compound([claim() for _ in range(8)]))
                           for _ in range(packets)))

def crowd_of_100(n):
    crowd(n, 100)

def crowd_of_1000(n):
    crowd(n, 1000)

def crowd_of_10000(n):
    crowd(n, 10000)

def members(n):
    gossip("all.pcap", map(alive, shuffled(range(n))))

def deaths(n):
    said = [each for i in shuffled(range(n)) for each in (alive(i), suspect(i, i + 1), dead(i, i + 2))]
    gossip("all.pcap", said)

def senders(n):
    pcap("all.pcap", timed(datagram(i, 0, ping(i, 0, i)) for i in shuffled(range(n))))

def accusers(n):
    gossip("all.pcap", [alive(0)] + [suspect(0, i) for i in shuffled(range(1, n))])

def suspicions(n):
    """A member is suspected and refutes, again and again."""
    gossip("all.pcap", [each for i in range(1, n) for each in (alive(0, i), suspect(0, i, i))], 100000)

def suspicions_in_one(n):
    """One packet with many suspicions, in compound messages of compound messages."""
    said = [suspect(0, 1)] * n
    gossip("all.pcap", [compressed(compound([compound(said[at:at + 250]) for at in range(0, n, 250)]))])

def pings_in_one(n):
    """The same with a ping before each suspicion, which it makes a warning."""
    said = [each for i in range(n) for each in (ping(i, i, 1), suspect(i, 1))]
    gossip("all.pcap", [compressed(compound([compound(said[at:at + 250]) for at in range(0, len(said), 250)]))])

def rivals(n):
    gossip("all.pcap", [alive(0)] + [alive(0, 2 + i, at=i) for i in shuffled(range(1, n))])

def contested(n):
    gossip("all.pcap", [alive(i, inc, at=i + 1000000 * inc) for inc in (1, 2) for i in shuffled(range(n))])

def moves(n):
    """A member leaves, and comes back at another address, again and again."""
    gossip("all.pcap", [each for i in range(1, n) for each in (alive(0, i, at=i), dead(0, 0, i))])

def one_address(n):
    """Members that come to one address, one after the other, and send from there."""
    said = [each for i in range(n) for each in (datagram(1, 2, alive(i, at=1)), datagram(1, 2, ping(i, 2, i)))]
    pcap("all.pcap", timed(said))

def same_packets(n):
    """Two captures of the same packets, of which many are the same."""
    for path in ("a.pcap", "b.pcap"):
        pcap(path, timed((datagram(1, 2, alive(i % 20)) for i in range(n)), 100))

def files(n):
    for i in range(n):
        pcap("part-%06d.pcap" % i, [(i * SECOND, datagram(1, 2, alive(i)))])

def views(n):
    for i in range(n):
        pcap("host-%06d.pcap" % i, [(at * SECOND + i, datagram(1, 2, alive(1, at + 1))) for at in range(2)])

def sections(n):
    frame = datagram(1, 2, alive(1))
    head = block(0x0a0d0d0a, struct.pack("<IHHq", 0x1a2b3c4d, 1, 0, -1)) + block(1, struct.pack("<HHI", 101, 0, 0))
    each = struct.pack("<IIIII", 0, 0, 0, len(frame), len(frame)) + frame + bytes(-len(frame) % 4)
    write("all.pcapng", (head + block(6, each)) * n)

# ---- shapes: probes

def probed(n, seq_of, pair_of, answer, step):
    sent = []
    for i in range(n):
        by, of = pair_of(i)
        sent.append((i * step, datagram(by, of, ping(seq_of(i), of, by))))
        if answer:
            sent.append((i * step + 200, datagram(of, by, ack(seq_of(i)))))
    return sent

def answered_pings(n):
    pcap("all.pcap", probed(n, lambda i: i + 1, lambda i: (i % 5, 5), True, SECOND // 5))

def pairs(n):
    pcap("all.pcap", probed(n, lambda i: 1, lambda i: (i, i + 1), True, 100))

def targets(n):
    """One member pings many, and none answers."""
    sent = probed(n, lambda i: i, lambda i: (0, i + 1), False, 100)
    pcap("all.pcap", sent + [(60 * SECOND, datagram(0, 1, ping(n, 1, 0)))])

def lost_pairs(n):
    """Many members ping their neighbours, and none answers."""
    sent = probed(n, lambda i: 1, lambda i: (i, i + 1), False, 100)
    pcap("all.pcap", sent + [(60 * SECOND, datagram(0, 1, ping(2, 1, 0)))])

def failed_pings(n):
    """Every fifth probe fails, and the target is suspected and refutes."""
    sent = []
    for i in range(n):
        at, seq = 5 * i * SECOND, 5 * i
        sent += [(at, datagram(1, 2, alive(2, i + 1)))]
        sent += [(at + 1, datagram(1, 2, ping(seq, 2, 1))), (at + 500000, datagram(1, 3, indirect(seq, 2, 1)))]
        sent += [(at + SECOND + 500000, datagram(1, 2, suspect(2, 1, i + 1)))]
    pcap("all.pcap", sent)

def asked(n):
    """One probe after another, for each of which the same member asks another one."""
    sent = [(0, datagram(1, 2, ping(1, 2, 1)))]
    sent += [(500000 + i, datagram(1, 3 + i, indirect(1, 2, 1))) for i in range(n)]
    pcap("all.pcap", sent)

def refused(n):
    """Pings that the target's host refuses by ICMP, and connections that it refuses."""
    sent = []
    for i in range(n):
        ping_sent = datagram(1, 2, ping(i, 2, 1))
        icmp = b"\x03\x03" + bytes(6) + ping_sent
        tried = packet(host(2), 6, struct.pack(">HHIIBBHHH", 7946, 40000, 0, 100, 0x50, 0x14, 0, 0, 0), host(1))
        sent += [(i * SECOND, ping_sent), (i * SECOND + 100, packet(host(2), 1, icmp, host(1))),
                 (i * SECOND + 500000, segment(40000, 99, 2)), (i * SECOND + 500100, tried)]
    pcap("all.pcap", sent)

def agent_log(n):
    failed_pings(n)
    write("agent.log", b"".join(b"2026/11/27 %02d:%02d:%02d [INFO] memberlist: Suspect node-000002 has failed, no acks "
                                b"received\n" % (i // 3600 % 24, i // 60 % 60, i % 60) for i in range(1, 5 * n, 5)))

# ---- shapes: connections

def in_flow(parts):
    """A connection whose first byte is at 100, with these parts by their places."""
    pcap("all.pcap", timed([segment(40000, 99, 2)] + [segment(40000, 100 + at, 24, data) for at, data in parts]))

def reversed_segments(n):
    whole = stream([record(i) for i in range(n)])
    in_flow(list(enumerate_places(whole, len(whole) // n + 1))[::-1])

def enumerate_places(data, length):
    return ((at, data[at:at + length]) for at in range(0, len(data), length))

def gap(n):
    """Every second segment is missing."""
    whole = stream([record(i) for i in range(2 * n)])
    in_flow(list(enumerate_places(whole, len(whole) // (2 * n) + 1))[1::2])

def small_segments(n):
    whole = stream([record(i) for i in range(n)])
    in_flow(enumerate_places(whole, len(whole) // n + 1))

def same_segments(n):
    whole = stream([record(i) for i in range(20)])
    in_flow([(0, whole[:100])] + [(200 + i % 50, whole[200:400]) for i in range(n)])

def connections(n):
    whole = stream([record(1), record(2)])
    pcap("all.pcap", timed(each for i in range(n) for each in connection(1024 + i % 60000, whole, 1 + i // 60000)))

def open_connections(n):
    whole = stream([record(1), record(2)])
    pcap("all.pcap", timed(each for i in range(n) for each in connection(1024 + i, whole)[:1] +
                           [segment(1024 + i, 100, 24, whole[:-1])]))

def syns(n):
    pcap("all.pcap", timed(each for i in range(n) for each in (segment(40000, 1000 * i, 2),
                                                               segment(40000, 1000 * i + 1, 24, b"\x06\x83"))))

# ---- shapes: Serf

def user_events(n):
    gossip("all.pcap", [serf(3, CC=False, LTime=i, Name=name(i), Payload=b"v1") for i in shuffled(range(n))])

def intents(n):
    """Members that join, say that they leave, and leave."""
    gossip("all.pcap", [each for i in shuffled(range(n)) for each in (
        alive(i), serf(0, LTime=i, Node=name(i), Prune=False), dead(i, i))])

def query(time, number):
    return serf(4, Addr=address(1), Filters=[], Flags=0, ID=number, LTime=time, Name=b"uptime", Payload=b"",
                Port=7946, RelayFactor=0, SourceNode=name(1), Timeout=15 * 10**9)

def queries(n):
    gossip("all.pcap", [query(i, i) for i in shuffled(range(n))])

def answers(n):
    gossip("all.pcap", [query(1, 1)] + [serf(5, Flags=0, From=name(i), ID=1, LTime=1, Payload=b"1") for i in
                                        shuffled(range(n))], 1000)

def serf_state(n):
    """A push/pull whose user state has times of members, members that left, and events."""
    events = [dict(Events=[dict(Name=name(i), Payload=b"v1")], LTime=i) for i in range(n)]
    state = message(2, EventLTime=n, Events=events, LTime=n, LeftMembers=[name(i) for i in shuffled(range(n // 2))],
                    QueryLTime=1, StatusLTimes={name(i): i for i in shuffled(range(n))})
    whole, again = [stream([record(0)], each) for each in (state, state.replace(b"v1", b"v2"))]
    pcap("all.pcap", timed(connection(40000, whole) + connection(40001, again)))

def coordinates(n):
    sent = []
    for i in shuffled(range(n)):
        by, point = n, dict(Adjustment=0.0, Error=1.5, Height=1e-5, Vec=[i * 1e-6] * 8)
        sent += [datagram(by, i, ping(i, i, by)), datagram(i, by, ack(i, message(1, **point)))]
    pcap("all.pcap", timed(sent))

def main():
    shape = globals()[sys.argv[1]]
    for size in sys.argv[2:]:
        if os.path.exists(size):
            continue
        os.mkdir(size)
        os.chdir(size)
        write("in", b"")
        shape(int(size))
        os.chdir("..")

if __name__ == "__main__":
    main()

# What swimwatch counts as traffic: who had an address when, bytes behind a gap, packets that two interfaces captured, and
# connections that fall silent. tests/watched runs it in its folder. Captures made here have contents that are evident, or
# are those of tests/captures, whose counts an independent reader made. tests/frames.py writes captures.
# shellcheck shell=sh disable=SC2154

# counted: the rows of talkers without the header, each text by one space.
counted() {
    sed 1d | tr -s ' '
}

# ---- who had an address when

# memberlist's own Alive of f5 at 127.0.3.5:38875 and its Dead, in examples/memberlist.hex; the same Alive of g5; and a
# Nack, which names nobody
python3 - "$(sed -n 1p examples/memberlist.hex)" "$(sed -n 4p examples/memberlist.hex)" <<'END'
import sys
from frames import *
alive, dead = map(bytes.fromhex, sys.argv[1:])
nack = b"\x0b\x81\xa5SeqNo\x01"
said = lambda payload: packet("127.0.3.1", 17, udp(7946, payload))
sent = packet("127.0.3.5", 17, udp(38875, nack))
pcap("moved.pcap", enumerate([said(alive), sent, sent, said(dead), said(alive.replace(b"\xa2f5", b"\xa2g5")), sent]))
END
"$program" talkers moved.pcap 2> err | counted > found
printf '%s\n' '127.0.3.1:7946 0 0 0 0 0 2 1 0 0 0 0 0 149' 'f5 0 0 0 2 0 0 0 0 0 0 0 0 18' \
    'g5 0 0 0 1 0 0 0 0 0 0 0 0 9' > wanted
check 'what was sent counts for the member that had the address then'

# node-1 sends a stream, leaves, and comes back at 10.0.0.2: the stream was its own; what then comes from 10.0.0.1 is not.
# node-3 sends two nacks from an address that then, as its ping says, is node-4's: the next three are node-4's.
python3 - <<'END'
from wire import *
nack = message(11, SeqNo=1)
send = lambda source, *parts: [datagram(source, 9, part) for part in parts]
moved = send(9, dead(1, 1), alive(1, 2, at=2))
sent = connection(40000, stream([record(5)]))
pcap("left_there.pcap", timed(send(9, alive(1)) + sent + moved + send(1, suspect(5, 6))))
shown = datagram(3, 9, message(0, Node=name(9), SeqNo=2, SourceAddr=address(3), SourceNode=name(4), SourcePort=7946))
pcap("seen_there.pcap", timed(send(9, alive(3)) + send(3, nack, nack) + [shown] + send(3, nack, nack, nack)))
END
"$program" talkers left_there.pcap 2> err | counted | grep -v '^10.0.0.9:' | cut -d ' ' -f 1,6,11 > found
printf '%s\n' '10.0.0.1:7946 1 0' 'node-000001 0 1' > wanted
check 'a stream counts for the member that had the address then, and a later packet does not'
"$program" claims left_there.pcap 2> err | sed -n 's/.* suspect .*(\(.*\) to .*/\1/p' > found
echo 10.0.0.1:7946 > wanted
check 'a member that left its address is not there'
"$program" talkers seen_there.pcap 2> err | counted | grep -v '^10.0.0.9:' | cut -d ' ' -f 1,5 > found
printf '%s\n' 'node-000003 2' 'node-000004 3' > wanted
check 'what was sent before a packet showed another member there'

# ---- bytes behind a gap

# the first 100 bytes of a stream, and those after its 150th
python3 - start.bin <<'END'
import sys
from frames import *
stream = open(sys.argv[1], "rb").read()
at = lambda seq, flags, payload: packet("127.0.3.9", 6, tcp(40000, seq, flags, payload))
pcap("gap.pcap", enumerate([at(0, 2, b""), at(1, 24, stream[:100]), at(151, 24, stream[150:])]))
END
"$program" talkers gap.pcap 2> err | counted > found
echo "127.0.3.9 0 0 0 0 0 0 0 0 0 0 0 1 $(($(wc -c < start.bin) - 50))" > wanted
check 'bytes behind a gap count'

# the first 150 bytes are missing: a connection to f5, and one to an address without a member
python3 - start.bin "$alive" <<'END'
import sys
from frames import *
stream, alive = open(sys.argv[1], "rb").read(), bytes.fromhex(sys.argv[2])
alive = alive.replace(bytes([127, 0, 3, 5]), bytes([127, 0, 0, 1])).replace(b"\xcd\x97\xdb", b"\xcd\x1f\x0a")
heard = packet("127.0.3.1", 17, udp(7946, alive))
flow = [packet("127.0.3.9", 6, tcp(40000, seq, flags, payload)) for seq, flags, payload in
    ((0, 2, b""), (151, 24, stream[150:]))]
pcap("headless.pcap", enumerate([heard] + flow))
pcap("other.pcap", enumerate(flow))
END
"$program" talkers headless.pcap 2> err | counted | grep '^127.0.3.9 ' > found
echo "127.0.3.9 0 0 0 0 0 0 0 0 0 0 0 1 $(($(wc -c < start.bin) - 150))" > wanted
check 'bytes behind a gap at the beginning count, if a member is at an end'
"$program" talkers other.pcap 2> err | counted > found
: > wanted
check 'and are not taken for memberlist if none is'

# ---- packets that two interfaces captured

for capture in basic/all steady/web-1; do
    twice=$(python3 -c 'from frames import *; on_two("two.pcapng", sys.argv[1])' "captures/$capture.pcap")
    "$program" talkers "captures/$capture.pcap" > wanted 2> err
    "$program" talkers two.pcapng > found 2> err
    check "what two interfaces captured counts once: $capture"
    grep -q "; $twice seen on a second interface and counted once" err
    count "and is told: $capture" "$([ $? -eq 0 ] || echo "; $twice, $(tail -n 1 err)")"
    "$program" claims "captures/$capture.pcap" > wanted 2> err
    "$program" claims two.pcapng > found 2> err
    check "each claim that two interfaces captured is told once: $capture"
done

# ---- connections that fall silent

python3 - examples/three.bin <<'END'
import sys
from frames import *
stream = open(sys.argv[1], "rb").read()
at = lambda port, seq, flags, payload: packet("127.0.3.9", 6, tcp(port, seq, flags, payload))
pcap("silent.pcap", [(0, at(40000, 0, 2, b"")), (1, at(40000, 1, 24, stream)), (2, at(40001, 0, 2, b"")),
    (3, at(40001, 1, 24, stream[:100])), (61 * 10**6, at(40002, 0, 2, b""))])
END
run members silent.pcap
grep -q '; 1 still incomplete after 60 s of silence' err
count 'a connection that fell silent before its stream was whole' "$([ $? -eq 0 ] || echo "; $(tail -n 1 err)")"

# ---- ports that are used again, sequence numbers, and segments that come twice

python3 - <<'END'
from frames import pcap
from wire import alive, datagram, record, segment, stream

def timed(name, *parts):
    pcap(name, [(int(second * 10**6), frame) for second, frame in parts])

def carried(second, isn, data, *ends):
    """A connection from port 40000: the SYN, all bytes in a segment that is pushed, and segments with these flags."""
    return [(second, segment(40000, isn, 2)), (second + 1, segment(40000, isn + 1, 24, data))] + [
        (second + 2, segment(40000, isn + 1 + len(data), flags)) for flags in ends]

first, second = stream([record(3)]), stream([record(4)])
soon, late = (carried(at, 500000, second, 17) for at in (10, 100))
timed('again_fin.pcap', *carried(0, 1000, first, 17), *soon)
timed('again_rst.pcap', *carried(0, 1000, first, 4), *soon)
timed('again_open.pcap', *carried(0, 1000, first), *soon)
timed('again_silent.pcap', *carried(0, 1000, first), (90, segment(40001, 7, 2)), *late)

known = (0, datagram(9, 3, alive(2)))
start = 2 ** 32 - 51
timed('wraps.pcap', known, (1, segment(40000, start, 2)), (2, segment(40000, 100, 24, first)))
timed('whole.pcap', (1, segment(40000, start, 2)), (2, segment(40000, start + 1, 16, first[:50])),
      (3, segment(40000, 0, 24, first[50:])), (4, segment(40000, len(first) - 50, 17)))

sent = [(1, segment(40000, 0, 2)), (2, segment(40000, 1, 16, first[:50])), (3, segment(40000, 51, 16, first[50:]))]
again = [(4, segment(40000, 1, 16, first[:50])), (5, segment(40000, 51, 16, first[50:])),
         (6, segment(40000, 31, 16, first[30:60]))]
timed('twice.pcap', *sent, *again, (7, segment(40000, 1 + len(first), 17)))
open('headless.len', 'w').write(str(len(first)))
END
for how in fin rst open silent; do
    "$program" members again_$how.pcap 2> err | awk 'NR > 1 { print $1, $3 }' > found
    printf '%s\n' 'node-000003 alive' 'node-000004 alive' > wanted
    check "a second connection from the port of one that ended so: $how"
done
"$program" talkers wraps.pcap 2> err | counted | grep '^10.0.0.1 ' > found
echo "10.0.0.1 0 0 0 0 0 0 0 0 0 0 0 1 $(cat headless.len)" > wanted
check 'bytes behind a gap across the sequence number 2^32 count'
"$program" claims whole.pcap 2> err | cut -d ' ' -f 1-3 > found
echo '2026-11-27T04:00:03.000000Z node-000003 alive' > wanted
check 'a stream across the sequence number 2^32'
"$program" claims twice.pcap 2> err | cut -d ' ' -f 1-3 > found
check 'segments that come again do not change the time of a stream'

# What swimwatch diff compares, and which streams are heard. tests/watched runs it in its folder. The streams are made
# here, record by record, in forms of MessagePack that other writers use; what is expected is what their records say.
# shellcheck shell=sh disable=SC2154

cat > sides.py <<'END'
# stream FILE NAME STATE PORT TAGS SPOKEN ..: a push/pull stream, with five words for each record. TAGS are as a=1,b=2,
# SPOKEN is the version of memberlist's protocol that the member speaks, or none without versions.
# flow FILE STREAM: a capture of a connection from 10.0.0.1 to 10.0.0.2, port 7946, over which the stream went.
import struct, sys

def raw(text):
    return bytes([0xa0 + len(text)]) + text

def record(name, state, port, tags, spoken):
    pairs = [tag.split('=') for tag in tags.split(',') if tag]
    meta = b'\xff' + bytes([0x80 + len(pairs)]) + b''.join(raw(t.encode()) for pair in pairs for t in pair)
    out = raw(b'Name') + raw(name.encode()) + raw(b'Addr') + raw(bytes([10, 0, 0, 1]))
    out += raw(b'Port') + b'\xd1' + struct.pack('>h', int(port))
    out += raw(b'Meta') + b'\xda' + struct.pack('>H', len(meta)) + meta
    out += raw(b'Incarnation') + b'\xd3' + struct.pack('>q', 1) + raw(b'State') + b'\xd0' + bytes([int(state)])
    if spoken == 'none':
        return b'\x86' + out
    return b'\x87' + out + raw(b'Vsn') + raw(bytes([1, 5, int(spoken), 0, 0, 0]))

def stream(words):
    records = [record(*words[at:at + 5]) for at in range(0, len(words), 5)]
    return b'\x06\x83' + raw(b'Nodes') + bytes([len(records)]) + raw(b'UserStateLen') + b'\0' + raw(b'Join') + b'\xc2' \
        + b''.join(records)

def frame(flags, number, body):
    tcp = struct.pack('>HHIIBBHHH', 40000, 7946, number, 1, 0x50, flags, 65535, 0, 0) + body
    ip = struct.pack('>BBHHHBBH4B4B', 0x45, 0, 20 + len(tcp), 1, 0, 64, 6, 0, 10, 0, 0, 1, 10, 0, 0, 2)
    return ip + tcp

def flow(data):
    frames = [frame(2, 99, b''), frame(24, 100, data), frame(17, 100 + len(data), b'')]
    out = struct.pack('<IHHiIII', 0xa1b2c3d4, 2, 4, 0, 0, 262144, 101)
    for at, each in enumerate(frames):
        out += struct.pack('<IIII', 1767225600 + at, 0, len(each), len(each)) + each
    return out

verb, name, words = sys.argv[1], sys.argv[2], sys.argv[3:]
with open(name, 'wb') as out:
    out.write(stream(words) if verb == 'stream' else flow(open(words[0], 'rb').read()))
END
sides() {
    python3 sides.py "$@"
}

sides stream one.bin x 0 1000 zone=b,role=web,ver=1 2
sides stream two.bin x 0 2000 ver=1,role=web,zone=b 2
sides stream turned.bin x 0 1000 ver=1,zone=b,role=web 2
sides stream newer.bin x 0 1000 ver=2,cpu=4,role=web 2
sides stream gone.bin x 2 2000 zone=b,role=web,ver=1 2
sides stream spoken.bin x 0 1000 zone=b,role=web,ver=1 3
run diff one.bin two.bin
prints 'ports in two bytes with a sign' 1 'x alive 10.0.0.1:1000 -> alive 10.0.0.1:2000'
run diff one.bin turned.bin
prints 'the same tags in another order' 0
run diff turned.bin newer.bin
prints 'tags that changed, by their names' 1 'x alive 10.0.0.1:1000, tags +cpu=4, ver=1 -> 2, -zone=b'
run diff one.bin spoken.bin
prints 'versions that changed' 1 'x alive 10.0.0.1:1000, versions 010502000000 -> 010503000000'
run diff one.bin gone.bin
prints 'the address of a dead member' 1 'x alive 10.0.0.1:1000 -> dead 10.0.0.1:2000'

# each side is opened once
mkfifo side.pipe
cat one.bin > side.pipe &
run diff side.pipe two.bin
prints 'a side that is a pipe' 1 'x alive 10.0.0.1:1000 -> alive 10.0.0.1:2000'
"$program" diff - two.bin < one.bin > out 2> err
status=$?
prints 'a side that is standard input' 1 'x alive 10.0.0.1:1000 -> alive 10.0.0.1:2000'
run diff - -
count 'standard input for both sides' "$([ "$status" -eq 2 ] && grep -q 'standard input can be read once' err ||
    echo "; $(start_of err)")"

# web-5 was killed at 00:00:15, and web-4 left at 00:00:26
run diff --at 00:00:05 --at 00:00:30 examples/serf.pcap
: > err
prints 'a capture at two times' 1 'web-4 alive 127.0.9.4:7946 -> left 127.0.9.4:7946' \
    'web-5 alive 127.0.9.5:7946 -> dead 127.0.9.5:7946'
"$program" diff --at 00:00:30 --at 00:00:05 - < examples/serf.pcap > out 2> err
status=$?
: > err
prints 'a capture in a pipe at two times, the later one first' 1 'web-4 left 127.0.9.4:7946 -> alive 127.0.9.4:7946' \
    'web-5 dead 127.0.9.5:7946 -> alive 127.0.9.5:7946'

# web-4 says at 02:02:01.424 that it leaves (Serf), and leaves at 02:02:01.624 (memberlist)
run diff --at 2026-11-25T02:02:01Z --at 2026-11-25T02:02:01.5Z captures/basic/all.pcap
: > err
prints 'a member that is leaving' 1 'web-4 alive 10.20.1.14:7946 -> leaving 10.20.1.14:7946'

# memberlist.go, verifyProtocol: what one speaks, all who are alive have to understand
for row in '2 2 x,y' '5 1 x,y' '6 2 -' '2 0 -' '2 none -'; do
    # shellcheck disable=SC2086
    set -- $row
    sides stream spoken.bin x 0 1000 a=1 "$1" y 1 1001 a=1 "$2"
    sides flow spoken.pcap spoken.bin
    "$program" members spoken.pcap 2> err | awk 'NR > 1 { printf "%s%s", between, $1; between = "," }
        END { print between ? "" : "-" }' > found
    echo "$3" > wanted
    check "a stream whose members speak the versions $1 and $2"
    grep -o '[0-9]* with versions that members do not share' err > found
    [ "$3" = - ] && echo '1 with versions that members do not share' > wanted || : > wanted
    check "what is said of a stream with the versions $1 and $2"
done

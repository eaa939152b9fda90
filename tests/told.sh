# Whole lines of members, timeline, claims and talkers, and whole objects of JSON, on a capture that is made here packet
# by packet: each name, address, number and kind occurs another number of times. What is expected is written by the
# rules. tests/watched runs it in its folder.
# shellcheck shell=sh disable=SC2154

cp "$here/wire.py" .
python3 - <<'PACKETS'
from frames import packet, pcap, udp
from wire import alive, compound, dead, host, message, name, packed, suspect

def tags(**pairs):
    return b'\xff' + packed({key: value.encode() for key, value in pairs.items()})

def sent(at, source, target, *parts):
    payload = parts[0] if len(parts) == 1 else compound(parts)
    return (at * 10**6, packet(host(source), 17, udp(7946, payload), host(target)))

ping = message(0, SeqNo=7, Node=name(4), SourceAddr=b'', SourcePort=0, SourceNode=b'')
indirect = message(1, SeqNo=8, Target=bytes([10, 0, 0, 4]), Port=7946, Node=name(4), Nack=True, SourceAddr=b'',
                   SourcePort=0, SourceNode=b'')
pcap('told.pcap', [
    sent(0, 1, 2, alive(1, meta=tags(role='web', zone='a'))),
    sent(1, 2, 1, alive(2)),
    sent(2, 3, 1, alive(3), alive(4)),
    sent(3, 1, 2, suspect(3, 1)),
    sent(4, 2, 1, suspect(3, 2)),
    sent(5, 2, 3, suspect(3, 2)),
    sent(6, 3, 1, alive(3, 2)),
    sent(7, 1, 3, dead(2, 1)),
    sent(8, 9, 3, alive(1, 5, at=9, meta=tags(role='db\u202e'))),
    sent(9, 1, 3, alive(1, 2, meta=tags(role='web', zone='a'))),
    sent(10, 1, 3, alive(1, 3, meta=tags(role='web', zone='b'))),
    sent(11, 3, 1, dead(3, 3, 2)),
    sent(12, 4, 1, suspect(4, 3), suspect(4, 1)),
    sent(13, 1, 4, ping), sent(14, 1, 4, ping), sent(15, 1, 4, ping), sent(16, 1, 2, indirect), sent(17, 1, 2, indirect),
    sent(18, 4, 1, message(2, SeqNo=7, Payload=b'')), sent(19, 2, 1, message(3 + 8, SeqNo=8)),
    sent(20, 8, 3, alive(1, 6, at=8)),
    sent(21, 7, 3, alive(1, 6, at=7)),
])
PACKETS
day=2026-11-27T04:00

# lines VERB TEXT: the verb shows these lines; `node-` stands for `node-00000`, and `:NN` for the time in that second.
lines() {
    "$program" "$1" told.pcap 2> err | sed 's/node-00000/node-/g; s/^'"$day"':\([0-9][0-9]\)\.000000Z/:\1/' > found
    printf '%s\n' "$2" > wanted
    check "whole lines of $1"
}
lines timeline ':00 node-1 joined 1 at 10.0.0.1:7946 role=web,zone=a (node-1 to 10.0.0.2:7946, udp)
:01 node-2 joined 1 at 10.0.0.2:7946 (node-2 to node-1, udp)
:02 node-3 joined 1 at 10.0.0.3:7946 (node-3 to node-1, udp)
:02 node-4 joined 1 at 10.0.0.4:7946 (node-3 to node-1, udp)
:03 node-3 suspected 1 by node-1 (node-1 to node-2, udp)
:04 node-3 also suspected 1 by node-2 (node-2 to node-1, udp)
:06 node-3 refuted 2 (node-3 to node-1, udp)
:07 node-2 dead 1 by node-1 (node-1 to node-3, udp)
:08 node-1 conflict 1 at 10.0.0.9:7946, and is at 10.0.0.1:7946 (10.0.0.9:7946 to node-3, udp)
:09 node-1 renewed 2 (node-1 to node-3, udp)
:10 node-1 updated 3 at 10.0.0.1:7946 role=web,zone=b (node-1 to node-3, udp)
:11 node-3 left 2 (node-3 to node-1, udp)
:12 node-4 suspected 1 by node-3 (node-4 to node-1, udp)
:12 node-4 also suspected 1 by node-1 (node-4 to node-1, udp)
:20 node-1 conflict 3 at 10.0.0.8:7946, and is at 10.0.0.1:7946 (10.0.0.8:7946 to node-3, udp)
:21 node-1 conflict 3 at 10.0.0.7:7946, and is at 10.0.0.1:7946 (10.0.0.7:7946 to node-3, udp)'
lines claims ':00 node-1 alive 1 at 10.0.0.1:7946 role=web,zone=a (node-1 to 10.0.0.2:7946, udp)
:01 node-2 alive 1 at 10.0.0.2:7946 (node-2 to node-1, udp)
:02 node-3 alive 1 at 10.0.0.3:7946 (node-3 to node-1, udp)
:02 node-4 alive 1 at 10.0.0.4:7946 (node-3 to node-1, udp)
:03 node-3 suspect 1 by node-1 (node-1 to node-2, udp)
:04 node-3 suspect 1 by node-2 (node-2 to node-1, udp)
:05 node-3 suspect 1 by node-2 (node-2 to node-3, udp)
:06 node-3 alive 2 at 10.0.0.3:7946 (node-3 to node-1, udp)
:07 node-2 dead 1 by node-1 (node-1 to node-3, udp)
:08 node-1 alive 5 at 10.0.0.9:7946 role=db%E2%80%AE (10.0.0.9:7946 to node-3, udp)
:09 node-1 alive 2 at 10.0.0.1:7946 role=web,zone=a (node-1 to node-3, udp)
:10 node-1 alive 3 at 10.0.0.1:7946 role=web,zone=b (node-1 to node-3, udp)
:11 node-3 left 2 (node-3 to node-1, udp)
:12 node-4 suspect 1 by node-3 (node-4 to node-1, udp)
:12 node-4 suspect 1 by node-1 (node-4 to node-1, udp)
:20 node-1 alive 6 at 10.0.0.8:7946 (10.0.0.8:7946 to node-3, udp)
:21 node-1 alive 6 at 10.0.0.7:7946 (10.0.0.7:7946 to node-3, udp)'

"$program" members told.pcap 2> err | sed 's/node-00000/node-/g; s/'"$day"':\([0-9][0-9]\)\.000000Z/:\1/g' | tr -s ' ' > found
cat > wanted <<'ROWS'
NAME ADDRESS STATE INC SINCE BY TAGS
node-1 10.0.0.1:7946 alive 3 :00 node-1 role=web,zone=b
node-2 10.0.0.2:7946 dead 1 :07 node-1
node-3 10.0.0.3:7946 left 2 :11 node-3
node-4 10.0.0.4:7946 suspect 1 :12 node-3,node-1
node-1 conflict at 10.0.0.8:7946, last heard :20, and is at 10.0.0.1:7946, last heard :10
node-1 conflict at 10.0.0.7:7946, last heard :21, and is at 10.0.0.1:7946, last heard :10
ROWS
check 'whole lines of members'
"$program" talkers told.pcap 2> err | sed 's/node-00000/node-/' | tr -s ' ' | sed 's/ [0-9]*$//' > found
cat > wanted <<'ROWS'
SENDER PING PING-REQ ACK NACK SUSPECT ALIVE DEAD LEFT USER STREAM TCP UNREAD BYTES
10.0.0.7:7946 0 0 0 0 0 1 0 0 0 0 0 0
10.0.0.8:7946 0 0 0 0 0 1 0 0 0 0 0 0
10.0.0.9:7946 0 0 0 0 0 1 0 0 0 0 0 0
node-1 3 2 0 0 1 3 1 0 0 0 0 0
node-2 0 0 0 1 2 1 0 0 0 0 0 0
node-3 0 0 0 0 0 3 0 1 0 0 0 0
node-4 0 0 1 0 2 0 0 0 0 0 0 0
ROWS
check 'whole lines of talkers, but for their bytes'
# each packet's payload is what IP carries without its header of 20 bytes and UDP's of 8
python3 - > wanted <<'BYTES'
import struct
data, at, bytes_of = open('told.pcap', 'rb').read(), 24, {}
while at < len(data):
    length = struct.unpack_from('<I', data, at + 8)[0]
    last = data[at + 16 + 15]
    bytes_of[last] = bytes_of.get(last, 0) + length - 28
    at += 16 + length
for last in sorted(bytes_of):
    print('node-%d' % last if last < 5 else '10.0.0.%d:7946' % last, bytes_of[last])
BYTES
"$program" talkers told.pcap 2> err | sed '1d; s/node-00000/node-/' | awk '{ print $1, $NF }' | sort > found
sort -o wanted wanted
check 'the bytes of talkers'

# objects VERB: the objects of JSON that the verb prints are those on standard input, one a line, in which N stands for
# a member's name and tags, metadata and versions are left to the program that compares.
whole_objects() {
    cat > wanted_objects
    "$program" "$1" --json told.pcap 2> err > told_objects
    python3 - 2> said <<'OBJECTS'
import json
day = '2026-11-27T04:00:%02d.000000Z'
node = lambda number: 'node-%06d' % number
end = lambda number: node(number) if number < 5 else '10.0.0.%d:7946' % number
metas = {'': '', 'a': 'ff82a4726f6c65a3776562a47a6f6e65a161', 'b': 'ff82a4726f6c65a3776562a47a6f6e65a162',
         'db': 'ff81a4726f6c65a56462e280ae'}
all_tags = {'a': {'role': 'web', 'zone': 'a'}, 'b': {'role': 'web', 'zone': 'b'}, 'db': {'role': 'db\u202e'}}

def details(last, meta):
    found = {'address': '10.0.0.%d' % last, 'port': 7946, 'meta': metas[meta], 'vsn': '010502000000'}
    return {**found, 'tags': all_tags[meta]} if meta else found

def sent(second, source, target):
    to = '10.0.0.2:7946' if second == 0 else end(target)
    return {'time': day % second, 'from': end(source), 'from_address': '10.0.0.%d:7946' % source, 'to': to,
            'to_address': '10.0.0.%d:7946' % target, 'proto': 'udp'}

wanted = [eval(line) for line in open('wanted_objects') if line.strip()]
found = [json.loads(line) for line in open('told_objects')]
for one, other in zip(wanted, found):
    assert one == other, '%s is not %s' % (other, one)
assert len(wanted) == len(found), (len(wanted), len(found))
text = open('told_objects', 'rb').read()
assert all(32 <= byte < 127 or byte == 10 for byte in text), 'a byte that is not printable'
OBJECTS
    count "whole objects of $1" "$([ $? -eq 0 ] || echo "; $(tail -n 1 said)")"
}
whole_objects members <<'ROWS'
{'name': node(1), 'state': 'alive', 'since': day % 0, 'incarnation': 3, **details(1, 'b'), 'last_heard': day % 10, 'rivals': [{**details(8, ''), 'last_heard': day % 20}, {**details(7, ''), 'last_heard': day % 21}]}
{'name': node(2), 'state': 'dead', 'since': day % 7, 'incarnation': 1, 'by': [node(1)], **details(2, '')}
{'name': node(3), 'state': 'left', 'since': day % 11, 'incarnation': 2, **details(3, '')}
{'name': node(4), 'state': 'suspect', 'since': day % 12, 'incarnation': 1, 'by': [node(3), node(1)], **details(4, '')}
ROWS
whole_objects timeline <<'ROWS'
{**sent(0, 1, 2), 'name': node(1), 'event': 'joined', 'incarnation': 1, **details(1, 'a')}
{**sent(1, 2, 1), 'name': node(2), 'event': 'joined', 'incarnation': 1, **details(2, '')}
{**sent(2, 3, 1), 'name': node(3), 'event': 'joined', 'incarnation': 1, **details(3, '')}
{**sent(2, 3, 1), 'name': node(4), 'event': 'joined', 'incarnation': 1, **details(4, '')}
{**sent(3, 1, 2), 'name': node(3), 'event': 'suspected', 'incarnation': 1, 'by': [node(1)], **details(3, '')}
{**sent(4, 2, 1), 'name': node(3), 'event': 'also suspected', 'incarnation': 1, 'by': [node(1), node(2)], **details(3, '')}
{**sent(6, 3, 1), 'name': node(3), 'event': 'refuted', 'incarnation': 2, **details(3, '')}
{**sent(7, 1, 3), 'name': node(2), 'event': 'dead', 'incarnation': 1, 'by': [node(1)], **details(2, '')}
{**sent(8, 9, 3), 'name': node(1), 'event': 'conflict', 'incarnation': 1, **details(1, 'a'), 'rival': details(9, 'db')}
{**sent(9, 1, 3), 'name': node(1), 'event': 'renewed', 'incarnation': 2, **details(1, 'a')}
{**sent(10, 1, 3), 'name': node(1), 'event': 'updated', 'incarnation': 3, **details(1, 'b')}
{**sent(11, 3, 1), 'name': node(3), 'event': 'left', 'incarnation': 2, **details(3, '')}
{**sent(12, 4, 1), 'name': node(4), 'event': 'suspected', 'incarnation': 1, 'by': [node(3)], **details(4, '')}
{**sent(12, 4, 1), 'name': node(4), 'event': 'also suspected', 'incarnation': 1, 'by': [node(3), node(1)], **details(4, '')}
{**sent(20, 8, 3), 'name': node(1), 'event': 'conflict', 'incarnation': 3, **details(1, 'b'), 'rival': details(8, '')}
{**sent(21, 7, 3), 'name': node(1), 'event': 'conflict', 'incarnation': 3, **details(1, 'b'), 'rival': details(7, '')}
ROWS
whole_objects claims <<'ROWS'
{**sent(0, 1, 2), 'name': node(1), 'state': 'alive', 'incarnation': 1, **details(1, 'a')}
{**sent(1, 2, 1), 'name': node(2), 'state': 'alive', 'incarnation': 1, **details(2, '')}
{**sent(2, 3, 1), 'name': node(3), 'state': 'alive', 'incarnation': 1, **details(3, '')}
{**sent(2, 3, 1), 'name': node(4), 'state': 'alive', 'incarnation': 1, **details(4, '')}
{**sent(3, 1, 2), 'name': node(3), 'state': 'suspect', 'incarnation': 1, 'by': node(1)}
{**sent(4, 2, 1), 'name': node(3), 'state': 'suspect', 'incarnation': 1, 'by': node(2)}
{**sent(5, 2, 3), 'name': node(3), 'state': 'suspect', 'incarnation': 1, 'by': node(2)}
{**sent(6, 3, 1), 'name': node(3), 'state': 'alive', 'incarnation': 2, **details(3, '')}
{**sent(7, 1, 3), 'name': node(2), 'state': 'dead', 'incarnation': 1, 'by': node(1)}
{**sent(8, 9, 3), 'name': node(1), 'state': 'alive', 'incarnation': 5, **details(9, 'db')}
{**sent(9, 1, 3), 'name': node(1), 'state': 'alive', 'incarnation': 2, **details(1, 'a')}
{**sent(10, 1, 3), 'name': node(1), 'state': 'alive', 'incarnation': 3, **details(1, 'b')}
{**sent(11, 3, 1), 'name': node(3), 'state': 'left', 'incarnation': 2, 'by': node(3)}
{**sent(12, 4, 1), 'name': node(4), 'state': 'suspect', 'incarnation': 1, 'by': node(3)}
{**sent(12, 4, 1), 'name': node(4), 'state': 'suspect', 'incarnation': 1, 'by': node(1)}
{**sent(20, 8, 3), 'name': node(1), 'state': 'alive', 'incarnation': 6, **details(8, '')}
{**sent(21, 7, 3), 'name': node(1), 'state': 'alive', 'incarnation': 6, **details(7, '')}
ROWS

# ---- what is left out

# shows CASE LINES WORD..: with these words the program shows these lines, of which only the first words are compared.
shows() {
    case_name=$1
    : > wanted
    [ -z "$2" ] || printf '%s\n' "$2" > wanted
    shift 2
    "$program" "$@" 2> err | tr -s ' ' | sed -n 's/node-00000/node-/g; s/'"$day"':\([0-9][0-9]\)\.000000Z/:\1/g; /^NAME/d
        /conflict at/d; s/ ([^()]* to [^()]*)$//; s/ at 10.*//; p' > found
    check "$case_name"
}
shows 'events from a moment to another, both with it' ':06 node-3 refuted 2
:07 node-2 dead 1 by node-1
:08 node-1 conflict 1
:09 node-1 renewed 2' timeline --from $day:06Z --to $day:09Z told.pcap
shows 'claims from a moment to another, both with it' ':11 node-3 left 2
:12 node-4 suspect 1 by node-3
:12 node-4 suspect 1 by node-1' claims --from $day:11Z --to $day:12Z told.pcap
shows 'members whose state began at a moment or later' 'node-3 10.0.0.3:7946 left 2 :11 node-3
node-4 10.0.0.4:7946 suspect 1 :12 node-3,node-1' members --from $day:11Z told.pcap
shows 'members at the moment of an event' 'node-1 10.0.0.1:7946 alive 1 :00 node-1 role=web,zone=a
node-2 10.0.0.2:7946 alive 1 :01 node-2
node-3 10.0.0.3:7946 alive 2 :06 node-3
node-4 10.0.0.4:7946 alive 1 :02 node-4' members --at $day:06Z told.pcap
shows 'the events of one name' ':06 node-3 refuted 2
:11 node-3 left 2' timeline --member node-000003 --from $day:05Z told.pcap
shows 'the events of a name that begins as others do' '' timeline --member node-00000 told.pcap
shows 'the claims about one name' ':01 node-2 alive 1
:07 node-2 dead 1 by node-1' claims --member node-000002 told.pcap
"$program" dump told.pcap > told.bin 2> err
"$table" list told.bin | sed 's/^node-00000/node-/' > found
cat > wanted <<'ROWS'
node-1 alive 6 6/0a000008/7946//010502000000
node-2 confirm 1 1/0a000002/7946//010502000000
node-3 leave 2 2/0a000003/7946//010502000000
node-4 suspect 1 1/0a000004/7946//010502000000
ROWS
check 'the dump: of each name the greatest claim, and the greatest Alive'
# up to ten names count as ten: 4 * 1 s, times 6 from 4 names on; so of four names 24 s, and with 5 only 5 s
for row in '36 4 suspect' '36.000001 4 overdue' '17 5 suspect' '17.000001 5 overdue'; do
    # shellcheck disable=SC2086
    set -- $row
    "$program" members --suspicion-mult "$2" --at "$day:$1Z" told.pcap 2> err | awk '$1 == "node-000004" { print $3 }' > found
    echo "$3" > wanted
    check "a suspicion of :12 at :$1, with a multiplier of $2"
done

# node-2 died at :07. After the wait it may come back as it was.
python3 - <<'PACKETS'
from frames import packet, pcap, udp
from wire import alive, dead, host
packets = [(at * 10**6, packet(host(source), 17, udp(7946, part), host(target))) for at, source, target, part in [
    (1, 2, 1, alive(2)), (7, 1, 3, dead(2, 1)), (50, 2, 1, alive(2)), (55, 1, 3, dead(2, 1))]]
pcap('late.pcap', packets[2:3])
pcap('x.pcap', packets)
pcap('y.pcap', [(at + 1000, data) for at, data in packets])
PACKETS
for row in '42 alive' '43 dead' '60 dead'; do
    # shellcheck disable=SC2086
    set -- $row
    "$program" members --wait "$1" told.pcap late.pcap 2> err | awk '$1 == "node-000002" { print $3 }' > found
    echo "$2" > wanted
    check "a member back after 43 s, with a wait of $1 s"
done
"$program" timeline x.pcap y.pcap 2> err | cut -d ' ' -f 2-4 > found
printf '%s\n' 'node-000002 joined 1' 'node-000002 dead 1' 'node-000002 back 1' 'node-000002 dead 1' > wanted
check 'events of two views are told once, and once more when they come again'

# ---- names that one side lacks

run diff --at $day:00Z --at $day:01Z told.pcap
: > err
prints 'a name that is new' 1 'node-000002 absent -> alive 10.0.0.2:7946'
run diff --at $day:01Z --at $day:00Z told.pcap
: > err
prints 'a name that is gone' 1 'node-000002 alive 10.0.0.2:7946 -> absent'
run diff --at $day:01Z --at $day:01.5Z told.pcap
: > err
prints 'no change' 0
run diff --json --at $day:06Z --at $day:07Z told.pcap
: > err
prints 'a change as an object' 1 '{"after":{"address":"10.0.0.2","incarnation":1,"meta":"","port":7946,"state":"dead","vsn":"010502000000"},"before":{"address":"10.0.0.2","incarnation":1,"meta":"","port":7946,"state":"alive","vsn":"010502000000"},"name":"node-000002"}'
run diff --json --at $day:01Z --at $day:01.5Z told.pcap
: > err
prints 'no change as objects' 0
run diff --at $day:09Z --at $day:10Z told.pcap
: > err
prints 'an incarnation and a tag' 1 'node-000001 alive 10.0.0.1:7946, incarnation 2 -> 3, tags zone=a -> b'

# ---- what only packets show, and other messages

python3 - <<'PACKETS'
from frames import packet, pcap, udp
from wire import address, alive, compound, dead, host, message, name, serf, suspect

def sent(at, source, target, *parts):
    payload = parts[0] if len(parts) == 1 else compound(parts)
    return (at * 10**6, packet(host(source), 17, udp(7946, payload), host(target)))

def ping(target, source):
    return message(0, SeqNo=7, Node=name(target), SourceAddr=address(source), SourcePort=7946, SourceNode=name(source))

pcap('seen.pcap', [sent(0, 1, 2, ping(2, 1)), sent(3, 1, 2, ping(2, 1))])
pcap('known.pcap', [sent(1, 1, 2, alive(1)), sent(2, 1, 2, alive(1))])
pcap('warned.pcap', [sent(0, 3, 1, alive(3, 4)), sent(1, 1, 3, ping(3, 1), suspect(3, 1, 4))])
def from_port(at, source, part):
    return (at * 10**6, packet(host(source), 17, udp(40000, part), host(9)))

other = message(4, Addr=address(1), Incarnation=1, Meta=b'', Node=name(5), Port=7947, Vsn=bytes([1, 5, 2, 0, 0, 0]))
pcap('renewed.pcap', [sent(1, 1, 2, alive(1, 2))])
pcap('other_place.pcap', [sent(1, 1, 2, alive(1, at=2))])
for name_of, shift, accuser, inc in (('u', 0, 2, 1), ('v', 1000, 4, 2)):
    pcap(name_of + '.pcap', [(at + shift, data) for at, data in [
        sent(0, 3, 1, alive(3)), sent(1, 1, 2, suspect(3, 1)), sent(2, 1, 2, suspect(3, accuser)), sent(3, 5, 1, alive(5, inc))]])
pcap('noted.pcap', [sent(0, 1, 2, alive(1, 0))])
pcap('hosts.pcap', [
    sent(0, 1, 2, alive(1)), sent(0, 1, 2, other), from_port(1, 1, suspect(2, 1)),
    sent(2, 6, 1, alive(6)), sent(3, 6, 1, dead(6, 6)), sent(4, 7, 1, alive(6, 2, at=7)), sent(5, 6, 1, alive(8, at=6)),
    from_port(6, 6, suspect(2, 8)), from_port(7, 7, suspect(2, 6))])
pcap('leaves.pcap', [sent(1, 3, 1, alive(3)), sent(3, 3, 1, serf(0, LTime=5, Node=name(3), Prune=False)),
                     sent(4, 1, 2, dead(3, 1))])
pcap('error.pcap', [sent(0, 1, 2, message(13, Error=b'no')), sent(1, 1, 2, ping(2, 1))])
PACKETS
"$program" members seen.pcap known.pcap 2> err | tr -s ' ' | cut -d ' ' -f 1-4 > found
printf '%s\n' 'NAME ADDRESS STATE INC' 'node-000001 10.0.0.1:7946 alive 1' > wanted
check 'of two views that agree, that which knows more'
"$program" diff --json seen.pcap known.pcap > out 2> err
status=$?
: > err
prints 'what only packets show has no incarnation' 1 '{"after":{"address":"10.0.0.1","incarnation":1,"meta":"","port":7946,"state":"alive","vsn":"010502000000"},"before":{"address":"10.0.0.1","meta":"","port":7946,"state":"alive","vsn":""},"name":"node-000001"}'
"$program" timeline --json warned.pcap 2> err | python3 -c '
import json, sys
for line in sys.stdin:
    o = json.loads(line)
    print(o["name"], o["event"], o.get("incarnation"), o.get("by"), o["from"], o["to"])' > found
printf '%s\n' 'node-000003 joined 4 None node-000003 10.0.0.1:7946' \
    'node-000001 seen None None node-000001 node-000003' 'node-000003 warned 4 node-000001 node-000001 node-000003' > wanted
check 'the object of a warning'
"$program" talkers error.pcap 2> err | tr -s ' ' | cut -d ' ' -f 1-2,9-13 > found
printf '%s\n' 'SENDER PING LEFT USER STREAM TCP UNREAD' 'node-000001 1 0 0 0 0 1' > wanted
check 'an error in a packet is unread'

# a canonical dump has the details of a dead member in a record before that of its death
run diff --json told.bin told.bin
prints 'a dump and itself' 0
"$program" dump seen.pcap > nobody.bin 2> err
run diff told.bin nobody.bin
prints 'a dump and one of nobody' 1 'node-000001 alive 10.0.0.8:7946 -> absent' \
    'node-000002 dead 10.0.0.2:7946 -> absent' 'node-000003 left 10.0.0.3:7946 -> absent' \
    'node-000004 suspect 10.0.0.4:7946 -> absent'

# Serf's handleNodeLeave: one that said that it leaves, and is then dead, has left
run diff --at $day:02Z --at $day:04Z leaves.pcap
: > err
prints 'a member that leaves, and is dead' 1 'node-000003 alive 10.0.0.3:7946 -> left 10.0.0.3:7946'

"$program" diff --json noted.pcap known.pcap 2> err | grep -o '"before".*' > found
echo '"before":{"address":"10.0.0.1","meta":"","port":7946,"state":"alive","vsn":"010502000000"},"name":"node-000001"}' > wanted
check 'what is only noted has no incarnation'
# of a host with several members none has its other ports, and who moves takes them along
"$program" claims hosts.pcap 2> err | sed -n 's/.* suspect .*(\(.*\) to .*/\1/p' > found
printf '%s\n' 10.0.0.1:40000 node-000008 node-000006 > wanted
check 'who is at another port of a host'
# node-3 is in the second capture alone, node-9 in none
for row in '3 no' '9 yes'; do
    # shellcheck disable=SC2086
    set -- $row
    "$program" timeline --member "node-00000$1" known.pcap warned.pcap 2>&1 |
        grep -q 'nothing was heard about the --member name' && echo yes > found || echo no > found
    echo "$2" > wanted
    check "whether anything was heard of node-$1 in one of two captures"
done
"$program" timeline u.pcap v.pcap 2> err | sed 's/^[^ ]* //; s/ (.*//; s/ at .*//' | sort > found
printf 'node-00000%s\n' '3 also suspected 1 by node-000002' '3 also suspected 1 by node-000004' '3 joined 1' \
    '3 suspected 1 by node-000001' '5 joined 1' '5 joined 2' > wanted
check 'events of two views differ by the accuser and by the incarnation'
"$program" talkers told.pcap 2> err | sed 1d | awk '{ print $1, $2, $6, $NF }' > wanted
"$program" talkers --json told.pcap 2> err | python3 -c '
import json, sys
for line in sys.stdin:
    o = json.loads(line)
    print(o["sender"], o["pings"], o["suspicions"], o["bytes"])' > found
check 'the bytes in the objects of talkers'
"$program" members --key-file examples/encrypted.key told.pcap 2>&1 | grep -o '[0-9]* not encrypted, the first from [0-9.]*' > found
echo '22 not encrypted, the first from 10.0.0.1' > wanted
check 'who sent the first packet in the clear'

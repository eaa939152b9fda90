# What swimwatch shows in an outage: late captures, several views, a part of the time, two clusters on the same hosts,
# and packets that hide or forge a death. tests/watched runs it in its folder. What is expected comes from the rows of
# tests/captures, and so from the members' own logs and from an independent reader.
# shellcheck shell=sh disable=SC2154

late=captures/late/kill.pcap
w1=captures/partition/w1.pcap
w6=captures/partition/w6.pcap

# rows NAME: prints the rows of a timeline with times to the second.
rows() {
    sed '/^#/d; s/^[-0-9]*T\([0-9:]*\)[^ ]* /\1 /' "captures/$1.timeline"
}

# shown: the lines of a timeline on standard input in that form, with the view if the line names one.
shown() {
    sed 's/^[-0-9]*T\([0-9:]*\)[^ ]* /\1 /; s/ ([^()]* to [^()]*, [tu][cd]p)$//
        s/ ([^()]* to [^()]*, [tu][cd]p, \([^ ]*\))$/ \1/' | grep -v ' renewed '
}

# ---- a capture that begins in the outage

"$program" members "$late" 2> err | awk 'NR > 1 { print $1, $2, $3, $4, $6 }' | grep ' dead ' > found
echo 'web-3 - dead 1 web-5' > wanted
check 'the dead member of a late capture, without an address'
"$program" timeline --member web-3 "$late" 2> err | grep -c ' joined ' > found
echo 0 > wanted
check 'nobody joins in a late capture'
run timeline --member web-9 "$late"
count 'a member that nobody names' "$(grep -q 'nothing was heard about the --member name' err || echo "; $(start_of err)")"

# late_frames CONDITION FILE: those frames of the late capture whose time, in seconds after 21:16:00, and protocol make the
# condition true
late_frames() {
    python3 - "$late" "$1" "$2" <<'END'
import struct, sys
data = open(sys.argv[1], "rb").read()
kept, at = data[:24], 24
while at < len(data):
    seconds, micros, length = struct.unpack_from("<III", data, at)
    time = (seconds + micros / 1e6) % 86400 - (21 * 3600 + 16 * 60)
    if eval(sys.argv[2], {"time": time, "is_tcp": data[at + 16 + 23] == 6}):
        kept += data[at:at + 16 + length]
    at += 16 + length
open(sys.argv[3], "wb").write(kept)
END
}

# the death, and the streams with it, are not captured: web-3 is suspected for 36 s
late_frames 'not 28.5 < time < 30 and not is_tcp' lost.pcap
# memberlist's suspicionTimeout and suspectNode: the first suspicion is of 21:16:24.35, and of five members three may
# confirm it; so it lasts 4 s times 6 at most, with a SuspicionMult of 5 also six times as long, and with 10 only 10 s
for row in '21:16:48 4 suspect' '21:16:49 4 overdue' '21:17:00 4 overdue' '21:16:54 5 suspect' '21:16:55 5 overdue' \
    '21:16:34 10 suspect' '21:16:35 10 overdue'; do
    # shellcheck disable=SC2086
    set -- $row
    "$program" members --at "$1" --suspicion-mult "$2" lost.pcap 2> err | awk '$1 == "web-3" { print $3 }' > found
    echo "$3" > wanted
    check "a suspicion of 21:16:24 at $1, with a SuspicionMult of $2"
done

"$program" members --json --at 21:17:00 lost.pcap 2> err | python3 -c '
import json, sys
for line in sys.stdin:
    o = json.loads(line)
    print(o["name"], o["state"], o.get("overdue", False))' > found
printf 'web-%s\n' '1 alive False' '2 alive False' '3 suspect True' '4 alive False' '5 alive False' > wanted
check 'the objects of members, of which one is overdue'

# From 21:16:30 on web-3 is only named in records of streams, the first at 21:16:44.42, as an independent reader found.
# web-1's log has it failed at 21:16:28.
late_frames '30 < time' told.pcap
sed '/^#/d' captures/late/members | awk '$3 == "kill.pcap" { sub("failed", "dead", $6); print $4, $5, $6 }' > wanted
"$program" members told.pcap 2> err | awk 'NR > 1 { print $1, $2, $3 }' > found
check 'a death that only streams tell'
"$program" members told.pcap 2> err | awk '$1 == "web-3" { print $3, $4, $6 }' > found
echo 'dead 1 -' > wanted
check 'a death that only streams tell is by nobody'
"$program" timeline --member web-3 told.pcap 2> err | shown > found
echo '21:16:44 web-3 dead 1' > wanted
check 'the event of a death that only streams tell'
"$program" members --json told.pcap 2> err | python3 -c '
import json, sys
for line in sys.stdin:
    o = json.loads(line)
    if o["state"] == "dead":
        print(o["name"], o["incarnation"], o["by"])' > found
echo 'web-3 1 []' > wanted
check 'the object of a death that only streams tell'

# ---- a part of the time

rows late/kill | awk '"21:16:25" <= $1 && $1 < "21:16:28"' > wanted
"$program" timeline --from 21:16:25 --to 2026-11-26T21:16:28Z "$late" 2> err | shown > found
check 'the events of a part of the time'
"$program" members --from 21:16:25 --to 21:16:40 "$late" 2> err | awk 'NR > 1 { print $1, $3 }' > found
echo 'web-3 dead' > wanted
check 'the members whose state began in a part of the time'
rows late/kill | awk '$1 < "21:16:26"' > wanted
"$program" timeline --to 21:16:26 "$late" 2> err | shown > found
check 'the events until a time'
for words in '--at 21:16' '--at 21:16:26'; do
    # shellcheck disable=SC2086
    "$program" members $words captures/late/hang.pcap 2> err | sed 1d > found
    : > wanted
    check "the members at a time before the capture: $words"
done
# the first record is of 21:16:22.4, so the third accuser is not heard
rows late/kill | awk '$1 < "21:16:26"' > wanted
"$program" timeline --for 4s "$late" 2> err | shown > found
check 'the first 4 s of a capture'
mkfifo ends
"$program" members --for 10s - < ends > found 2> err &
listening=$!
exec 4> ends
cat "$late" >&4 2> /dev/null
waited=0
while kill -0 "$listening" 2> /dev/null && [ "$waited" -lt 100 ]; do
    sleep 0.1
    waited=$((waited + 1))
done
count 'listening ends by itself, though the pipe stays open' "$([ "$waited" -lt 100 ] || echo '; it does not')"
exec 4>&-
wait "$listening"
awk 'NR > 1 { print $1, $3 }' found | sort > f && mv f found
printf 'web-%s\n' '1 alive' '2 alive' '3 dead' '4 alive' '5 alive' > wanted
check 'the members after 10 s'

# listened NAME FILE WORDS..: runs the program on a pipe that has the bytes of FILE and then stays open, and counts
# whether it ends by itself after 2 seconds.
listened() {
    name=$1 file=$2
    shift 2
    { cat "$file" && exec sleep 30; } > ends &
    feeding=$!
    before=$(date +%s)
    "$program" "$@" --for 2s - < ends > found 2> err
    status=$? took=$(($(date +%s) - before))
    kill "$feeding"
    wait "$feeding" 2> f
    count "listening ends by the clock: $name" "$(
        [ "$status" -eq 0 ] || echo "; status $status, $(start_of err)"
        { [ "$took" -ge 1 ] && [ "$took" -le 12 ]; } || echo "; after $took s"
    )"
}

# memberlist's own Alive of f5 at 127.0.3.5:38875, in examples/memberlist.hex
alive=$(sed -n 1p examples/memberlist.hex)
packet "$alive" > alive.pcap
"$program" members alive.pcap > w 2> err
listened 'one record' alive.pcap members
cp w wanted
check 'what was heard is shown when listening ends'
"$program" timeline alive.pcap > w 2> err
listened 'a timeline' alive.pcap timeline
cp w wanted
check 'its events are shown when listening ends'
head -c 24 alive.pcap > header.pcap
listened 'no record' header.pcap members
echo 'NAME  ADDRESS  STATE  INC  SINCE  BY' > wanted
check 'nothing was heard'
: > none.pcap
listened 'no byte' none.pcap members
check 'nothing came'
head -c 60 alive.pcap > cut.pcap
listened 'in the middle of a record' cut.pcap members
count 'the end of listening is no cut' "$(! grep -q 'in the middle of this record' err || echo "; $(start_of err)")"

# a line is written when its record came, though the pipe stays open
{ cat alive.pcap && exec sleep 30; } > ends &
feeding=$!
"$program" timeline - < ends > line 2> err &
listening=$!
waited=0
while [ ! -s line ] && [ "$waited" -lt 100 ]; do
    sleep 0.1
    waited=$((waited + 1))
done
kill "$feeding"
wait "$listening"
mv line found
"$program" timeline alive.pcap > wanted 2> err
count 'a line of the timeline does not wait for the next record' "$([ "$waited" -lt 100 ] || echo '; it does')"
check 'the line of the timeline'

# a file of which the first record was read, and which has none at its turn
cp alive.pcap later.pcap
"$program" timeline --merge - later.pcap < ends > line 2> err &
listening=$!
exec 4> ends
cat alive.pcap >&4
waited=0
while [ ! -s line ] && [ "$waited" -lt 100 ]; do
    sleep 0.1
    waited=$((waited + 1))
done
cp header.pcap later.pcap
exec 4>&-
wait "$listening"
status=$?
ends 'a file that lost its records' 3
echo 'swimwatch: later.pcap: byte 0: the file lost its records while others were read' > wanted
mv err found
check 'the file that lost its records is named'

# ---- a table to begin with

# the table of all claims at web-1 in the partition, as a stream, before a capture without packets
"$program" dump "$w1" > start.bin 2> err
{ head -c 24 "$w1" && bytes 8049076b0000000000000000; bytes 00000000; } > one.pcap
sed '/^#/d' captures/partition/members | awk '$3 == "w1.pcap" { sub("failed", "dead", $6); print $4, $5, $6 }' > wanted
"$program" members --start start.bin one.pcap 2> err | awk 'NR > 1 { print $1, $2, $3 }' > found
check 'the members of a table to begin with'
"$program" timeline --start start.bin one.pcap > found 2> err
: > wanted
check 'what a table to begin with has is no event'
echo 'not a stream at all' > note.txt
run members --start note.txt one.pcap
count 'a table to begin with that is none' "$([ "$status" -eq 3 ] && grep -q note.txt err || echo "; status $status, $(start_of err)")"

# ---- several views

"$program" members "$w1" "$w6" > out 2> err
awk '$1 == "NAME" { table++; next } table == 2 { print $1, $2, $3 }' out > found
sed '/^#/d' captures/partition/members | sort -k 4,4 -k 2,2 |
    awk '{ sub(".pcap", "", $3); sub("failed", "dead", $6); print $4, $3, $6 }' > wanted
check 'both sides of a partition, as each one logged it'
awk '$1 == "NAME" { table++; next } table == 1' out | sed 's/ .* \([12] of 2\).*/ \1/' > found
for n in 1 2 3 4 5 6; do echo "web-$n 1 of 2"; done > wanted
check 'the table of both sides agrees on no name'
"$program" members --json "$w1" "$w6" 2> err | python3 -c '
import json, sys
for line in sys.stdin:
    o = json.loads(line)
    print(o["name"], o["view"], o["state"])' | sort > found
sed '/^#/d' captures/partition/members | awk '{ sub(".pcap", "", $3); sub("failed", "dead", $6); print $4, $3, $6 }' | sort > wanted
check 'the objects of both sides'
# of each event the first view that has it
for view in w1 w6; do
    sed "/^#/d; s/\$/ $view/" captures/partition/$view.timeline
done | sort -s -k 1,1 | awk '{
    inc = $3 == "also" ? $5 : $4; by = $3 == "also" ? $7 : $5 == "by" ? $6 : ""
    if (!seen[$2, $3, inc, by]++) print
}' > first
sed 's/^[-0-9]*T\([0-9:]*\)[^ ]* /\1 /' first | sort > wanted
"$program" timeline "$w1" "$w6" 2> err | shown | sort > found
check 'the timeline of both sides has each event once, and names the view that had it first'
"$program" timeline --json "$w1" "$w6" 2> err | python3 -c '
import json, sys
for line in sys.stdin:
    o = json.loads(line)
    print(o["name"], o["event"], o["view"])' | sort > found
awk '{ event = $3 == "also" ? "also suspected" : $3; print $2, event, $NF }' first | sort > wanted
check 'the objects of the timeline of both sides'
"$program" members captures/steady/all.pcap captures/steady/web-1.pcap 2> err | cut -c 1-37 > found
"$program" members captures/steady/all.pcap 2> err | cut -c 1-37 > wanted
check 'views that agree are one table'
"$program" members part1.pcap part2.pcap > found 2> err
"$program" members "$basic" > wanted 2> err
check 'captures that follow each other are one view'
mkdir here there
cp "$w1" here/w.pcap
cp "$w6" there/w.pcap
"$program" members "$w1" "$w6" 2> err | tr -s ' ' | sed 's/ w1 / here\/w /; s/ w6 / there\/w /' > wanted
"$program" members here/w.pcap there/w.pcap 2> err | tr -s ' ' > found
check 'views of files with one name have the folders in theirs'
"$program" timeline "$PWD/here/w.pcap" there/w.pcap 2> err | sed 's/.*, \([^ ]*\))$/\1/' | sort -u > found
printf '%s\n' here/w there/w > wanted
check 'and so have the events'

# a view that knows less: the capture of web-1 without the packets and streams that make claims
python3 - captures/steady/web-1.pcap less.pcap <<'END'
import struct, sys
data, at = open(sys.argv[1], "rb").read(), 24
kept = data[:24]
while at < len(data):
    length = struct.unpack_from("<I", data, at + 8)[0]
    frame = data[at + 16:at + 16 + length]
    # a datagram that begins with a ping, or with an ack
    if frame[12:14] == b"\x08\0" and frame[23] == 17 and frame[42] in (0, 2):
        kept += data[at:at + 16 + length]
    at += 16 + length
open(sys.argv[2], "wb").write(kept)
END
"$program" members less.pcap 2> err | awk 'NR > 1 { print $4 }' | sort -u > found
echo - > wanted
check 'a view without claims'
"$program" members captures/steady/all.pcap > wanted 2> err
for words in 'less.pcap captures/steady/all.pcap' 'captures/steady/all.pcap less.pcap'; do
    # shellcheck disable=SC2086
    "$program" members $words > found 2> err
    check "a view without claims does not differ from one that knows more: $words"
done
# memberlist's own Alive of f5 and its Dead by f1. Of captures of the same two seconds, one has both, two have one of them
# twice
dead=$(sed -n 4p examples/memberlist.hex)
packet "$dead" > dead.pcap
python3 - "$alive" "$dead" <<'END'
import sys
from frames import packet, pcap, udp
alive, dead = (packet("127.0.3.1", 17, udp(7946, bytes.fromhex(text))) for text in sys.argv[1:])
pcap("both.pcap", [(0, alive), (2000000, dead)])
pcap("alone.pcap", [(1000000, dead), (2000000, dead)])
pcap("before.pcap", [(1000000, alive), (2000000, alive)])
END
"$program" members both.pcap > wanted 2> err
"$program" members alone.pcap both.pcap > found 2> err
check 'a view without the address of a member does not differ'
"$program" members before.pcap alone.pcap 2> err | tr -s ' ' | sed 's/ $//' > found
printf '%s\n' 'NAME ADDRESS STATE INC AGREE TAGS' 'f5 127.0.3.5:38875 alive 2 1 of 2 6d' \
    'NAME MEMBER STATE INC ADDRESS TAGS' 'f5 before alive 2 127.0.3.5:38875 6d' 'f5 alone dead 2 -' > wanted
check 'a state that both views heard is compared'

# both sides in three parts each, as tcpdump -G writes them
python3 - "$w1" "$w6" <<'END'
import os, struct, sys
for name in sys.argv[1:]:
    data, at, parts = open(name, "rb").read(), 24, {}
    while at < len(data):
        seconds, _, length = struct.unpack_from("<III", data, at)
        # from 21:21:30 on, every 20 seconds
        part = (seconds - 1795728090) // 20
        parts.setdefault(part, data[:24])
        parts[part] += data[at:at + 16 + length]
        at += 16 + length
    for part in parts:
        open("%s-%d.pcap" % (os.path.basename(name)[:-5], part), "wb").write(parts[part])
END
"$program" members "$w1" "$w6" 2> err | sed 's/ w\([16]\)  / w\1-0/' > wanted
"$program" members w6-2.pcap w1-1.pcap w1-0.pcap w6-0.pcap w1-2.pcap w6-1.pcap > found 2> err
check 'both sides of a partition in parts, in any order'
"$program" members --merge "$w1" "$w6" 2> err | awk 'NR > 1 { print $1, $3 }' > found
for n in 1 2 3 4 5 6; do echo "web-$n dead"; done > wanted
check 'both sides of a partition as one view: each is dead for somebody'

# ---- two clusters on the same hosts

ports=captures/ports/all.pcap
for at in 7946 8946; do
    sed -n "s/failed/dead/; s/^$at //p" captures/ports/all.members > wanted
    "$program" members --port "$at" "$ports" 2> err | awk 'NR > 1 { print $1, $2, $3 }' > found
    check "the members of the cluster at port $at"
    ! grep -q 'a name is claimed at ports' err
    count "one cluster is read at port $at" "$([ $? -eq 0 ] || echo "; $(tail -n 1 err)")"
done
"$program" members "$ports" > wanted 2> err
grep -q 'a name is claimed at ports 7946 and 8946 of one address' err
count 'two clusters on the same hosts are named' "$([ $? -eq 0 ] || echo "; $(tail -n 1 err)")"
"$program" members --port 7946 --port 8946 "$ports" > found 2> err
check 'both ports are both clusters'

# ---- rivals of a name

# the Alive of f5 at two other ports
packet "$(echo "$alive" | sed 's/cd97db/cd97dc/')" > second.pcap
packet "$(echo "$alive" | sed 's/cd97db/cd97dd/')" > third.pcap
"$program" timeline --merge alive.pcap second.pcap third.pcap second.pcap third.pcap 2> err |
    tr -d , | awk '{ print $2, $3, $4, $6 }' > found
printf 'f5 %s\n' 'joined 2 127.0.3.5:38875' 'conflict 2 127.0.3.5:38876' 'conflict 2 127.0.3.5:38877' > wanted
check 'two rivals in turn are two conflicts'
"$program" members --merge alive.pcap second.pcap third.pcap second.pcap 2> err | sed 1,2d |
    sed 's/2026-11-25T02:01:22.0*Z/TIME/g' > found
printf 'f5 conflict at 127.0.3.5:%s, last heard TIME, and is at 127.0.3.5:38875, last heard TIME\n' 38876 38877 > wanted
check 'a row for each rival'

# ---- a forged death

# the first UDP packet of db-1, with the bytes of a Dead of db-1 by db-2 in the clear, a second after the last record
python3 - captures/sealed/db-1.pcap forged.pcap > forger <<'END'
import socket, struct, sys
data = open(sys.argv[1], "rb").read()
dead = bytes.fromhex("0583a446726f6da464622d32ab496e6361726e6174696f6e09a44e6f6465a464622d31")
link = struct.unpack_from("<I", data, 20)[0]
skip = {1: 14, 113: 16, 276: 20}[link]
at, forged = 24, None
while at < len(data):
    seconds, micros, length = struct.unpack_from("<III", data, at)
    frame = bytearray(data[at + 16:at + 16 + length])
    if forged is None and frame[skip] >> 4 == 6 and frame[skip + 6] == 17:
        forged = frame[:skip + 48] + dead
        struct.pack_into(">H", forged, skip + 4, 8 + len(dead))
        struct.pack_into(">H", forged, skip + 44, 8 + len(dead))
        print(socket.inet_ntop(socket.AF_INET6, bytes(frame[skip + 8:skip + 24])))
    at += 16 + length
record = struct.pack("<IIII", seconds + 1, 0, len(forged), len(forged))
open(sys.argv[2], "wb").write(data + record + forged)
END
with_keys='--key-file captures/sealed/keys'
# shellcheck disable=SC2086
"$program" members $with_keys captures/sealed/db-1.pcap > wanted 2> err
# shellcheck disable=SC2086
"$program" members $with_keys forged.pcap > found 2> err
check 'a forged death in the clear is not believed'
grep -q "1 not encrypted, the first from $(cat forger), and not believed" err
count 'and its sender is named' "$([ $? -eq 0 ] || echo "; $(tail -n 1 err)")"
# shellcheck disable=SC2086
"$program" members $with_keys --accept-clear forged.pcap 2> err | awk '$1 == "db-1" { print $1, $3, $4, $6 }' > found
echo 'db-1 dead 9 db-2' > wanted
check 'what is in the clear is believed with --accept-clear'
# shellcheck disable=SC2086
"$program" timeline $with_keys forged.pcap 2> err | grep -c ' db-1 dead ' > found
echo 0 > wanted
check 'a forged death is no event'

# ---- a hidden death

# memberlist's own messages about f5, in examples/memberlist.hex: it is alive at 2, and dead at 2 by f1. memberlist reads
# the death in each of these packets.
while read -r hex kind; do
    packet "$hex" > dead.pcap
    "$program" members --merge alive.pcap dead.pcap 2> err | awk 'NR > 1 { print $1, $3, $4, $6 }' > found
    echo 'f5 dead 2 f1' > wanted
    check "a death $kind"
done <<END
$dead alone
0702001f0001${dead}04 before a part that is no message
0702001f0100$dead before a part that is cut off
070100230701001f$dead in a compound message of a compound message
${dead}00 with a byte after it
0584${dead#0583}a15801 in a map with one more key
END

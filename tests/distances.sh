# The round trips that swimwatch estimates from Serf's coordinates. tests/watched runs it in its folder. What is expected
# is what Serf's own package gives for the coordinates, and what `serf rtt` and ping told.
# shellcheck shell=sh disable=SC2154

distances=captures/distances/web-1

# estimates WORD..: prints the pairs in ascending order, each with its round trip
estimates() {
    "$program" distances "$@" 2> err | awk 'NR > 1 { print ($1 < $2 ? $1 " " $2 : $2 " " $1), $3 }' | sort
}

# near COLUMN TOLERANCE: the pairs of the rows are those that were estimated, and all round trips are near to those in the
# column, also with the half by which they were rounded: from 100 on to whole ones, and else to tenths
near() {
    sed '/^#/d' $distances.distances | sort > expected
    awk -v column="$1" -v tolerance="$2" '
        NR == FNR { wanted[$1 " " $2] = $column; pairs++; next }
        { away = $3 - wanted[$1 " " $2]; if (away < 0) away = -away }
        !(($1 " " $2) in wanted) || away > tolerance + ($3 < 100 ? 0.0501 : 0.501) { print $0 ", not " wanted[$1 " " $2] }
        { delete wanted[$1 " " $2] }
        END { for (pair in wanted) print pair " is missing" }' expected estimated > found
    : > wanted
}

"$program" distances $distances.pcap 2> err | sed -n '1s/  */ /gp' > found
echo 'FROM TO RTT-MS' > wanted
check 'the header of the round trips'
estimates $distances.pcap > estimated
near 3 0
check "the round trips are those of Serf's package for the same coordinates"
near 4 0.13
check 'the round trips are those that serf rtt told'
sed '/^#/d' $distances.distances | sort > expected
paste -d ' ' estimated expected | awk '{ away = ($3 - $8) / $8; print (away < 0 ? -away : away) }' | sort -n |
    awk '{ error[NR] = $1 } END { print (NR == 28 && error[14] < 0.02 ? "near" : "far: " error[14]) }' > found
echo near > wanted
check 'half of the round trips are those of ping, within 2 per cent'
grep 'web-3 ' estimated > wanted
estimates --target web-3 $distances.pcap > found
check 'the round trips of one member'
"$program" distances --target nobody $distances.pcap 2>&1 > /dev/null | head -n 1 > found
echo 'swimwatch: no coordinate of the --target name was heard' > wanted
check 'a member of which no coordinate was heard'
"$program" distances --json $distances.pcap 2> err | python3 -c '
import json, sys
for line in sys.stdin:
    row = json.loads(line)
    print(*sorted((row["from"], row["to"])))' | sort > found
cut -d ' ' -f 1,2 estimated > wanted
check 'the objects of the round trips'

# in each ack of web-7 a coordinate is no number
python3 - $distances.pcap > other.pcap << 'END'
import struct, sys
data, at = bytearray(open(sys.argv[1], "rb").read()), 24
while at < len(data):
    length = struct.unpack_from("<I", data, at + 8)[0]
    frame = data[at + 16:at + 16 + length]
    place = frame.find(b"\xa3Vec\x98\xcb")
    if frame[23] == 17 and frame[29] == 17 and place > 0:
        frame[place + 6:place + 14] = struct.pack(">d", float("nan"))
        frame[40:42] = b"\0\0"
        data[at + 16:at + 16 + length] = frame
    at += 16 + length
sys.stdout.buffer.write(data)
END
sed '/web-7 /d' estimated > wanted
estimates other.pcap > found
check 'a coordinate that is no number is left out'

# What swimwatch tells of Serf's own messages: events, queries, and members that leave or are forced to. tests/watched
# runs it in its folder, after tests/detected.sh. What is expected is what an independent decoder found in the captures
# of serfmsgs (captures/causes/serf), what the agents' logs say, and what was done. tests/serf_live does it with clusters
# that live.
# shellcheck shell=sh disable=SC2154

# states_at TIME FILE..: the names and the states of the members at that time, in one view of all files
states_at() {
    time=$1
    shift
    "$program" members --merge --at "$time" "$@" 2> err | awk 'NR > 1 { print $1, $3 }'
}

# bare FILE: the members without what Serf's messages add to their states
bare() {
    "$program" members "$1" 2> err | awk '{ sub("leaving", "alive", $3); sub("left", "dead", $3); print $1, $2, $3, $4, $NF }'
}

# frames CONDITION FILE..: a capture with those frames of these for which the condition is true, in the order of time:
# `number` is that of the file, `second` is the time, `frame` has the bytes
frames() {
    python3 - "$@" << 'END'
import struct, sys
records = []
for number, name in enumerate(sys.argv[2:], 1):
    data, at = open(name, "rb").read(), 24
    while at < len(data):
        second, micros, length = struct.unpack_from("<III", data, at)
        if eval(sys.argv[1], {"number": number, "second": second, "frame": data[at + 16:at + 16 + length]}):
            records.append((second, micros, len(records), data[at:at + 16 + length]))
        at += 16 + length
sys.stdout.buffer.write(data[:24] + b"".join(record[3] for record in sorted(records)))
END
}

if has_xz > /dev/null; then
    rm -rf members_of
    python3 -m tarfile -e "$causes/serfmsgs.tar.xz" members_of > err 2>&1
    # what each member sent: no member has a part in all of it
    frames 'frame[11] == number' members_of/web-?.pcap > between.pcap

    # lines of a timeline about Serf
    of_serf=' intent [0-9]\|Z event \|Z query '
    rows_of serf all > passed
    cp passed wanted
    "$program" timeline between.pcap 2> err | grep "$of_serf" > found
    check 'the events, the queries and the intents that passed'
    "$program" timeline --merge members_of/web-?.pcap 2> err | grep "$of_serf" > found
    check 'the same in the captures of all members'
    grep 'Z event \|Z query ' passed > wanted
    "$program" timeline --events between.pcap > found 2> err
    check 'the events and the queries alone'
    "$program" timeline between.pcap 2> err | grep '^[^ ]* web-5 ' > wanted
    "$program" timeline --member web-5 between.pcap > found 2> err
    check 'what happened to one member, with the intent about it'
    for name in web-1 web-2 web-3 web-4 web-5; do
        rows_of serf $name > wanted
        "$program" timeline members_of/$name.pcap 2> err | grep "$of_serf" > found
        check "what the capture of $name tells: that another began something only if that sent it first"
    done

    # web-5 was killed at 21:35:07 and Dead at :13.010 (EventMemberFailed in all logs); web-1 forced it to leave at :17.809
    # ("Force leaving node"). web-4 said at :20.901 that it leaves, and at :21.010 that it is gone (EventMemberLeave).
    # Each row has the states of web-4 and web-5, and which members have heard of it by then
    while read -r time fourth fifth heard; do
        printf 'web-%s\n' '1 alive' '2 alive' '3 alive' "4 $fourth" "5 $fifth" > wanted
        for captures in between $heard; do
            [ "$captures" = between ] || captures=members_of/web-$captures
            states_at "$time" "$captures.pcap" > found
            check "the states at $time in $captures.pcap: web-4 $fourth, web-5 $fifth"
        done
    done << 'END'
21:35:06.5 alive alive 1
21:35:14 alive dead 1 4
21:35:17.809 alive dead 2
21:35:18 alive left 1 2 3 4
21:35:20.9 alive left 3
21:35:20.95 leaving left 1 3 4
21:35:21.01 leaving left 2
21:35:23 left left 1 2 3 4
21:35:44 left left 1
END
    # web-1's capture from when both were gone on: its push/pulls tell who left, and nothing else does
    frames 'second >= 1795728925' members_of/web-1.pcap > late.pcap
    "$program" members late.pcap 2> err | awk 'NR > 1 { print $1, $3 }' > found
    printf 'web-%s\n' '1 alive' '2 alive' '3 alive' '4 left' '5 left' > wanted
    check 'members that left, of which only tables tell'

    # ---- a cluster as tests/serf_live runs it

    mkdir ran
    python3 -m tarfile -e captures/serf/web.tar.xz ran > err 2>&1
    web=captures/serf/web
    for n in 1 2; do
        frames "bytes([10, 99, 0, 10 + $n]) in (frame[26:30], frame[30:34])" ran/all.pcap > ran/web-$n.pcap
    done
    sed -n 's/^both //p' $web > wanted
    "$program" timeline --merge ran/all.pcap ran/own.pcap 2> err | grep "$of_serf" | sort > found
    check 'events with bytes, queries with answers and relays, and who stays, is forced to leave or is forgotten'
    sed -n 's/^web-1 //p' $web > wanted
    "$program" timeline ran/web-1.pcap 2> err | grep "$of_serf" | sort > found
    check 'the same as one member had it'
    sed -n 's/^asked //p' $web > asked.rows
    while read -r time by states; do
        # Serf has forgotten web-6, which was dead and forced to leave
        case $states in *web-6*) ;; *) states="$states web-6=left" ;; esac
        echo "$states" | sed 's/failed/dead/g' | tr ' =' '\n ' > wanted
        "$program" members --at "$time" "ran/$by.pcap" 2> err |
            awk 'NR > 1 { sub("suspect", "alive", $3); print $1, $3 }' > found
        check "the states that $by had at $time"
    done < asked.rows
    rm -rf ran

    # ---- a member that is asked: what web-1 answered web-2 at 21:35:30

    frames 'second == 1795728930 and frame[23] == 6 and frame[29:34] == b"\x0b\x0a\x4d\x33\x0c"' members_of/web-1.pcap > one.pcap
    python3 - > answer << 'END'
import struct
data, at, parts = open("one.pcap", "rb").read(), 24, {}
while at < len(data):
    length = struct.unpack_from("<I", data, at + 8)[0]
    ip = data[at + 30:at + 16 + length]
    tcp = ip[20:struct.unpack_from(">H", ip, 2)[0]]
    parts.setdefault(struct.unpack_from(">I", tcp, 4)[0], b"")
    parts[struct.unpack_from(">I", tcp, 4)[0]] += tcp[(tcp[12] >> 4) * 4:]
    at += 16 + length
open("answer", "wb").write(b"".join(parts[at] for at in sorted(parts)))
END
    member closes answer
    "$program" pull "127.0.0.1:$port" 2> err | awk 'NR > 1 { print $1, $3 }' > found
    printf 'web-%s\n' '1 alive' '2 alive' '3 alive' '4 left' '5 left' > wanted
    check 'members that left, as a member that is asked tells'
    "$program" pull --events "127.0.0.1:$port" 2> err | tr -s ' ' > found
    printf '%s\n' 'LTIME EVENT PAYLOAD' "1 deploy 'v1'" "2 restart 'now'" > wanted
    check 'the events that a member remembers'

    # ---- user messages that are not Serf's

    bare between.pcap > known
    for row in broken,1 broken,2 none,1; do
        how=${row%,*}
        python3 "$here/user_messages.py" "$how" between.pcap other.pcap "${row#*,}" > wanted
        run timeline other.pcap
        ends "a capture with $row user messages" 0
        grep -o '[0-9]* user messages not read as Serf' err | cut -d ' ' -f 1 > found
        check "$row user messages are counted"
        cp known wanted
        bare other.pcap > found
        check "the members in a capture with $row user messages"
    done
    # the last one has no user messages: only tables tell the events
    "$program" timeline --events other.pcap 2> err | grep ' event ' | sed 's/^[^ ]* //; s/ (.*//' > found
    printf 'event %s\n' "deploy 'v1' 1" "restart 'now' 2" > wanted
    check 'events that only tables tell are by nobody'
    echo "$(python3 "$here/user_messages.py" none between.pcap other.pcap 1) empty" > wanted
    "$program" members other.pcap 2>&1 > /dev/null | sed -n "s/.* not read as Serf's (\(.*\))\$/\1/p" > found
    check 'user messages without bytes are counted as such'
    for seed in 1 2 3 4 5 6 7 8; do
        python3 "$here/user_messages.py" random between.pcap other.pcap $seed > written
        run timeline other.pcap
        fault=
        [ "$status" -eq 0 ] || fault="; status $status: $(start_of err)"
        counted=$(grep -o '[0-9]* user messages not read as Serf' err | cut -d ' ' -f 1)
        if [ "${counted:-0}" -eq 0 ] || [ "$counted" -gt "$(cat written)" ]; then
            fault="$fault; counted ${counted:-none} of $(cat written)"
        fi
        bare other.pcap > found
        cmp -s known found || fault="$fault; other members"
        count "user messages with other bytes, seed $seed" "$fault"
    done
    rm -rf members_of
fi

# ---- Consul: a server's tags (agent/consul/server_serf.go), a client's, and the event of a new leader

if command -v python3 > /dev/null; then
    # message WHAT: prints a message of a Consul member in hexadecimal
    message() {
        python3 - "$1" << 'END'
import struct, sys
def text(value): return bytes([0xa0 | len(value)]) + value.encode() if len(value) < 32 else b"\xda" + struct.pack(">H", len(value)) + value.encode()
def raw(value): return b"\xda" + struct.pack(">H", len(value)) + value
def pairs(value): return (bytes([0x80 | len(value)]) if len(value) < 16 else b"\xde" + struct.pack(">H", len(value))) + b"".join(text(k) + v for k, v in value.items())
tags = {"role": "consul", "dc": "dc1", "segment": "", "id": "adf4238a-882b-9ddc-4a9d-5b6758e4159e", "vsn": "2",
        "vsn_min": "2", "vsn_max": "3", "raft_vsn": "3", "build": "1.22.0:2ed1d30a", "port": "8300", "expect": "3"}
if sys.argv[1] == "client":
    tags = {"role": "node", "dc": "dc1", "segment": "alpha", "id": "0b1fe2b6-3b3f-4a3e-9c36-d3d1c1f6f6aa", "vsn": "2", "build": "1.22.0:"}
if sys.argv[1] == "leader":
    print((b"\x08\x03" + pairs({"CC": b"\xc2", "LTime": b"\x07", "Name": text("consul:new-leader"), "Payload": text("server-1")})).hex())
else:
    print((b"\x04" + pairs({"Addr": raw(b"\x0a\0\0\x01"), "Incarnation": b"\x01", "Meta": raw(b"\xff" + pairs({k: text(v) for k, v in tags.items()})),
                           "Node": text(sys.argv[1] + "-1"), "Port": b"\xcd\x20\x6d", "Vsn": raw(bytes([1, 5, 2, 2, 5, 4]))})).hex())
END
    }
    packet "$(message server)" > server.pcap
    packet "$(message client)" > client.pcap
    packet "$(message leader)" > leader.pcap
    "$program" members --merge server.pcap client.pcap 2> err | awk 'NR > 1 { print $1, $2, $3, $NF }' > found
    printf '%s 10.0.0.1:8301 alive %s\n' \
        client-1 'build=1.22.0:,dc=dc1,id=0b1fe2b6-3b3f-4a3e-9c36-d3d1c1f6f6aa,role=node,segment=alpha,vsn=2' \
        server-1 'build=1.22.0:2ed1d30a,dc=dc1,expect=3,id=adf4238a-882b-9ddc-4a9d-5b6758e4159e,port=8300,raft_vsn=3,role=consul,segment=,vsn=2,vsn_max=3,vsn_min=2' > wanted
    check "the tags of Consul's servers and clients"
    "$program" timeline --events leader.pcap 2> err | sed 's/^[^ ]* //; s/ (.*//' > found
    echo "event consul:new-leader 'server-1' 7" > wanted
    check "an event of Consul"
fi

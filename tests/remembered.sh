# What swimwatch pull shows of Serf's state in an answer: who left, and the user events that a member remembers.
# tests/watched runs it in its folder. The states are bytes that Serf's own encodeMessage wrote, from the values in
# tests/serf_states/states_test.go; what is expected follows from these values and the rules in docs/views.md.
# shellcheck shell=sh disable=SC2034,SC2154

# state NAME: prints a state of tests/answers in hexadecimal.
state() { sed '/^#/d' "$here/answers/serf_$1.hex"; }

# recalls FILE L3 USER: writes the stream of a member that has l1 and l2 as alive and l3 in this state, 02 for dead,
# and this user state.
recalls() {
    {
        bytes "0683a44a6f696ec2a54e6f64657303ac5573657253746174654c656ecd$(printf '%04x' $((${#3} / 2)))"
        bytes 87a441646472a47f000401ab496e6361726e6174696f6e01a44d657461c0a44e616d65a26c31a4506f7274cda8dba5537461746500a356736ea6010502000000
        bytes 87a441646472a47f000402ab496e6361726e6174696f6e01a44d657461c0a44e616d65a26c32a4506f7274cdb2a1a5537461746500a356736ea6010502000000
        bytes "87a441646472a47f000403ab496e6361726e6174696f6e01a44d657461c0a44e616d65a26c33a4506f7274cd8343a55374617465$2a356736ea6010502000000"
        bytes "$3"
    } > "$1"
}

# has_l3 CASE STATE: the last run printed the table of such a member, with l3 in this state.
has_l3() {
    prints "$1" 0 \
        'NAME  ADDRESS          STATE  INC' \
        'l1    127.0.4.1:43227  alive  1' \
        'l2    127.0.4.2:45729  alive  1' \
        "l3    127.0.4.3:33603  $2$([ "$2" = alive ] || echo ' ')  1"
}

for name in all few none left next; do
    recalls "$name.bin" 02 "$(state $name)"
done
member closes all.bin
all=$port
run pull "127.0.0.1:$all"
has_l3 'a dead member that left, as Serf has it' left
member closes left.bin
left=$port
run pull "127.0.0.1:$left"
has_l3 'a live member that Serf has as left' left
member closes none.bin
run pull "127.0.0.1:$port"
has_l3 'a dead member that did not leave' dead
run pull --events "127.0.0.1:$port"
prints 'no events' 0 'LTIME  EVENT  PAYLOAD'
recalls risen.bin 00 "$(state all)"
member closes risen.bin
run pull "127.0.0.1:$port"
has_l3 'a member that is back after it left' alive

# not Serf's: Alertmanager's protobuf, another type, a state that is cut off, one with a byte behind it, one whose
# members that left are no list, and none
whole=$(state all)
for user in 0a0b0a036e666c12040a020801 "03${whole#02}" "${whole%??}" "${whole}00" 0281ab4c6566744d656d6265727302 02 ''; do
    recalls foreign.bin 02 "$user"
    member closes foreign.bin
    run pull "127.0.0.1:$port"
    has_l3 "a user state that is not Serf's: $(echo "$user" | cut -c 1-30), ${#user}" dead
    run pull --events "127.0.0.1:$port"
    prints "the events of a user state that is not Serf's: $(echo "$user" | cut -c 1-30), ${#user}" 0 'LTIME  EVENT  PAYLOAD'
done
# an array in the order of Serf's struct, and left members with a name that is too long for a member
recalls array.bin 02 "02960580dc0002da0401$(printf '%02050d' 0)a26c3301c001"
member closes array.bin
run pull "127.0.0.1:$port"
has_l3 'a name that left and is too long' left

sixty_three=$(printf '%063d' 0 | tr 0 a)
# row LTIME EVENT PAYLOAD: prints a row of the table of events, in which the longest name has ten characters.
row() { printf '%-5s  %-10s  %s\n' "$1" "$2" "$3" | sed 's/ *$//'; }
{
    row LTIME EVENT PAYLOAD
    row 2 first "'x'"
    row 3 backup ''
    row 3 deploy "'v1'"
    row 3 deploy "'v2'"
    row 7 greet "'grüß dich'"
    row 7 roll%20out "'it%27s 5%25 of C:%5Ctmp'"
    row 10 bytes 00ff10
    row 10 lines 610a62
    row 11 data "$(printf '%064d' 0 | sed 's/0/ab/g').."
    row 11 edge "'${sixty_three}a'"
    row 11 long "'${sixty_three}a'.."
    row 11 wide "'$sixty_three'.."
} > wanted
run pull --events "127.0.0.1:$all"
cp out found
check 'the events that a member remembers'
ends 'the status of the events of one member' 0

member closes few.bin
few=$port
run pull --events "127.0.0.1:$all" "127.0.0.1:$few" "127.0.0.1:$left"
ends 'members that differ about a member that left' 1
tr -s ' ' < out | grep -v '^11 ' > found
cat > wanted <<'END_OF_EVENTS'
LTIME EVENT PAYLOAD AT
2 first 'x' 1 of 3
3 backup 3 of 3
3 deploy 'v1' 3 of 3
3 deploy 'v2' 3 of 3
7 greet 'grüß dich' 1 of 3
7 roll%20out 'it%27s 5%25 of C:%5Ctmp' 1 of 3
8 restart 2 of 3
10 bytes 00ff10 1 of 3
10 lines 610a62 1 of 3
END_OF_EVENTS
check 'the events that several members remember'
run pull --events "127.0.0.1:$left" "127.0.0.1:$closed"
sed -i "s/:$closed /:CLOSED /" out
prints_text="swimwatch: 127.0.0.1:$closed: cannot connect (Connection refused (os error 111)); is a member listening there?"
printf '%s\n' "$prints_text" > wanted_err
cat > wanted <<'END_OF_EVENTS'
LTIME  EVENT    PAYLOAD  AT
3      backup            1 of 1
3      deploy   'v1'     1 of 1
3      deploy   'v2'     1 of 1
8      restart           1 of 1
127.0.0.1:CLOSED no answer (connection refused)
END_OF_EVENTS
case_name='the events of a member, and one that is silent' wanted_status=1
compare
run pull "127.0.0.1:$all" "127.0.0.1:$left"
ends 'members that agree on a member that left' 0
"$program" pull --events --json "127.0.0.1:$all" "127.0.0.1:$few" 2> err | python3 -c '
import json, sys
for line in sys.stdin:
    o = json.loads(line)
    if o["user_event"] in ("backup", "bytes", "restart", "wide", "lines", "roll%20out"):
        print(sorted(o) == sorted(["host", "ltime", "user_event", "payload"] + ["payload_text"] * ("payload_text" in o)),
              o["host"], o["ltime"], o["user_event"], o["payload"], ascii(o.get("payload_text")))' > found
cat > wanted <<END_OF_EVENTS
True 127.0.0.1:$all 3 backup  ''
True 127.0.0.1:$all 7 roll%20out 69742773203525206f6620433a5c746d70 "it's 5% of C:\\\\tmp"
True 127.0.0.1:$all 10 bytes 00ff10 None
True 127.0.0.1:$all 10 lines 610a62 None
True 127.0.0.1:$all 11 wide $(printf '%063d' 0 | sed 's/0/61/g')c3a462 '$sixty_three\\xe4b'
True 127.0.0.1:$few 3 backup  ''
True 127.0.0.1:$few 8 restart  ''
END_OF_EVENTS
check 'the objects of events'
refused 'a dump of events' 2 'swimwatch: --dump cannot be used with --events' pull --dump --events web-1
run diff left.bin examples/three.bin
prints 'what changed since a stream with a member that left' 1 \
    'l3 left 127.0.4.3:33603 -> alive 127.0.4.3:33603'

# followed FILE: the output of pull --every, with the time, the port and the duration left out.
followed() { sed -E "s/^[-0-9]*T[0-9:.]*Z /TIME /; s/:$port/:PORT/g; s/[0-9]+ bytes, [0-9]+\\.[0-9] ms/N bytes, T ms/" "$1"; }
member closes few.bin,left.bin,nothing,next.bin,next.bin
run pull --every 200ms --count 5 --metrics page.prom "127.0.0.1:$port"
followed out > found
mv found out
prints 'a member that left and events that are new' 0 \
    'TIME 127.0.0.1:PORT answers: 3 members, N bytes, T ms' \
    'TIME l3 dead -> left 1 (at 127.0.0.1:PORT)' \
    'TIME 127.0.0.1:PORT no answer (closed without an answer)' \
    'TIME 127.0.0.1:PORT answers: 3 members, N bytes, T ms' \
    'TIME event deploy 00 9 (at 127.0.0.1:PORT)' \
    "TIME event deploy 'v3' 9 (at 127.0.0.1:PORT)"
sed -E "s/:$port/:PORT/" page.prom | grep -E '^swimwatch_(members|member_down|changes_total)' > found
cat > wanted <<'END_OF_METRICS'
swimwatch_members{member="127.0.0.1:PORT",state="alive"} 2
swimwatch_members{member="127.0.0.1:PORT",state="suspect"} 0
swimwatch_members{member="127.0.0.1:PORT",state="dead"} 0
swimwatch_members{member="127.0.0.1:PORT",state="left"} 1
swimwatch_members{member="127.0.0.1:PORT",state="forgotten"} 0
swimwatch_changes_total{name="l3",to="left"} 1
END_OF_METRICS
check 'the metrics of a member that left'
member closes few.bin,left.bin,next.bin
run pull --events --every 200ms --count 4 --metrics page.prom "127.0.0.1:$port"
followed out > found
mv found out
prints 'only events that are new' 0 \
    'TIME 127.0.0.1:PORT answers: 3 members, N bytes, T ms' \
    'TIME event deploy 00 9 (at 127.0.0.1:PORT)' \
    "TIME event deploy 'v3' 9 (at 127.0.0.1:PORT)"
grep '^swimwatch_changes_total' page.prom > found
echo 'swimwatch_changes_total{name="l3",to="left"} 1' > wanted
check 'what changed is counted when only events are shown'
member closes none.bin,next.bin
"$program" pull --json --events --every 200ms --count 2 "127.0.0.1:$port" 2> err | python3 -c '
import json, sys
for line in sys.stdin:
    o = json.loads(line)
    print(sorted(o), o.get("ltime"), o.get("user_event"), o.get("payload"), o.get("payload_text"))' > found
cat > wanted <<'END_OF_EVENTS'
['bytes', 'host', 'members', 'microseconds', 'time'] None None None None
['host', 'ltime', 'payload', 'payload_text', 'time', 'user_event'] 8 restart  
['host', 'ltime', 'payload', 'time', 'user_event'] 9 deploy 00 None
['host', 'ltime', 'payload', 'payload_text', 'time', 'user_event'] 9 deploy 7633 v3
END_OF_EVENTS
check 'the objects of events that are new'

# ---- names that Serf knows, and of which the table has no record

# Serf's state few, in which it knows l4, l5 and a name that no member can have too, and l5 left
sum() {
    state few | sed "s/ab4c6566744d656d6265727390/ab4c6566744d656d6265727391a26c35/
        s/ac5374617475734c54696d657381a26c3303/ac5374617475734c54696d657384a26c3303a26c3404a26c3505da0401$(printf '%02050d' 0)01/"
}
recalls lost.bin 02 "$(sum)"
member closes lost.bin
lost=$port
run pull "127.0.0.1:$lost"
prints 'a name that Serf knows and the table does not have' 1 \
    'NAME  ADDRESS          STATE  INC' \
    'l1    127.0.4.1:43227  alive  1' \
    'l2    127.0.4.2:45729  alive  1' \
    'l3    127.0.4.3:33603  dead   1' \
    'NAME  ADDRESS  STATE      INC' \
    'l4    -        forgotten  -'
run pull "127.0.0.1:$lost" "127.0.0.1:$few"
prints 'a name that one of two members forgot' 1 \
    'NAME  ADDRESS          STATE  INC  AGREE' \
    'l1    127.0.4.1:43227  alive  1    2 of 2' \
    'l2    127.0.4.2:45729  alive  1    2 of 2' \
    'l3    127.0.4.3:33603  dead   1    2 of 2' \
    'NAME  ADDRESS  STATE      INC  AGREE' \
    'l4    -        forgotten  -    1 of 2'
"$program" pull --json "127.0.0.1:$lost" 2> err | tail -n 1 > found
echo "{\"host\":\"127.0.0.1:$lost\",\"name\":\"l4\",\"state\":\"forgotten\"}" > wanted
check 'the object of a forgotten name'
run diff lost.bin "127.0.0.1:$few"
ends 'a forgotten name is in no side' 0

# down FILE: prints the names that are down on a page of metrics, with their states, and what was left out.
down() { sed -nE 's/^swimwatch_member_down\{member="[^"]*",name="([^"]*)",state="([^"]*)"\} 1$/\1 \2/p; s/^(swimwatch_surplus.*)/\1/p' "$1"; }
# changes: prints the lines of the last run that tell of changes, without their time and member.
changes() { followed out | grep -v ' answers: \| no answer ' | sed 's/^TIME //; s/ (at .*//'; }

# l3 was dead and is in no table; it is back, dead and in no table again; it left
recalls here.bin 00 "$(state none)"
member closes few.bin,nobody.bin,nobody.bin
run pull --every 100ms --count 3 --metrics page.prom "127.0.0.1:$port"
changes > found
printf '%s\n' 'l1 alive -> absent' 'l2 alive -> absent' 'l3 dead -> forgotten' > wanted
check 'a dead member that the table no longer has is told as forgotten'
ends 'a member that is forgotten, and no other is down' 1
down page.prom > found
printf '%s\n' 'l3 forgotten' 'swimwatch_surplus_total 0' > wanted
check 'the metrics of a dead member that the table no longer has'
grep '^swimwatch_changes_total.*"l3"' page.prom > found
echo 'swimwatch_changes_total{name="l3",to="forgotten"} 1' > wanted
check 'how often a member was forgotten'
member closes few.bin,nobody.bin,here.bin,few.bin,nobody.bin,left.bin,nobody.bin
run pull --every 100ms --count 7 --metrics page.prom "127.0.0.1:$port"
changes | grep l3 > found
printf '%s\n' 'l3 dead -> forgotten' 'l3 forgotten -> alive 1 at 127.0.4.3:33603' 'l3 alive -> dead 1' \
    'l3 dead -> forgotten' 'l3 forgotten -> left 1 at 127.0.4.3:33603' 'l3 left -> absent' > wanted
check 'a forgotten member that is back, and one that left'
ends 'nothing is down any more' 0
down page.prom > found
echo 'swimwatch_surplus_total 0' > wanted
check 'the metrics after a forgotten member was back and left'
recalls gone.bin 02 "$(sum | sed 's/9[01]a26c35/92a26c34a26c35/')"
member closes lost.bin,gone.bin
run pull --every 100ms --count 2 --metrics page.prom "127.0.0.1:$port"
changes > found
echo 'l4 forgotten -> left' > wanted
check 'a forgotten member that was made to leave'
member closes few.bin,nobody.bin,nothing
run pull --every 100ms --count 4 --metrics page.prom "127.0.0.1:$port"
down page.prom > found
printf '%s\n' 'l3 forgotten' 'swimwatch_surplus_total 0' > wanted
check 'a forgotten member is down while the member that is asked is silent'
member closes few.bin,nobody.bin
run pull --every 400ms --count 4 --forget 1s --metrics page.prom "127.0.0.1:$port"
changes | grep l3 > found
printf '%s\n' 'l3 dead -> forgotten' 'l3 forgotten -> absent' > wanted
check 'a member is forgotten for as long as --forget says'
member closes few.bin,nobody.bin
"$program" pull --json --every 100ms --count 2 "127.0.0.1:$port" 2> err | python3 -c '
import json, sys
for line in sys.stdin:
    o = json.loads(line)
    if o.get("name") == "l3":
        print(o["before"]["state"], o["before"]["incarnation"], o["after"])' > found
echo "dead 1 {'state': 'forgotten'}" > wanted
check 'the object of a member that is forgotten'

# a member that invents 6,000 other names each time
python3 - <<'END_OF_STATES'
import struct
for part in range(3):
    names = b"".join(b"\xa5" + b"%05d" % n + b"\x01" for n in range(part * 6000, part * 6000 + 6000))
    user = b"\x02\x96\x01\xde" + struct.pack(">H", 6000) + names + b"\x90\x01\x90\x01"
    head = b"\x06\x83\xa4Join\xc2\xa5Nodes\x00\xacUserStateLen\xce" + struct.pack(">I", len(user))
    open("invented%d.bin" % part, "wb").write(head + user)
END_OF_STATES
member closes invented0.bin,invented1.bin,invented2.bin
run pull --every 100ms --count 3 --metrics page.prom "127.0.0.1:$port"
down page.prom | awk '/ forgotten$/ { count++ } END { print count }' > found
echo 10000 > wanted
check 'no more than 10,000 forgotten names are kept'
# In the second round 6,000 names are new and 4,000 of 6,000 are kept: 2,000 are left out. In the third 4,000 of 10,000
# are kept: 6,000 are left out. 14,000 names changed in all, of which 10,000 are counted, and 4,000 are left out.
grep '^swimwatch_surplus_total' page.prom > found
echo 'swimwatch_surplus_total 12000' > wanted
check 'how many names were left out'

# states of 300,000 events, of which the second has one more at the front, and one whose count claims more than it has
python3 - <<'END_OF_STATES'
import struct
def group(number):
    return b"\x92\x01\x91\x92\xa4" + struct.pack(">I", number) + b"\xa0"
def state(first, last):
    body = b"".join(group(number) for number in range(first, last))
    return b"\x02\x96\x01\x80\x90\x01\xdd" + struct.pack(">I", last - first) + body + b"\x01"
def write(name, user):
    head = b"\x06\x83\xa4Join\xc2\xa5Nodes\x00\xacUserStateLen\xce" + struct.pack(">I", len(user))
    open(name, "wb").write(head + user)
write("many.bin", state(0x61616162, 0x61616162 + 300000))
write("more.bin", state(0x61616161, 0x61616162 + 300000))
write("claims.bin", b"\x02\x96\x01\x80\x90\x01\xdd\xff\xff\xff\xff\x01")
END_OF_STATES
member closes many.bin,more.bin
began=$(date +%s)
run pull --every 100ms --count 2 --timeout 60 "127.0.0.1:$port"
took=$(($(date +%s) - began))
tail -n 1 out | followed /dev/stdin > found
echo 'TIME event aaaa 1 (at 127.0.0.1:PORT)' > wanted
check 'one of many events is new'
count 'many events take little time' "$([ "$took" -lt 60 ] && [ "$(wc -l < out)" -eq 2 ] || echo "; $took s, $(wc -l < out) lines")"
member closes claims.bin
run pull --events "127.0.0.1:$port"
prints 'a state that claims more events than it has' 0 'LTIME  EVENT  PAYLOAD'
if can_refuse; then
    each_refused 'pull of events' /dev/null pull --events "127.0.0.1:$all" "127.0.0.1:$few"
    each_refused 'pull of events as objects' /dev/null pull --events --json "127.0.0.1:$all"
    each_refused 'pull of a forgotten name' /dev/null pull "127.0.0.1:$lost" "127.0.0.1:$few"
fi

# ---- the events of live members

if command -v serf > /dev/null && [ -z "${MUTANT:-}" ]; then
    # in_state STATE: prints how many members are in this state, as the first agent has them.
    in_state() { serf members -rpc-addr=127.0.21.1:17373 2> /dev/null | grep -cw "$1"; }
    # until_in STATE NUMBER: waits until so many are, a minute at most.
    until_in() {
        waited=0
        while [ "$(in_state "$1")" != "$2" ] && [ "$waited" -lt 120 ]; do
            sleep 0.5
            waited=$((waited + 1))
        done
    }
    for n in 1 2 3 4; do
        serf agent -node="ev-$n" -bind="127.0.21.$n:17946" -rpc-addr="127.0.21.$n:17373" \
            -join=127.0.21.1:17946 -retry-join=127.0.21.1:17946 > "event$n.log" 2>&1 &
        members="$members $!"
        [ "$n" != 3 ] || third=$!
        sleep 1
    done
    fourth=$!
    until_in alive 4
    serf event -rpc-addr=127.0.21.1:17373 deploy v1 > event.log 2>&1
    serf event -rpc-addr=127.0.21.2:17373 -coalesce=false 'roll out' >> event.log 2>&1
    sleep 2
    run pull --events 127.0.21.1:17946 127.0.21.2:17946
    sed -E 's/^[0-9]+ +/N /' out | tr -s ' ' > found
    cat > wanted <<'END_OF_EVENTS'
LTIME EVENT PAYLOAD AT
N deploy 'v1' 2 of 2
N roll%20out 2 of 2
END_OF_EVENTS
    check 'the events that two live members remember'
    # memberlist has a member that was killed as dead; Serf has it as left when somebody says so
    kill -KILL "$third" "$fourth"
    until_in failed 2
    run pull 127.0.21.1:17946
    awk '$1 == "ev-3" { print $3 }' out > found
    echo dead > wanted
    check 'a live member that was killed'
    serf force-leave -rpc-addr=127.0.21.1:17373 ev-3 >> event.log 2>&1
    until_in left 1
    run pull 127.0.21.1:17946
    awk '$1 == "ev-3" { print $3 }' out > found
    echo left > wanted
    check 'a live member that was killed and was made to leave'
    # memberlist drops the other one from its table in the meantime, and Serf knows it
    waited=0
    while [ "$waited" -lt 60 ]; do
        run pull 127.0.21.1:17946
        awk '$1 == "ev-4" { print $3 }' out > found
        ! grep -q dead found || { sleep 1; waited=$((waited + 1)); continue; }
        break
    done
    echo forgotten > wanted
    check 'a live member that was killed and is in no table any more'
    in_state failed > found
    echo 1 > wanted
    check 'and Serf has it as failed'
    ends 'the status of a live member that was forgotten' 1
    serf force-leave -rpc-addr=127.0.21.1:17373 ev-4 >> event.log 2>&1
    until_in left 2
    run pull 127.0.21.1:17946
    grep ev-4 out > found
    : > wanted
    check 'a live member that was forgotten and was made to leave'
else
    echo 'skipped: the events of live members: serf is not installed'
fi

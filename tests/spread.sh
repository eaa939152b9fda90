# When swimwatch tells that members had news. tests/watched runs it in its folder, after detected.sh. What is expected
# comes from the agents' own logs, from what was done to the cluster, and from a search of the frames for the bytes of a
# message. tests/frames.py writes captures.
# shellcheck shell=sh disable=SC2154

# moments: of lines of JSON, which member had which news in which second, as far as an agent's log tells: alive at the
# first incarnation, and deaths.
moments() {
    python3 -c '
import datetime, json, sys
for line in sys.stdin:
    news = json.loads(line)
    begun = datetime.datetime.fromisoformat(news["time"][:-1])
    for member, micros in news["reached_us"].items():
        had = begun + datetime.timedelta(microseconds=micros)
        if news["event"] == "dead" or news["event"] == "alive" and news["incarnation"] == 1:
            print(member, news["event"], news["name"], had.strftime("%H:%M:%S"))'
}

# spread_rows WORD..: the rows of news without the header, each text by one space.
spread_rows() {
    "$program" spread "$@" 2> err | sed 1d | tr -s ' '
}

if has_xz; then
    for each in hang kill onewayin restart; do
        rm -rf members_of
        python3 -m tarfile -e "$causes/$each.tar.xz" members_of > err 2>&1
        rows_of heard "$each" | sort > wanted
        # a death that was refuted before it came is heard too, and no log has it
        "$program" spread --json members_of/web-*.pcap 2> err | moments | grep -xFf wanted | sort > found
        check "when the members of $each had news, by the agents' logs"
    done

    # nothing reached web-3: it did not get the suspicion of itself. Without its capture only the sending is known
    python3 -m tarfile -e "$causes/onewayin.tar.xz" members_of > err 2>&1
    {
        spread_rows --member web-3 members_of/web-*.pcap
        spread_rows --member web-3 members_of/web-[1245].pcap
    } | grep 'web-3 suspect 1' | cut -d ' ' -f 7-9,14 > found
    printf '%s\n' '4 of 5 web-3' '5 of 5 -' > wanted
    check 'what was lost on the way to a member was not heard by it'

    # the UDP payloads with a Dead about web-3, by their bytes: 16, of which each is in two captures. The first are from
    # web-5 to web-1 at 28.553606, to web-3 at .553776 and to web-2 at .553806; from web-1 to web-4 at .554291; and the
    # next to web-4 from web-2 at .655380
    python3 -m tarfile -e "$causes/kill.tar.xz" members_of > err 2>&1
    spread_rows --member web-3 --from 21:16:28 members_of/web-*.pcap > found
    echo '2026-11-26T21:16:28.553606Z web-3 dead 1 web-5 16 4 of 4 0.0 0.7 0.7 web-4 -' > wanted
    check 'a death, by the packets with its bytes'
    python3 - members_of/web-4.pcap <<'END'
import struct, sys
data = open(sys.argv[1], "rb").read()
with open("lossy.pcap", "wb") as out:
    out.write(data[:24])
    at = 24
    while at < len(data):
        seconds, micros, length, _ = struct.unpack_from("<IIII", data, at)
        if (seconds, micros) != (1795727788, 554291):
            out.write(data[at:at + 16 + length])
        at += 16 + length
END
    for each in members_of/web-4.pcap lossy.pcap; do
        "$program" spread --json --member web-3 --from 21:16:28 members_of/web-[1235].pcap "$each" 2> err |
            grep -o '"reached_us":.*}' | cut -d , -f 1-4
    done > found
    printf '"reached_us":{"web-1":0,"web-2":200,"web-4":%s,"web-5":0}\n' 685 101774 > wanted
    check 'a packet that is lost before the capture of its member: the next one tells'

    # a late capture: tables still say that web-3 is dead, which is no news
    spread_rows --json --from 21:16:40 members_of/web-1.pcap > found
    : > wanted
    check 'a death that only tables tell is no news'
    run spread --member web-9 members_of/web-1.pcap
    grep -c . out > found
    head -n 1 err >> found
    printf '%s\n' 1 'swimwatch: nothing was heard about the --member name' > wanted
    check 'news of a member that nobody names'
fi

# memberlist's own Dead of f5, in examples/memberlist.hex, thrice in one capture and twice in another, which begins later;
# and 6 seconds later once more. No member is known
python3 - "$(sed -n 4p examples/memberlist.hex)" <<'END'
import sys
from frames import *
dead = bytes.fromhex(sys.argv[1])
said = lambda: packet("127.0.3.1", 17, udp(7946, dead))
pcap("one.pcap", [(at, said()) for at in (0, 200000, 400000)])
pcap("two.pcap", [(at, said()) for at in (200100, 400100, 6400000)])
END
spread_rows one.pcap two.pcap | cut -d ' ' -f 2-4,6-14 > found
echo 'f5 dead 2 4 0 of 0 - - - - -' > wanted
check 'a packet that two captures have is sent once'

# 65,536 pieces of news are followed
python3 - <<'END'
from frames import *
dead = lambda n: b"\x05\x83\xa4From\xa1b\xabIncarnation\x01\xa4Node\xa5%05d" % n
pcap("much.pcap", ((n, packet("127.0.3.1", 17, udp(7946, dead(n)))) for n in range(65539)))
END
run spread much.pcap
sed 1d out | wc -l > found
grep -o '[0-9]* claims left out because there was too much news' err >> found
printf '%s\n' 65536 '3 claims left out because there was too much news' > wanted
check 'so many pieces of news that some are left out'
rm -f much.pcap

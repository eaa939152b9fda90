# Why swimwatch says that members were suspected. tests/watched runs it in its folder, after tests/detected.sh. What is
# expected is what was done to the clusters of captures/causes.
# shellcheck shell=sh disable=SC2154

# told FILE..: prints each cause once: whom it is about, and the cause
told() {
    "$program" why --json "$@" 2> err | python3 -c '
import json, sys
for line in sys.stdin:
    told = json.loads(line)
    if not told["cause"]:
        continue
    if any(isinstance(of, list) for of in told["of"]):
        print("|".join(sorted(",".join(sorted(of)) for of in told["of"])), told["cause"])
    else:
        print(",".join(sorted(told["of"])), told["cause"])
' | sort -u
}

# without_answer seen|unseen FILE..: prints the probes of suspects that had no answer: by whom, the number, of whom
without_answer() {
    kind=$1
    shift
    "$program" why --json "$@" 2> err | python3 -c '
import json, sys
for line in sys.stdin:
    told = json.loads(line)
    for probe in told.get("probes", []):
        if (probe["outcome"] == "unseen") == (sys.argv[1] == "unseen"):
            print(probe["by"], probe["seq"], told["name"])
' "$kind" | sort
}

# told_later FILE..: prints what is told of a suspicion and began after it ended
told_later() {
    "$program" why --json "$@" 2> err | python3 -c '
import json, re, sys
for line in sys.stdin:
    told = json.loads(line)
    end = told.get("dead") or told.get("refuted")
    for reason in told["evidence"]:
        moment = re.search(r"\d\d:\d\d:\d\d\.\d+", reason)
        if end and moment and end["time"][11:26] < moment[0]:
            print(told["name"], end["time"], reason)
'
}

# caused NAME: the causes that are told of the cluster, by each set of captures
caused() {
    name=$1
    rm -rf members_of
    python3 -m tarfile -e "$causes/$name.tar.xz" members_of > err 2>&1
    for captures in all one; do
        case $captures in
            all) set -- members_of/web-*.pcap ;;
            one) set -- members_of/web-1.pcap ;;
        esac
        rows_of causes "$name $captures" | sort > wanted
        told "$@" > found
        check "why members of $name were suspected, by the captures of $captures"
        : > wanted
        told_later "$@" > found
        check "no suspicion of $name is explained by what began after it, by the captures of $captures"
    done
}

if has_xz > /dev/null; then
    for each in accuser delay hang hang4 kill kill4 loss50in onewayin partition restart rollterm serfmsgs; do
        caused "$each"
    done

    # they were killed, so no suspicion is another member's fault
    for each in kill4 rollterm; do
        rm -rf members_of
        python3 -m tarfile -e "$causes/$each.tar.xz" members_of > err 2>&1
        rows_of causes "$each all" | sed 's/^[^ ]*/&: &/' | sort > wanted
        "$program" why --json members_of/web-*.pcap 2> err | python3 -c '
import json, sys
for line in sys.stdin:
    told = json.loads(line)
    if "name" in told:
        print(told["name"] + ":", *told["of"], told["cause"])
' | sort -u > found
        check "each suspicion of $each is explained by what was done to its member"
    done

    # each probe of which only indirect pings tell in web-1's capture is one that the captures of all have
    for each in accuser hang kill onewayin partition; do
        python3 -m tarfile -e "$causes/$each.tar.xz" members_of > err 2>&1
        without_answer unseen members_of/web-1.pcap > found
        without_answer seen members_of/web-*.pcap > all
        grep -Fxf all found > wanted
        [ -s found ] || echo 'one at least' > wanted
        check "the probes of $each that web-1 was asked for"
        rm -rf members_of
    done

    # a second agent began with the name of web-3, which went on
    rm -rf members_of
    python3 -m tarfile -e "$causes/dup.tar.xz" members_of > err 2>&1
    : > wanted
    "$program" why members_of/web-1.pcap > found 2> err
    check 'no restart is told where a second agent takes a name'

    # two clusters with the same names, each agent with a counter of its own; web-3 of one was killed
    echo 'web-3 process gone' > wanted
    told captures/ports/all.pcap > found
    check 'why in a capture of two clusters'
    : > wanted
    "$program" why captures/ports/all.pcap 2> err | grep 'no suspicion of its own' > found
    check 'no restart is told of members of two clusters'

    # nothing was done to it
    python3 -m tarfile -e "$causes/steady.tar.xz" members_of > err 2>&1
    : > wanted
    "$program" why members_of/web-*.pcap > found 2> err
    check 'nothing is told of a quiet cluster'

    # the log of web-5: "Suspect web-3 has failed, no acks received" at 21:16:24, "Marking web-3 as failed" at 21:16:28
    python3 -m tarfile -e "$causes/kill.tar.xz" members_of > err 2>&1
    "$program" why members_of/web-*.pcap 2> err |
        awk 'NR == 1 { print substr($1, 12, 8), $2, $5, substr($6, 1, 8), $8 }' > found
    echo '21:16:24 web-3 dead 21:16:28 web-5,' > wanted
    check 'when a member was suspected and declared dead, as the logs of the agents say'

    "$program" why members_of/web-1.pcap > wanted 2> err
    "$program" why web-3 members_of/web-1.pcap > found 2> err
    check 'a first word that is no file is a name'
    "$program" why --member web-3 members_of/web-1.pcap > found 2> err
    check 'the same with --member'
    : > wanted
    "$program" why web-2 members_of/web-1.pcap > found 2> err
    check 'nothing is told of a member that nobody suspects'
    "$program" why web-9 members_of/web-1.pcap 2>&1 | head -n 1 > found
    echo 'swimwatch: nothing was heard about a member of that name, and no file has it' > wanted
    check 'a name that nobody has'
    "$program" why --from 21:17 members_of/web-1.pcap > found 2> err
    : > wanted
    check 'a suspicion before --from is not told'

    # lines of serf-5.log of this cluster; the last is of another one
    cat > serf-5.log << 'EOF'
    2026/11/26 21:16:08 [INFO] serf: EventMemberJoin: web-5 10.77.51.15
    2026/11/26 21:16:23 [DEBUG] memberlist: Failed ping: web-3 (timeout reached)
    2026/11/26 21:16:24 [INFO] memberlist: Suspect web-3 has failed, no acks received
    2026/11/26 21:16:28 [INFO] memberlist: Marking web-3 as failed, suspect timeout reached (2 peer confirmations)
    2026/11/26 21:16:29 [DEBUG] memberlist: Stream connection from=10.77.11.11:42314
    2026/11/26 21:19:18 [DEBUG] memberlist: Failed ping: web-3 (timeout reached)
EOF
    "$program" why --agent-log serf-5.log members_of/web-*.pcap 2> err | grep '^serf' > found
    cat > wanted << 'EOF'
serf-5.log:2: 2026-11-26T21:16:23Z failed ping web-3: captured
serf-5.log:3: 2026-11-26T21:16:24Z suspect web-3: captured
serf-5.log:4: 2026-11-26T21:16:28Z marked as failed web-3: captured
serf-5.log:6: 2026-11-26T21:19:18Z failed ping web-3: not captured
EOF
    check 'which lines of the log of an agent the captures confirm'

    # a suspicion is told while a pipe goes on, half a minute after it was over
    mkfifo growing
    "$program" why - < growing > found 2> err &
    writer=$!
    {
        cat "$basic"
        for _ in 1 2 3 4 5 6 7 8 9 10 11 12 13 14 15 16 17 18 19 20; do
            [ -s found ] || sleep 0.3
        done
        awk '/suspected/ { print $2, $5 }' found > early
    } > growing
    wait "$writer"
    cp early found
    echo 'web-5 dead' > wanted
    check 'a suspicion that is told before a pipe ends'
fi

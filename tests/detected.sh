# What swimwatch tells of the probes of members. tests/watched runs it in its folder. Each archive of captures/causes has
# the captures of the five members of a cluster of Serf agents of which one fault is known; what is expected comes from
# the agents' own logs, and from what was done to the cluster.
# shellcheck shell=sh disable=SC2154

causes=captures/causes

# has_xz: the case is skipped, with a word, if the archives cannot be opened.
has_xz() {
    python3 -c 'import lzma' 2> err && return
    echo 'python3 with lzma is missing, so what is told of probes was not tried'
    return 1
}

# rows_of FILE NAME: prints the rows of a cluster
rows_of() {
    sed -n "s/^$2 //p" "$causes/$1"
}

# detected NAME
detected() {
    rm -rf members_of
    python3 -m tarfile -e "$causes/$1.tar.xz" members_of > err 2>&1
    rows_of failed "$1" > wanted
    "$program" probes members_of/web-*.pcap 2> err |
        awk 'NR > 1 && $5 + $6 + $7 + $8 { print $1, $2, $5 + $6 + $7 + $8, $8 }' > found
    check "the failed pings of $1 are those of the agents' logs"
    rows_of refuted "$1" > wanted
    "$program" health members_of/web-*.pcap 2> err | awk 'NR > 1 && $10 { print $1, $10 }' > found
    check "the refutations of $1 are those of the agents' logs"
    rows_of explained "$1" > explained
    while read -r way words; do
        option=$([ "$way" = to ] && echo --target || echo --prober)
        "$program" probes "$option" web-3 --json members_of/web-*.pcap 2> err |
            grep -o '"of":\[[^]]*\]' | sort -u > found
        echo "\"of\":[\"$words\"]" > wanted
        check "of the pings $way web-3 of $1 without an answer only the truth is left"
    done < explained
}

if has_xz; then
    for each in accuser delay hang kill loss50in onewayin restart steady; do
        detected "$each"
    done
    # without the member's own capture less is known, and still nothing false
    python3 -m tarfile -e "$causes/kill.tar.xz" members_of > err 2>&1
    "$program" probes --json --target web-3 members_of/web-1.pcap 2> err |
        grep -o '"of":\[[^]]*\]' > found
    echo '"of":["refused"]' > wanted
    check 'a refusal is seen by who sent the ping, too'
    run probes --prober web-9 members_of/web-1.pcap
    grep -c . out > found
    echo 1 > wanted
    check 'a prober that nobody names'
    run probes --probe-timeout soon members_of/web-1.pcap
    printf '%s\n' 'swimwatch: --probe-timeout needs a time like 500ms' > wanted
    cp err found
    check 'a timeout that is no time'
fi

# loop: an exchange of the tables of two dumps over a socket, and what the first one then lists.
# shellcheck shell=sh disable=SC2154

# loops FIRST SECOND LINE..
loops() {
    case_name="loop $1 $2"
    run loop "$1.bin" "$2.bin"
    shift 2
    prints "$case_name" 0 "$@"
}

loops p q "$line_a" "$line_b"
loops q p "$line_a" "$line_b"
loops p p "$line_a"
loops p r "$line_a" "$line_b"
loops r p "$line_a" "$line_b"
loops p t 'a suspect 0 0/7f000001/7946//'
loops t p 'a suspect 0 0/7f000001/7946//'
loops p v "$line_v"
loops v p "$line_v"
loops c r "$line_a" "$line_b" "$line_c"
loops none p "$line_a"
loops p none "$line_a"
loops none none
loops joining user "$line_a"
loops others p "$line_a" 'b confirm 2 -' "$line_c"

# Two dumps of running clusters.
examples=$here/../examples
run list "$examples/forty.bin" "$examples/three.bin"
cp out wanted_forty.txt
run loop "$examples/forty.bin" "$examples/three.bin"
prints_file 'loop of two dumps of running clusters lists what list does' wanted_forty.txt
run loop "$examples/three.bin" "$examples/forty.bin"
prints_file 'loop of two dumps of running clusters, in the other order' wanted_forty.txt

# The canonical dump of each table has at most 16,384 bytes.

# suspects FIRST LAST: prints the records of suspects at incarnation 0 with names of three digits, 53 bytes each.
suspects() {
    awk -v first="$1" -v last="$2" 'BEGIN {
        for (i = first; i <= last; i++)
            printf "87a441646472a0ab496e6361726e6174696f6e00a44d657461a0a44e616d65a33%d3%d3%d%s",
                i / 100, i / 10 % 10, i % 10, "a4506f727400a5537461746501a356736ea0"
    }'
}

# measures FILE BYTES: the file has this many bytes.
measures() {
    length=$(wc -c < "$1")
    if [ "$length" -eq "$2" ]; then
        count "$1 has $2 bytes" ''
    else
        count "$1 has $2 bytes" "; it has $length"
    fi
}

# too_large FILE: the file is refused as either argument.
too_large() {
    run loop "$1" p.bin
    refuses "loop $1 p.bin" 3 "swimtab: $1: fault 28 TooLargeForLoop"
    run loop p.bin "$1"
    refuses "loop p.bin $1" 3 "swimtab: $1: fault 28 TooLargeForLoop"
}

bytes "$(dump cd0190 "$(suspects 0 399)")" > big.bin
measures big.bin 21231
too_large big.bin
bytes "$(dump cd0135 "$(suspects 0 308)")" > larger.bin
measures larger.bin 16408
too_large larger.bin
name=6161616161616161616161616161616161
bytes "$(dump cd0134 "$(suspects 0 305)" "$(top_record $name 00 01)" "$(top_record ${name}6262 00 01)")" > over_limit.bin
measures over_limit.bin 16385
too_large over_limit.bin
bytes "$(dump cd0134 "$(suspects 0 305)" "$(top_record $name 00 01)" "$(top_record ${name}62 00 01)")" > limit.bin
measures limit.bin 16384
awk 'BEGIN {
    for (i = 0; i < 306; i++)
        printf "%03d suspect 0 -\n", i
    print "aaaaaaaaaaaaaaaaa suspect 0 -"
    print "aaaaaaaaaaaaaaaaab suspect 0 -"
}' > wanted_limit.txt
run loop limit.bin none.bin
prints_file 'the longest dump begins the exchange' wanted_limit.txt
run loop none.bin limit.bin
prints_file 'the longest dump answers' wanted_limit.txt
bytes "$(dump cd0134 "$(suspects 0 307)")" > first.bin
measures first.bin 16355
bytes "$(dump cd0134 "$(suspects 308 615)")" > second.bin
awk 'BEGIN { for (i = 0; i < 616; i++) printf "%03d suspect 0 -\n", i }' > wanted_both.txt
run loop first.bin second.bin
prints_file 'two long dumps' wanted_both.txt
run loop second.bin first.bin
prints_file 'two long dumps, in the other order' wanted_both.txt

# The length of the canonical dump counts, not that of the file.
{ bytes 0682a54e6f64657300ac5573657253746174654c656ecd4e20 && head -c 20000 /dev/zero; } > much_user.bin
run loop much_user.bin p.bin
prints 'a long file with a short canonical dump' 0 "$line_a"
bytes "$(dump cd0190 "$(suspects 0 399 | sed 's/a33[0-9]3[0-9]3[0-9]/a3303030/g')")" > one_often.bin
measures one_often.bin 21231
run loop p.bin one_often.bin
prints 'a long file of one member' 0 '000 suspect 0 -' "$line_a"
bytes "$(dump cd0190 "$(suspects 0 399 | sed 's/87a441646472a0ab496e6361726e6174696f6e00a44d657461a0/82/g; s/a4506f727400\(a5537461746501\)a356736ea0/\1/g')")" > brief.bin
measures brief.bin 6831
too_large brief.bin

# Both files are read first; then the first one is parsed and measured before the second one.
run loop big.bin missing.bin
refuses 'loop: a missing file is reported before one that is too large' 4 'swimtab: missing.bin: device fault'
run loop big.bin cut.bin
refuses 'loop: a first file that is too large is reported before a faulty one' 3 'swimtab: big.bin: fault 28 TooLargeForLoop'
run loop cut.bin big.bin
refuses 'loop: a faulty first file is reported before one that is too large' 3 'swimtab: cut.bin: fault 1 Ended'
run loop cut.bin over.bin
refuses 'loop: a faulty first file is reported before one that is too long' 3 'swimtab: cut.bin: fault 1 Ended'
run loop over.bin cut.bin
refuses 'loop: the first file is too long' 3 'swimtab: over.bin: fault 32 InputTooLong'
run loop p.bin over.bin
refuses 'loop: the second file is too long' 3 'swimtab: over.bin: fault 32 InputTooLong'

# The exchange as a whole has 10 seconds, even if each of its reads returns a byte after a second.
if command -v cc > /dev/null; then
    cc -shared -fPIC -O2 -o slow_reads.so "$here/c/slow_reads.c" -ldl
    begun=$(date +%s)
    LD_PRELOAD=$PWD/slow_reads.so timeout 120 "$program" loop p.bin q.bin > out 2> err
    status=$?
    waited=$(($(date +%s) - begun))
    refuses 'loop: a peer that sends little by little is abandoned' 4 'swimtab: loop: device fault'
    fault=
    [ "$waited" -ge 9 ] && [ "$waited" -le 30 ] || fault="; it took $waited seconds"
    count 'loop: the peer is abandoned after 10 seconds' "$fault"

    # It listens at a port that the system chooses, on 127.0.0.1 alone. Who connects first is the peer of the second
    # table. If one of them gets other bytes than the other sent, they do not end equal.
    cc -shared -fPIC -O2 -o meddles.so "$here/c/meddles.c" -ldl
    LD_PRELOAD=$PWD/meddles.so FIRST=1 timeout 120 "$program" loop p.bin q.bin > out 2> err
    status=$?
    refuses 'loop: a stranger connects first, and leaves' 3 'swimtab: loop: fault 1 Ended'
    count 'loop: the address and port' "$([ "$(cat bound)" = '127.0.0.1 0' ] || echo "; $(cat bound)")"
    LD_PRELOAD=$PWD/meddles.so OTHER=1 timeout 120 "$program" loop p.bin q.bin > out 2> err
    status=$?
    prints 'loop: the tables do not end equal' 1 "$line_a" "$line_b"
else
    echo 'skipped: peers of loop that meddle: there is no cc'
fi

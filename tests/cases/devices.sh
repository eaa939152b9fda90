# Files, sockets, standard input, standard output and memory that fail, end early or come in pieces.
# shellcheck shell=sh disable=SC2154,SC3045

# Files that cannot be read.
for verb in list merge relate loop; do
    run $verb missing.bin p.bin
    refuses "$verb: the first file is missing" 4 'swimtab: missing.bin: device fault'
    run $verb p.bin missing.bin
    refuses "$verb: the second file is missing" 4 'swimtab: missing.bin: device fault'
    run $verb missing.bin absent.bin
    refuses "$verb: the first of two missing files is reported" 4 'swimtab: missing.bin: device fault'
    run $verb absent.bin missing.bin
    refuses "$verb: the first of two missing files is reported, in the other order" 4 'swimtab: absent.bin: device fault'
    run $verb / p.bin
    refuses "$verb: the first file is a directory" 4 'swimtab: /: device fault'
    run $verb p.bin .
    refuses "$verb: the second file is a directory" 4 'swimtab: .: device fault'
    run $verb cut.bin missing.bin
    refuses "$verb: a missing file is reported before a faulty one" 4 'swimtab: missing.bin: device fault'
done
run list p.bin q.bin r.bin missing.bin c.bin
refuses 'the fourth of five files is missing' 4 'swimtab: missing.bin: device fault'
run list p.bin/q.bin
refuses 'a file as a folder' 4 'swimtab: p.bin/q.bin: device fault'

# Files that are not plain files.
run list /dev/null
refuses 'an empty device as a file' 3 'swimtab: /dev/null: fault 1 Ended'
mkfifo pipe
timeout 60 sh -c 'cat q.bin > pipe' &
run list p.bin pipe
wait
prints 'a pipe as a file' 0 "$line_a" "$line_b"
bytes "$dump_p" | timeout 120 "$program" relate /dev/stdin r.bin > out 2> err
status=$?
prints 'standard input as a file' 1 behind
bytes "$dump_q" | timeout 120 "$program" list p.bin /dev/stdin > out 2> err
status=$?
prints 'standard input as a file that is listed' 0 "$line_a" "$line_b"
bytes "$dump_q" | timeout 120 "$program" merge p.bin /dev/stdin > out 2> err
status=$?
prints_file 'standard input as a file that is merged' r.bin

# Standard input that fails, or is not used.
timeout 120 "$program" < / > out 2> err
status=$?
refuses 'a directory as standard input' 4 'swimtab: input: device fault'
timeout 120 "$program" <&- > out 2> err
status=$?
refuses 'standard input is closed' 4 'swimtab: input: device fault'
: > unread
timeout 120 "$program" 0> unread > out 2> err
status=$?
refuses 'standard input is open only for writing' 4 'swimtab: input: device fault'
timeout 120 "$program" < /dev/null > out 2> err
status=$?
prints 'standard input is an empty device' 0
if command -v script > /dev/null; then
    for words in ' packets' 'run a script'; do
        verb=${words%% *}
        printf '\004' | timeout 60 script -qefc "'$program' $verb 2> err > out" typescript > /dev/null
        status=$?
        : > wanted
        echo "swimtab: reading ${words#* } from the terminal; Ctrl-D ends the input" > wanted_err
        case_name="a terminal as standard input of swimtab $verb"
        wanted_status=0
        compare
    done
else
    echo 'skipped: a terminal as standard input: there is no script'
fi
timeout 120 "$program" list p.bin q.bin <&- > out 2> err
status=$?
prints 'list needs no standard input' 0 "$line_a" "$line_b"
timeout 120 "$program" relate q.bin r.bin < / > out 2> err
status=$?
prints 'relate needs no standard input' 1 behind
timeout 120 "$program" loop p.bin q.bin <&- > out 2> err
status=$?
prints 'loop needs no standard input' 0 "$line_a" "$line_b"

# Sockets that are refused, the connection or its other end, because no more files may be open.
for limit in 4 5; do
    (ulimit -n $limit && timeout 120 "$program" loop p.bin q.bin) > out 2> err 3>&- 4>&-
    status=$?
    refuses "loop: a socket is refused, with $limit open files" 4 'swimtab: loop: device fault'
done

# Standard input in pieces.
{
    printf %s "$alive_a" | head -c 31
    sleep 1
    printf '%s\n' "$alive_a" | tail -c +32
    sleep 1
    printf '%s\n' "$suspect_b"
} | timeout 120 "$program" > out 2> err
status=$?
prints 'standard input in pieces' 0 "$line_a" "$line_b"
timeout 60 sh -c '{ head -c 40 r.bin; sleep 1; tail -c +41 r.bin; } > pipe' &
run list pipe
wait
prints 'a file in pieces' 0 "$line_a" "$line_b"

# Standard output that fails: no room, a pipe that nobody reads, closed, open only for reading.
printf '%s\n%s\n' "$alive_a" "$suspect_b" > packets.hex
output_fails() {
    timeout 120 "$program" "$@" < packets.hex > /dev/full 2> err
    status=$?
    refuses "swimtab $*: no room for the output" 4 'swimtab: output: device fault'

    # the reader of the pipe has gone before the program starts
    : < pipe &
    exec 4> pipe
    wait
    timeout 120 "$program" "$@" < packets.hex >&4 2> err 4>&-
    status=$?
    exec 4>&-
    refuses "swimtab $*: nobody reads the output" 4 'swimtab: output: device fault'
    (
        trap '' PIPE
        : < pipe &
        exec 4> pipe
        wait
        timeout 120 "$program" "$@" < packets.hex >&4 2> err 4>&-
    )
    status=$?
    refuses "swimtab $*: nobody reads the output, and SIGPIPE is ignored" 4 'swimtab: output: device fault'

    timeout 120 "$program" "$@" < packets.hex >&- 2> err
    status=$?
    refuses "swimtab $*: the output is closed" 4 'swimtab: output: device fault'
    timeout 120 "$program" "$@" < packets.hex 1< p.bin 2> err
    status=$?
    refuses "swimtab $*: the output is open only for reading" 4 'swimtab: output: device fault'
}
: > out
output_fails
output_fails list p.bin q.bin
output_fails merge p.bin q.bin
output_fails relate p.bin p.bin
output_fails relate p.bin r.bin
output_fails loop p.bin q.bin
printf 'node a 7f000001 7946 - - 0\n' > packets.hex
output_fails run

# A slow reader of a long listing, and one that stops before its end.
letters=$(printf '%01000d' 0)
awk -v letters="$letters" 'BEGIN {
    digits = letters
    gsub(/0/, "30", digits)
    for (i = 0; i < 400; i++) {
        printf "%03d%s suspect 0 -\n", i, letters > "long.txt"
        printf "0381a44e6f6465da03eb3%d3%d3%d%s\n", i / 100, i / 10 % 10, i % 10, digits > "long.hex"
    }
}'
{ sleep 1; cat; } < pipe > out &
timeout 120 "$program" < long.hex > pipe 2> err
status=$?
wait
prints_file 'a slow reader gets the whole of a long listing' long.txt
head -c 1000 < pipe > out &
timeout 120 "$program" < long.hex > pipe 2> err
status=$?
wait
head -c 1000 long.txt > start.txt
fault=
[ "$status" -eq 4 ] || fault="$fault; status $status, not 4"
cmp -s out start.txt || fault="$fault; other output: $(start_of out)"
[ "$(cat err)" = 'swimtab: output: device fault' ] || fault="$fault; other text: $(start_of err)"
count 'a reader that stops early got the beginning' "$fault"

# Standard error that fails does not change the status.
timeout 120 "$program" list missing.bin > out 2> /dev/full
status=$?
ends 'no room for the text of a device fault' 4
timeout 120 "$program" list cut.bin > out 2> /dev/full
status=$?
ends 'no room for the text of a refusal' 3
timeout 120 "$program" --help > out 2> /dev/full
status=$?
ends 'no room for help' 2
timeout 120 "$program" list cut.bin > out 2>&-
status=$?
ends 'standard error is closed' 3

# Inputs at the limit of 268,435,456 bytes, and one byte longer.
dd if=/dev/null of=bound.bin bs=1 seek=268435456 2> /dev/null
dd if=/dev/null of=over.bin bs=1 seek=268435457 2> /dev/null
run list bound.bin
refuses 'a file at the limit' 3 'swimtab: bound.bin: fault 16 WrongType 0'
run list cut.bin over.bin
refuses 'a file that is too long is reported before a faulty one' 3 'swimtab: over.bin: fault 32 InputTooLong'
run list over.bin missing.bin
refuses 'a missing file is reported before one that is too long' 4 'swimtab: missing.bin: device fault'
run relate p.bin over.bin
refuses 'relate: the second file is too long' 3 'swimtab: over.bin: fault 32 InputTooLong'
run merge over.bin
refuses 'merge: a file is too long' 3 'swimtab: over.bin: fault 32 InputTooLong'
run < over.bin
refuses 'standard input is too long' 3 'swimtab: input: fault 32 InputTooLong'
timeout 120 "$program" < /dev/zero > out 2> err
status=$?
refuses 'standard input without an end' 3 'swimtab: input: fault 32 InputTooLong'

# Out of memory: the program has less than the input needs.
small() {
    (ulimit -v 100000 && timeout 120 "$program" "$@" > out 2> err)
    status=$?
}
for verb in list merge relate loop; do
    small $verb p.bin bound.bin
    refuses "$verb: out of memory" 5 'swimtab: out of memory'
done
small < bound.bin
refuses 'packets: out of memory' 5 'swimtab: out of memory'
small list p.bin
prints 'list: there is enough memory' 0 "$line_a"

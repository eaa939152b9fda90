# Packets on standard input that are made here. Others are in tests/rows.
# shellcheck shell=sh disable=SC2154

# lists CASE TEXT LINE..: the packets TEXT, a printf format, are listed as these lines.
lists() {
    case_name=$1
    feed "$2"
    shift 2
    prints "$case_name" 0 "$@"
}

lists 'an input of empty lines' '\n\r\n\n'
lists 'a dead packet from itself' "$(dead 63 03 63)\n" "$line_c"
lists 'a dead packet from another' "$(dead 63 03 78)\n" 'c confirm 3 -'
lists 'the lines are in the order of the names' "$(suspect 62 00)\n$(suspect 6161 00)\n$(suspect ff 00)\n$(suspect 61 00)\n" \
    'a suspect 0 -' 'aa suspect 0 -' 'b suspect 0 -' '%FF suspect 0 -'
lists 'a packet that comes again' "$alive_a\n$alive_a\n$alive_a\n" "$line_a"

# Lines.
upper=$(echo "$alive_a" | tr 'a-f' 'A-F')
lists 'upper case' "$upper\n" "$line_a"
lists 'mixed case' "$(echo "$suspect_b" | sed 's/6e/6E/g')\n" "$line_b"
lists 'the last line feed is missing' "$alive_a\n$suspect_b" "$line_a" "$line_b"
lists 'lines that end with a carriage return and a line feed' "$alive_a\r\n\r\n$suspect_b\r\n" "$line_a" "$line_b"
lists 'a carriage return at the very end' "$alive_a\n$suspect_b\r" "$line_a" "$line_b"
lists 'empty lines between' "\n\n$alive_a\n\n\n$suspect_b\n\n" "$line_a" "$line_b"
lists 'packets and compound packets' "$(dead 63 03 63)\n07020033001d$alive_a$suspect_b\n" "$line_a" "$line_b" "$line_c"

# What a running cluster sends: with checksums, and without them and without messages that make no claims.
run < "$here/../examples/default-cluster.hex"
refuses 'a packet with a checksum' 3 'swimtab: line 1: fault 16 WrongType 12'
sed 's/^0c........//' "$here/../examples/default-cluster.hex" | grep '^0[3457]' > cluster.hex
run < cluster.hex
prints 'the packets of a running cluster' 0 \
    'd3 leave 1 1/7f000503/7946//010502000000' \
    'd4 suspect 1 1/7f000504/7946//010502000000'

# Which line is reported.
feed '03\000'
refuses 'a byte that is not a hexadecimal digit' 3 'swimtab: line 1: fault 30 BadHex'
feed '\n\r\n09'
refuses 'empty lines are counted' 3 'swimtab: line 3: fault 16 WrongType 9'
feed "$alive_a\n$suspect_b\n0390\n0384\n"
refuses 'the first faulty line is reported, and nothing is listed' 3 'swimtab: line 3: fault 7 NotMap'
feed "$alive_a\n$(dead 63 03 63)00\n"
refuses 'a fault in the last line' 3 'swimtab: line 2: fault 22 Trailing'

# Names at their limit.
letters=$(printf '%1024s' '' | sed 's/ /6e/g')
lists 'a name of 1,024 bytes' "0381a44e6f6465da0400$letters\n" "$(printf '%1024s' '' | tr ' ' n) suspect 0 -"
feed "0381a44e6f6465da0401${letters}6e\n"
refuses 'a name of 1,025 bytes' 3 'swimtab: line 1: fault 6 TooLong'

# Each beginning of a packet.
fault=
length=2
while [ $length -lt ${#alive_a} ]; do
    feed "$(echo "$alive_a" | cut -c "-$length")"
    [ "$status" -eq 3 ] && [ "$(cat err)" = 'swimtab: line 1: fault 1 Ended' ] && [ ! -s out ] ||
        fault="$fault; $length digits: $(start_of err)"
    length=$((length + 2))
done
count 'each beginning of a packet is Ended' "$fault"

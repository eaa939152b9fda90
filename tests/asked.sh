# Members that are asked, and their addresses. tests/watched runs it in its folder, with its members.
# shellcheck shell=sh disable=SC2154

# a push/pull stream without members
bytes 0683a54e6f64657300ac5573657253746174654c656e00a44a6f696ec2 > nobody.bin
: > nothing.bin

for row in '--json,--dump needs exactly one member, and cannot be used with --json' \
    '--events,--dump cannot be used with --events' '--every=1s,--dump cannot be used with --every'; do
    refused "a dump with ${row%%,*}" 2 "swimwatch: ${row#*,}" pull --dump "${row%%,*}" web-1
done

member closes nothing.bin
run diff "127.0.0.1:$port" nobody.bin
ends 'a side that is a member which closes the connection' 3
run diff 127.0.0.1:1 nobody.bin
ends 'a side that is a member which does not listen' 4
"$program" pull '[::1]:1' 2> err | cut -d ' ' -f 1-3 > found
echo '[::1]:1 no answer' > wanted
check 'an address of IPv6 is shown in brackets'

if command -v cc > /dev/null && cc -shared -fPIC -O2 -o two_addresses.so "$here/c/two_addresses.c" -ldl; then
    member closes nobody.bin
    LD_PRELOAD=$PWD/two_addresses.so "$program" pull "two.test:$port" > out 2> err
    status=$?
    ends 'a name with two addresses, of which the first refuses' 0
else
    echo 'skipped: a name with two addresses: there is no cc'
fi

# two members that have one name at two incarnations
"$program" dump known.pcap > known.bin 2> err
"$program" dump renewed.pcap > renewed.bin 2> err
member closes known.bin
first=$port
member closes renewed.bin
run pull "127.0.0.1:$first" "127.0.0.1:$port"
ends 'members that differ in an incarnation' 1

"$program" dump other_place.pcap > other_place.bin 2> err
member closes other_place.bin
run pull "127.0.0.1:$first" "127.0.0.1:$port"
ends 'members that differ in an address' 1

label=$(printf '%0255d' 0)
run members --label "$label" known.pcap
ends 'a label of 255 bytes' 0
refused 'a label of 256 bytes' 2 'swimwatch: --label must have 1 to 255 bytes' members --label "0$label" known.pcap
run pull --every 200ms --count 1 --metrics quoted.prom 'a"b:1'
grep '^swimwatch_up' quoted.prom > found
echo 'swimwatch_up{member="a\\"b:1"} 0' > wanted
check 'a quotation mark in the label of a metric'

# each of 29 bytes comes a tenth of a second after the one before
member drips nobody.bin
"$program" pull --every 1s --count 1 --timeout 20 "127.0.0.1:$port" 2> err |
    awk '{ print $3, $4, $5, $6, $7, (2500 < $8 && $8 < 20000) ? "some" : $8, $9 }' > found
echo 'answers: 0 members, 29 bytes, some ms' > wanted
check 'how long an answer took, in milliseconds'

# l3 is in the first table, and nobody in the second
member closes examples/three.bin,nobody.bin
"$program" pull --every 200ms --count 2 --metrics absent.prom "127.0.0.1:$port" 2> err |
    cut -d ' ' -f 2-5 | grep absent > found
printf '%s\n' 'l1 alive -> absent' 'l2 alive -> absent' 'l3 alive -> absent' > wanted
check 'members that a member no longer knows'
grep '^swimwatch_changes_total' absent.prom > found
printf 'swimwatch_changes_total{name="l%s",to="absent"} 1\n' 1 2 3 > wanted
check 'how often members became absent'
"$program" pull --every 200ms --count 3 127.0.0.1:1 2> err | cut -d ' ' -f 2- > found
echo '127.0.0.1:1 no answer (connection refused)' > wanted
check 'a silence is told once'

# ---- random bytes

# Each byte of twelve is another in one of six requests, but for one time in 10^10.
answer encrypted > sealed.bin
member closes sealed.bin
for number in 1 2 3 4 5 6; do
    "$program" pull --key-file examples/encrypted.key "127.0.0.1:$port" > out 2> err
    cp asked "asked.$number"
done
python3 - > found <<'NONCES'
drawn = [open('asked.%d' % number, 'rb').read()[6:18] for number in range(1, 7)]
print(*(len({nonce[at] for nonce in drawn}) > 1 for at in range(12)))
NONCES
echo True True True True True True True True True True True True > wanted
check 'each byte of a nonce is drawn'
if command -v cc > /dev/null && cc -std=c99 -O2 -o no_random "$here/c/no_random.c"; then
    rm -f asked
    ./no_random "$program" pull --key-file examples/encrypted.key "127.0.0.1:$port" > out 2> err
    status=$?
    refuses 'a system without random bytes' 4 'swimwatch: cannot read random bytes from the system'
    count 'and nothing is sent' "$([ ! -e asked ] || echo "; $(xxd -p asked)")"
else
    echo 'skipped: a system without random bytes: there is no cc'
fi

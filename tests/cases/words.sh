# The arguments of the program. Arguments that are refused are in tests/rows.
# shellcheck shell=sh disable=SC2154

commands='list merge relate loop run'

# Help is on standard error and names each command.
run --help
for command in $commands; do
    grep -q "$command" err
    case $? in
        0) count "help names $command" '' ;;
        *) count "help names $command" '; it does not' ;;
    esac
done

# Arguments that are not UTF-8.
run list "$(printf '\377')"
refuses 'an argument that is not UTF-8' 2 'swimtab: an argument is not valid UTF-8'
run "$(printf 'list\377')" p.bin
explains 'a command that is not UTF-8'

# The next step after a first word that is no command, and after a capture.
for word in p.bin missing.bin listing; do
    run "$word"
    explains "swimtab $word"
    count "swimtab $word names the next step" \
        "$([ "$(tail -n 1 err)" = 'swimtab: packets are read from standard input: swimtab < FILE' ] || echo "; $(start_of err)")"
done
for words in --foo 'list' 'run p.bin' '--help' --version 'relate p.bin' 'relate p.bin q.bin r.bin'; do
    # shellcheck disable=SC2086
    run $words
    count "swimtab $words names no such step" "$(! grep -q 'packets are read from' err || echo "; $(start_of err)")"
done
for magic in d4c3b2a1 a1b2c3d4 4d3cb2a1 a1b23c4d; do
    bytes "${magic}0200040000000000000000000000040001000000" > x.pcap
    timeout 120 "$program" < x.pcap > out 2> err
    status=$?
    refuses "a capture with the magic number $magic" 3 "swimtab: line 1: fault 30 BadHex
swimtab: the input is a capture; swimwatch reads captures: swimwatch members FILE"
done
bytes 0a0d0d0a1c0000004d3c2b1a01000000ffffffffffffffff1c000000 > x.pcapng
timeout 120 "$program" < x.pcapng > out 2> err
status=$?
refuses 'a pcapng capture' 3 "swimtab: line 2: fault 30 BadHex
swimtab: the input is a capture; swimwatch reads captures: swimwatch members FILE"
bytes d4c3b2 > x.pcap
timeout 120 "$program" < x.pcap > out 2> err
status=$?
refuses 'three bytes of a magic number' 3 'swimtab: line 1: fault 30 BadHex'
timeout 120 "$program" run < x.pcapng > out 2> err
status=$?
refuses 'a capture as a script' 3 'swimtab: line 2: fault 31 BadScript'

# Names of files.
cp p.bin -- -x.bin
cp q.bin -- -
cp p.bin list
cp r.bin merge
cp q.bin 'two words'
cp q.bin "$(printf 'na\303\257ve')"
cp p.bin -- --help
run list -- -x.bin
prints 'a file whose name begins with -, after --' 0 "$line_a"
run list -- -x.bin q.bin
prints 'two files after --' 0 "$line_a" "$line_b"
run list q.bin -- -x.bin
prints 'a file after -- and one before' 0 "$line_a" "$line_b"
run list ./-x.bin
prints 'a file whose name begins with -, by its path' 0 "$line_a"
run relate -- -x.bin merge
prints 'relate with --' 1 behind
run loop -- -x.bin q.bin
prints 'loop with --' 0 "$line_a" "$line_b"
run merge -- -x.bin -
prints_file 'merge with --' r.bin
run list -
prints 'a lone - is a file' 0 "$line_b"
run list p.bin -
prints 'a lone - is a file, also as the second one' 0 "$line_a" "$line_b"
run list -- --help
prints 'a file named --help, after --' 0 "$line_a"
run list list
prints 'a file named list' 0 "$line_a"
run list merge list
prints 'files named merge and list' 0 "$line_a" "$line_b"
run relate list merge
prints 'relate of files named list and merge' 1 behind
run relate merge list
prints 'relate of files named merge and list' 1 ahead
run merge merge
prints_file 'merge of a file named merge' r.bin
run list 'two words'
prints 'a file with two words as its name' 0 "$line_b"
run list "$(printf 'na\303\257ve')"
prints 'a file whose name is not ASCII' 0 "$line_b"
run list "$work/p.bin"
prints 'a file by its whole path' 0 "$line_a"
run list ''
refuses 'an empty file name' 4 'swimtab: : device fault'
run relate p.bin ''
refuses 'an empty name of the second file' 4 'swimtab: : device fault'

# An argument is printed as it was given.
for word in 'no file' '%s%n' 'a\nb' "it's" './/missing' 'missing/'; do
    run list "$word"
    refuses "the argument $word" 4 "swimtab: $word: device fault"
done
cp cut.bin 'cut 100%.bin'
run merge p.bin 'cut 100%.bin'
refuses 'a faulty file with two words as its name' 3 'swimtab: cut 100%.bin: fault 1 Ended'

# Each growth of memory in a run is refused in turn: the run prints all that it prints with enough memory, or reports
# 'out of memory' and prints nothing.
# shellcheck shell=sh disable=SC2154

if can_refuse; then
    printf '%s\n%s\n' "$alive_a" "$suspect_b" > packets.hex
    printf 'node a 7f000001 7946 - - 0\nnode b 7f000002 7946 - - 0\nhear 0 %s\nhalf 0 1\nrefute 1\nlevel\n' "$suspect_b" > events.script
    each_refused packets packets.hex
    bytes d4c3b2a10a > short.pcap
    each_refused 'a capture' short.pcap
    each_refused list /dev/null list v.bin q.bin
    each_refused merge /dev/null merge v.bin q.bin
    each_refused 'relate of equal tables' /dev/null relate p.bin p.bin
    each_refused 'relate of tables that differ' /dev/null relate v.bin q.bin
    each_refused run events.script run
    each_refused loop /dev/null loop v.bin q.bin
    each_refused 'list of a file that is not a dump' /dev/null list p.bin cut.bin
    each_refused 'list of a file that is missing' /dev/null list missing.bin
    each_refused help /dev/null --help
fi

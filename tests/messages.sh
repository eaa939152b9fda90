# The messages that the cases are made of, in hexadecimal, as docs/messages.md spells them under
# "Canonical bytes", and the dumps that most cases read, as files. Numbers are given with their first
# byte, such as 'cd1f0a' for 7946.
# shellcheck shell=sh disable=SC2034

# alive NAME INCARNATION ADDRESS PORT: a packet.
alive() {
    echo "0486a441646472$(raw "$3")ab496e6361726e6174696f6e$2a44d657461a0a44e6f6465$(raw "$1")a4506f7274$4a356736ea0"
}

# suspect NAME INCARNATION: a packet, from 'x'.
suspect() {
    echo "0383a446726f6da178ab496e6361726e6174696f6e$2a44e6f6465$(raw "$1")"
}

# dead NAME INCARNATION FROM: a packet; a Leave if FROM is NAME, and otherwise a Confirm.
dead() {
    echo "0583a446726f6d$(raw "$3")ab496e6361726e6174696f6e$2a44e6f6465$(raw "$1")"
}

# dump NUMBER RECORD..: a stream of this many records, with the join flag false.
dump() {
    printf '0683a44a6f696ec2a54e6f646573%sac5573657253746174654c656e00' "$1"
    shift
    printf '%s' "$@"
    echo
}

# alive_record NAME INCARNATION ADDRESS PORT
alive_record() {
    echo "87a441646472$(raw "$3")ab496e6361726e6174696f6e$2a44d657461a0a44e616d65$(raw "$1")a4506f7274$4a5537461746500a356736ea0"
}

# top_record NAME INCARNATION STATE: a Suspect (01), a Confirm (02) or a Leave (03).
top_record() {
    echo "87a441646472a0ab496e6361726e6174696f6e$2a44d657461a0a44e616d65$(raw "$1")a4506f727400a55374617465$3a356736ea0"
}

# Whole messages as constants, so that the functions above are not compared only with themselves.
alive_a=0486a441646472a47f000001ab496e6361726e6174696f6e00a44d657461a0a44e6f6465a161a4506f7274cd1f0aa356736ea0
suspect_b=0383a446726f6da178ab496e6361726e6174696f6e01a44e6f6465a162
dump_p=0683a44a6f696ec2a54e6f64657301ac5573657253746174654c656e0087a441646472a47f000001ab496e6361726e6174696f6e00a44d657461a0a44e616d65a161a4506f7274cd1f0aa5537461746500a356736ea0
dump_q=0683a44a6f696ec2a54e6f64657301ac5573657253746174654c656e0087a441646472a0ab496e6361726e6174696f6e01a44d657461a0a44e616d65a162a4506f727400a5537461746501a356736ea0
dump_v=0683a44a6f696ec2a54e6f64657302ac5573657253746174654c656e0087a441646472a47f000001ab496e6361726e6174696f6e04a44d657461a0a44e616d65a161a4506f7274cd1f0ba5537461746500a356736ea087a441646472a0ab496e6361726e6174696f6e05a44d657461a0a44e616d65a161a4506f727400a5537461746501a356736ea0
dump_c=0683a44a6f696ec2a54e6f64657301ac5573657253746174654c656e0087a441646472a0ab496e6361726e6174696f6e03a44d657461a0a44e616d65a163a4506f727400a5537461746503a356736ea0
no_records=0683a44a6f696ec2a54e6f64657300ac5573657253746174654c656e00

# What their tables list.
line_a='a alive 0 0/7f000001/7946//'
line_b='b suspect 1 -'
line_c='c leave 3 -'
line_v='a suspect 5 4/7f000001/7947//'

# p: a alive; q: b suspected; r: both; t: a suspected, without an address; c: c left; v: a suspected,
# with an address; none: no member; cut and long: not dumps.
bytes "$dump_p" > p.bin
bytes "$dump_q" > q.bin
bytes "$(dump 02 "$(alive_record 61 00 7f000001 cd1f0a)" "$(top_record 62 01 01)")" > r.bin
bytes "$(dump 01 "$(top_record 61 00 01)")" > t.bin
bytes "$dump_c" > c.bin
bytes "$dump_v" > v.bin
bytes $no_records > none.bin
bytes 0683a44a > cut.bin
bytes "${dump_p}00" > long.bin

same() {
    if cmp -s "$2" "$3"; then
        count "$1" ''
    else
        count "$1" '; they differ'
    fi
}
bytes "$(dump 01 "$(alive_record 61 00 7f000001 cd1f0a)")" > made.bin
same 'messages.sh makes the dump p' made.bin p.bin
bytes "$(dump 01 "$(top_record 62 01 01)")" > made.bin
same 'messages.sh makes the dump q' made.bin q.bin
bytes "$(dump 02 "$(alive_record 61 04 7f000001 cd1f0b)" "$(top_record 61 05 01)")" > made.bin
same 'messages.sh makes the dump v' made.bin v.bin

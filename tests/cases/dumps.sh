# list and merge: dumps in files that are made here. Others are in tests/rows.
# shellcheck shell=sh disable=SC2154

# lists_files CASE FILE.. -- LINE..: list prints these lines for the files.
lists_files() {
    case_name=$1
    shift
    files=
    while [ "$1" != -- ]; do
        files="$files $1"
        shift
    done
    shift
    # shellcheck disable=SC2086
    run list $files
    prints "$case_name" 0 "$@"
}

# merges CASE FILE FILE..: the dump of the other files is the first file.
merges() {
    case_name=$1
    merged=$2
    shift 2
    run merge "$@"
    prints_file "$case_name" "$merged"
}

bytes "$(dump 02 "$(alive_record 61 00 7f000001 cd1f0a)" "$(top_record 61 00 01)")" > wanted_p_t.bin
merges 'merge p t' wanted_p_t.bin p.bin t.bin
merges 'merge t p' wanted_p_t.bin t.bin p.bin
bytes "$(dump 03 "$(alive_record 61 00 7f000001 cd1f0a)" "$(top_record 62 01 01)" "$(top_record 63 03 03)")" > wanted_p_q_c.bin
merges 'merge c p q' wanted_p_q_c.bin c.bin p.bin q.bin

# Other spellings. A join flag and user state are read and not kept.
bytes "$(echo "$dump_p" | sed s/4a6f696ec2/4a6f696ec3/)" > joining.bin
lists_files 'a dump with the join flag' joining.bin -- "$line_a"
merges 'a merge has no join flag' p.bin joining.bin
bytes 0682a54e6f64657300ac5573657253746174654c656e050102030405 > user.bin
lists_files 'a dump with user state alone' user.bin --
merges 'a merge has no user state' none.bin user.bin
confirmed_b=85a44e616d65a162a441646472a47f000001a44d657461a2abcdab496e6361726e6174696f6e02a5537461746502
left_c=83a44e616d65a163ab496e6361726e6174696f6e03a5537461746503
bytes 0681a54e6f64657302$confirmed_b$left_c > others.bin
lists_files 'records with other keys' others.bin -- 'b confirm 2 -' "$line_c"
bytes "$(dump 02 "$(top_record 62 02 02)" "$(top_record 63 03 03)")" > wanted_others.bin
merges 'records with other keys, merged' wanted_others.bin others.bin

# The dumps of running clusters.
run list "$here/../examples/three.bin"
prints 'the stream of a running cluster' 0 \
    'l1 alive 1 1/7f000401/43227//010502000000' \
    'l2 alive 1 1/7f000402/45729//010502000000' \
    'l3 alive 1 1/7f000403/33603//010502000000'
run list "$here/../examples/user-state.bin"
prints 'the stream of a running cluster with user state' 0 \
    'u1 alive 1 1/7f000201/35069//010502000000' \
    'u2 alive 1 1/7f000202/40673//010502000000' \
    'u3 alive 1 1/7f000203/41113/7b22726f6c65223a22776562222c226463223a22646331227d/010502000000'

# Which file is reported.
run list p.bin cut.bin
refuses 'list: the second file is faulty' 3 'swimtab: cut.bin: fault 1 Ended'
run list cut.bin p.bin
refuses 'list: the first file is faulty' 3 'swimtab: cut.bin: fault 1 Ended'
run merge p.bin q.bin cut.bin c.bin
refuses 'merge: the third file is faulty' 3 'swimtab: cut.bin: fault 1 Ended'
for verb in list merge relate loop; do
    run $verb p.bin long.bin
    refuses "$verb: the second file is too long by a byte" 3 'swimtab: long.bin: fault 22 Trailing'
    run $verb cut.bin long.bin
    refuses "$verb: the first of two faulty files is reported" 3 'swimtab: cut.bin: fault 1 Ended'
    run $verb long.bin cut.bin
    refuses "$verb: the first of two faulty files is reported, in the other order" 3 'swimtab: long.bin: fault 22 Trailing'
done

# Each beginning of a dump.
fault=
length=1
while [ $length -lt $((${#dump_v} / 2)) ]; do
    head -c $length v.bin > part.bin
    run list part.bin
    [ "$status" -eq 3 ] && [ "$(cat err)" = 'swimtab: part.bin: fault 1 Ended' ] && [ ! -s out ] ||
        fault="$fault; $length bytes: $(start_of err)"
    length=$((length + 1))
done
count 'each beginning of a dump is Ended' "$fault"

# As many records as a dump may have: 131,072. In their parts other characters stand for the bytes that are
# not letters: ( is a4, ) a5, + a6, = a0, * ab, ; a3, [ 87, ~ 7f, @ 00, ! 01 and ^ d9.
suspect_part='[(Addr=*Incarnation@(Meta=(Name+%06d(Port@)State!;Vsn='
alive_part='[(Addr(~@@!*Incarnation@(Meta=(Name+%06d(Port@)State@;Vsn='

# many RECORDS MEMBERS PART..: prints a dump of this many records, one or two for each of the members
# 000000, 000001, ..
many() {
    bytes "0683a44a6f696ec2a54e6f646573ce$(printf %08x "$1")ac5573657253746174654c656e00"
    awk -v members="$2" -v part="$3" -v other="${4-}" 'BEGIN {
        for (i = 0; i < members; i++) {
            printf part, i
            if (other != "")
                printf other, i
        }
    }' | tr '()+=*;[~@!^' '\244\245\246\240\253\243\207\177\000\001\331'
}
too_many='swimtab: output: fault 23 TooManyRecords'

awk 'BEGIN { for (i = 0; i < 131072; i++) printf "%06d suspect 0 -\n", i }' > most.txt
many 131072 131072 "$suspect_part" > most.bin
run list most.bin
prints_file '131,072 members are listed' most.txt
run merge most.bin
prints_file '131,072 records are merged' most.bin
run merge most.bin p.bin
refuses '131,073 records have no dump' 3 "$too_many"
run merge p.bin most.bin
refuses '131,073 records have no dump, in the other order' 3 "$too_many"
run list most.bin p.bin
{ cat most.txt && echo "$line_a"; } > more.txt
prints_file '131,073 members are listed' more.txt
run relate p.bin most.bin
prints '131,072 members and a different one' 1 apart

# The same with names of 97 bytes: a listing of 14 MB.
long_part='[(Addr=*Incarnation@(Meta=(Name^a%097d(Port@)State!;Vsn='
awk 'BEGIN { for (i = 0; i < 131072; i++) printf "%097d suspect 0 -\n", i }' > long.txt
many 131072 131072 "$long_part" > names.bin
run list names.bin
prints_file 'a listing of 14 MB arrives whole' long.txt

# A member that is suspected and has an address has two records.
many 65536 65536 "$alive_part" > half.bin
many 131072 65536 "$alive_part" "$suspect_part" > both.bin
run merge most.bin half.bin
refuses '131,072 members with 65,536 addresses have no dump' 3 "$too_many"
many 65536 65536 "$suspect_part" > suspects.bin
run merge half.bin suspects.bin
prints_file '65,536 members with two records each are merged' both.bin
run merge half.bin suspects.bin q.bin
refuses '65,537 members with 131,073 records have no dump' 3 "$too_many"
run relate suspects.bin most.bin
prints '65,536 of 131,072 members' 1 behind

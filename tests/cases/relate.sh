# relate: how the tables of two dumps relate, of which one is made here. Others are in tests/rows.
# shellcheck shell=sh disable=SC2154

# relates FIRST SECOND RELATION
relates() {
    run relate "$1.bin" "$2.bin"
    if [ "$3" = equal ]; then
        prints "relate $1 $2" 0 equal
    else
        prints "relate $1 $2" 1 "$3"
    fi
}

# The join flag, user state, the order and the spelling of records do not count.
relates joining p equal
relates p joining equal
relates user none equal
relates none user equal
bytes "$(dump 02 "$(top_record 62 01 01)" "$(alive_record 61 00 7f000001 cd1f0a)")" > turned.bin
relates turned r equal
relates r turned equal
relates others wanted_others equal
bytes "$(dump 03 "$(alive_record 61 00 7f000001 cd1f0a)" "$(top_record 61 00 01)" "$(alive_record 61 00 7f000001 cd1f0a)")" > twice.bin
relates twice wanted_p_t equal

# A Suspect and a Confirm of the same member, and a Confirm and a Leave.
bytes "$(dump 01 "$(top_record 61 00 02)")" > confirmed.bin
bytes "$(dump 01 "$(top_record 61 00 03)")" > left.bin
relates t confirmed behind
relates confirmed t ahead
relates confirmed left behind
relates left confirmed ahead

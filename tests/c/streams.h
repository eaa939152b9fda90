/* Streams that several tests share. The bytes and faults are those of docs/messages.md. */
#ifndef STREAMS_H
#define STREAMS_H

#include "check.h"

/* The header of a stream without user state, and a record; each argument has the bytes of a value. */
#define HEADER(join, records) "0683a44a6f696e" join "a54e6f646573" records "ac5573657253746174654c656e00"
#define RECORD(addr, inc, meta, name, port, state, vsn) \
    "87a441646472" addr "ab496e6361726e6174696f6e" inc "a44d657461" meta "a44e616d65" name "a4506f7274" port \
    "a55374617465" state "a356736e" vsn

/* A node a, alive at 0; the same if it is suspected at 5 and was alive at 4; and b, suspected at 1. */
#define DUMP_A_0 HEADER("c2", "01") RECORD("a47f000001", "00", "a0", "a161", "cd1f0a", "00", "a0")
#define DUMP_A_4_5 \
    HEADER("c2", "02") \
    RECORD("a47f000001", "04", "a0", "a161", "cd1f0b", "00", "a0") \
    RECORD("a0", "05", "a0", "a161", "00", "01", "a0")
#define DUMP_B_1 HEADER("c2", "01") RECORD("a0", "01", "a0", "a162", "00", "01", "a0")

/* Bytes that are not a stream, and their faults. */
static const struct {
    const char *bytes;
    uint32_t status;
} no_streams[] = {
    {"", SWIMTAB_ENDED},
    {"0681a54e6f64657301", SWIMTAB_ENDED},
    {"0681a54e6f646573ce00020000", SWIMTAB_ENDED},
    {"0681ac5573657253746174654c656e02ff", SWIMTAB_ENDED},
    {"0681a54e6f646573a0", SWIMTAB_NOT_UNSIGNED},
    {"0681a54e6f64657301" "81a4506f7274ce00010000", SWIMTAB_OUT_OF_RANGE},
    {"0681a44a6f696e05", SWIMTAB_NOT_BOOL},
    {"0681a54e6f64657301" "81a44e616d6505", SWIMTAB_NOT_RAW},
    {"0681a54e6f64657301" "81a44d657461da0201", SWIMTAB_TOO_LONG},
    {"06c0", SWIMTAB_NOT_MAP},
    {"0684", SWIMTAB_MAP_COUNT},
    {"0681a54e6f64657301" "80", SWIMTAB_NAME_EMPTY},
    {"0681a54e6f64657301" "81a44e616d65a161", SWIMTAB_BAD_ADDRESS},
    {"0681a54e6f64657301" "83a441646472a47f000001a44e616d65a161a356736ea101", SWIMTAB_BAD_VERSIONS},
    {"03", SWIMTAB_WRONG_TYPE},
    {"0681a44e6f6465", SWIMTAB_UNKNOWN_KEY},
    {"0682a44a6f696ec2a44a6f696e", SWIMTAB_DUPLICATE_KEY},
    {"0681a54e6f64657301" "82a44e616d65a161a5537461746504", SWIMTAB_BAD_STATE},
    {"0681a54e6f646573ce00020001", SWIMTAB_TOO_MANY_NODES},
    {"0681ac5573657253746174654c656ece01400001", SWIMTAB_USER_TOO_LONG},
};

#endif

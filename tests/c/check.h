/* What the tests in C share: checks that are counted, bytes from hexadecimal, and the output of a node. */
#ifndef CHECK_H
#define CHECK_H

#include "swimtab.h"

#include <stdio.h>
#include <stdlib.h>
#include <string.h>

static int test_failures;

/* Counts and reports a condition that does not hold. */
#define WANT(e) ((e) ? (void)0 : report(__FILE__, __LINE__, #e))

static inline void report(const char *file, int line, const char *text) {
    printf("    %s:%d: %s\n", file, line, text);
    test_failures++;
}

struct test {
    const char *name;
    void (*run)(void);
};

/* Runs the tests, names those that failed, and ends with 'N passed, M failed'. */
static inline int run_tests(const struct test *tests, size_t count) {
    int passed = 0, failed = 0;
    for (size_t i = 0; i < count; i++) {
        test_failures = 0;
        tests[i].run();
        if (test_failures) {
            failed++;
            printf("failed: %s\n", tests[i].name);
        } else {
            passed++;
        }
    }
    printf("%d passed, %d failed\n", passed, failed);
    return failed != 0;
}

/* Bytes with their length. */
struct bytes {
    uint8_t *at;
    size_t len;
};

static inline unsigned digit_of(char c) {
    if (c >= '0' && c <= '9') return (unsigned)(c - '0');
    if (c >= 'a' && c <= 'f') return (unsigned)(c - 'a') + 10;
    return 16;
}

/* The bytes that lower-case hexadecimal stands for, up to the first other character, in a block of exactly
 * their size, so that valgrind sees a read or write past them. */
static inline struct bytes hex(const char *text) {
    size_t len = 0;
    while (digit_of(text[2 * len]) < 16 && digit_of(text[2 * len + 1]) < 16) len++;
    struct bytes made = {malloc(len + (len == 0)), len};
    if (!made.at) abort();
    for (size_t i = 0; i < len; i++)
        made.at[i] = (uint8_t)(16 * digit_of(text[2 * i]) + digit_of(text[2 * i + 1]));
    return made;
}

static inline struct bytes bytes_of_size(size_t len, uint8_t value) {
    struct bytes made = {malloc(len + (len == 0)), len};
    if (!made.at) abort();
    memset(made.at, value, len + (len == 0));
    return made;
}

/* Whether bytes are those that hexadecimal stands for. */
static inline bool is_hex(const uint8_t *at, size_t len, const char *text) {
    struct bytes wanted = hex(text);
    bool same = wanted.len == len && memcmp(at, wanted.at, len) == 0;
    free(wanted.at);
    return same;
}

static inline swimtab_taken taken_of(swimtab_node *node, const char *text) {
    struct bytes packet = hex(text);
    swimtab_taken taken = swimtab_take(node, packet.at, packet.len);
    free(packet.at);
    return taken;
}

static inline uint32_t take_hex(swimtab_node *node, const char *text) {
    return taken_of(node, text).status;
}

/* Whether a packet that is taken in has news. */
static inline bool has_news(swimtab_node *node, const char *text) {
    swimtab_taken taken = taken_of(node, text);
    WANT(taken.status == SWIMTAB_DONE);
    return taken.news;
}

/* The listing of a node as text, to be freed; empty text if there is no listing. */
static inline char *listing(const swimtab_node *node) {
    swimtab_written needed = swimtab_list(node, NULL, 0);
    size_t len = needed.status == SWIMTAB_TOO_SMALL ? needed.len : 0;
    char *text = malloc(len + 1);
    if (!text) abort();
    swimtab_list(node, text, len);
    text[len] = 0;
    return text;
}

static inline bool lists(const swimtab_node *node, const char *wanted) {
    char *text = listing(node);
    bool same = strcmp(text, wanted) == 0;
    if (!same) printf("    lists: %s", text);
    free(text);
    return same;
}

static const uint8_t local_addr[4] = {127, 0, 0, 1};

/* Packets about a and b, and a node a that is alive at 0. */
#define ALIVE_A_4 \
    "0486a441646472a47f000001ab496e6361726e6174696f6e04a44d657461a0a44e6f6465a161a4506f7274cd1f0b" \
    "a356736ea0"
#define ALIVE_A_6 \
    "0486a441646472a47f000001ab496e6361726e6174696f6e06a44d657461a0a44e6f6465a161a4506f7274cd1f0b" \
    "a356736ea0"
#define SUSPECT_A_5 "0383a446726f6da178ab496e6361726e6174696f6e05a44e6f6465a161"
#define CONFIRM_A_0 "0583a446726f6da178ab496e6361726e6174696f6e00a44e6f6465a161"
#define CONFIRM_A_5 "0583a446726f6da178ab496e6361726e6174696f6e05a44e6f6465a161"
#define LEAVE_A_0 "0583a446726f6da161ab496e6361726e6174696f6e00a44e6f6465a161"
#define SUSPECT_B_1 "0383a446726f6da178ab496e6361726e6174696f6e01a44e6f6465a162"
#define LIST_A_0 "a alive 0 0/7f000001/7946//\n"

/* The details of a member from their parts. */
static inline swimtab_details details_of(const void *name, size_t name_len, const void *addr, size_t addr_len,
                                         uint16_t port, const void *meta, size_t meta_len, const void *vsn,
                                         size_t vsn_len, uint32_t inc) {
    swimtab_details details = SWIMTAB_DETAILS_INIT;
    details.name = name, details.name_len = name_len;
    details.addr = addr, details.addr_len = addr_len;
    details.meta = meta, details.meta_len = meta_len;
    details.vsn = vsn, details.vsn_len = vsn_len;
    details.port = port, details.inc = inc;
    return details;
}

/* Opens a node from the parts of its details. */
static inline swimtab_status open_with(swimtab_node *node, const void *name, size_t name_len, const void *addr,
                                       size_t addr_len, uint16_t port, const void *meta, size_t meta_len,
                                       const void *vsn, size_t vsn_len, uint32_t inc) {
    swimtab_details details =
        details_of(name, name_len, addr, addr_len, port, meta, meta_len, vsn, vsn_len, inc);
    return swimtab_open(node, &details);
}

/* Writes another member's Alive from its parts. */
static inline swimtab_written alive_with(const void *name, size_t name_len, const void *addr, size_t addr_len,
                                         uint16_t port, const void *meta, size_t meta_len, const void *vsn,
                                         size_t vsn_len, uint32_t inc, void *out, size_t out_len) {
    swimtab_details details =
        details_of(name, name_len, addr, addr_len, port, meta, meta_len, vsn, vsn_len, inc);
    return swimtab_alive_of(&details, out, out_len);
}

/* The status and the length of what was unwrapped. */
static inline swimtab_written written_of(swimtab_unwrapped unwrapped) {
    swimtab_written written = {unwrapped.status, unwrapped.len};
    return written;
}

/* A node of this name, alive at the incarnation on 127.0.0.1. */
static inline swimtab_node opened(const char *name, uint16_t port, uint32_t inc) {
    swimtab_node node = SWIMTAB_NODE_INIT;
    WANT(open_with(&node, name, strlen(name), local_addr, 4, port, NULL, 0, NULL, 0, inc) == 0);
    return node;
}

/* One way to write bytes, for checks of buffers. */
typedef swimtab_written (*writing)(swimtab_node *node, uint8_t *out, size_t out_len);

/* The call writes these bytes to a buffer that just fits and to a longer one, and nothing to a shorter
 * one. */
static inline void writes(swimtab_node *node, writing call, const char *wanted) {
    struct bytes bytes = hex(wanted);
    size_t len = bytes.len;
    free(bytes.at);
    char *before = listing(node);
    for (size_t lacking = 1; lacking <= len; lacking += len - 1) {
        struct bytes small = bytes_of_size(len - lacking, 7);
        swimtab_written written = call(node, small.at, small.len);
        WANT(written.status == SWIMTAB_TOO_SMALL && written.len == len);
        WANT(small.len < 2 || (small.at[0] == 7 && memcmp(small.at, small.at + 1, small.len - 1) == 0));
        free(small.at);
        WANT(lists(node, before));
    }
    WANT(call(node, NULL, 0).status == SWIMTAB_TOO_SMALL && call(node, NULL, len).len == len);
    struct bytes room = bytes_of_size(len + 3, 7);
    swimtab_written written = call(node, room.at, room.len);
    WANT(written.status == SWIMTAB_DONE && written.len == len && is_hex(room.at, len, wanted));
    WANT(room.at[len] == 7 && room.at[len + 2] == 7);
    struct bytes fits = bytes_of_size(len, 7);
    written = call(node, fits.at, fits.len);
    WANT(written.status == SWIMTAB_DONE && written.len == len);
    free(room.at), free(fits.at), free(before);
}

#endif

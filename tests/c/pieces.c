/* Streams that come in pieces: swimtab_whole returns what swimtab_finish would, whatever the pieces are. */
#include "streams.h"

/* Three records, one with a longer spelling than needed, and two bytes of user state. */
#define PIECES \
    "0683a44a6f696ec3ac5573657253746174654c656e02a54e6f64657303" \
    RECORD("a47f000001", "00", "a0", "a161", "cd1f0a", "00", "a0") \
    "82a44e616d65da000162a55374617465cf0000000000000001" \
    RECORD("a0", "05", "a0", "a161", "00", "02", "a0") "0908"

static uint32_t finish_status(const uint8_t *at, size_t len) {
    swimtab_node node = opened("z", 1, 0);
    uint32_t status = swimtab_finish(&node, at, len).status;
    WANT(swimtab_close(&node) == 0);
    return status;
}

/* What swimtab_whole returns for bytes in a block of exactly their size, which valgrind watches. */
static uint32_t whole(swimtab_progress *progress, const uint8_t *at, size_t len) {
    struct bytes block = bytes_of_size(len, 0);
    memcpy(block.at, at, len);
    size_t before = progress->at;
    uint32_t status = swimtab_whole(progress, block.at, len);
    WANT(progress->at >= before && progress->at <= len);
    free(block.at);
    return status;
}

static void a_stream_may_come_byte_by_byte(void) {
    struct bytes stream = hex(PIECES);
    swimtab_progress progress = SWIMTAB_PROGRESS_INIT;
    for (size_t len = 0; len <= stream.len; len++) {
        swimtab_progress fresh = SWIMTAB_PROGRESS_INIT;
        uint32_t status = whole(&progress, stream.at, len);
        WANT(status == (len < stream.len ? SWIMTAB_ENDED : SWIMTAB_DONE));
        WANT(status == whole(&fresh, stream.at, len) && status == finish_status(stream.at, len));
        WANT(progress.at == fresh.at && progress.left == fresh.left && progress.user_len == fresh.user_len);
        WANT(progress.has_header == fresh.has_header);
    }
    WANT(progress.has_header && progress.left == 0 && progress.user_len == 2);
    WANT(progress.at + progress.user_len == stream.len);
    /* a whole stream stays whole */
    WANT(whole(&progress, stream.at, stream.len) == SWIMTAB_DONE && progress.at == stream.len - 2);
    free(stream.at);
}

static void pieces_have_any_size(void) {
    struct bytes stream = hex(PIECES "0683");
    const size_t stream_len = stream.len - 2;
    for (size_t piece = 1; piece <= stream.len; piece++) {
        swimtab_progress progress = SWIMTAB_PROGRESS_INIT;
        uint32_t status = SWIMTAB_ENDED;
        size_t len = 0;
        while (status == SWIMTAB_ENDED && len < stream.len) {
            len = len + piece < stream.len ? len + piece : stream.len;
            status = whole(&progress, stream.at, len);
            WANT((status == SWIMTAB_DONE) == (len >= stream_len));
        }
        WANT(status == SWIMTAB_DONE && progress.at + progress.user_len == stream_len);
    }
    free(stream.at);
}

/* A record that was read is not read again, so damage to bytes that were already read is not noticed. */
static void each_record_is_read_once(void) {
    struct bytes stream = hex(PIECES);
    swimtab_progress progress = SWIMTAB_PROGRESS_INIT;
    WANT(whole(&progress, stream.at, stream.len - 2) == SWIMTAB_ENDED);
    WANT(progress.at == stream.len - 2 && progress.left == 0 && progress.has_header);
    memset(stream.at, 0xff, stream.len - 2);
    WANT(whole(&progress, stream.at, stream.len) == SWIMTAB_DONE);
    free(stream.at);
}

/* The fault comes at the same byte as that of swimtab_finish, and stays whatever follows. */
static void what_is_no_stream_is_refused(void) {
    for (size_t i = 0; i < sizeof no_streams / sizeof *no_streams; i++) {
        struct bytes stream = hex(no_streams[i].bytes);
        swimtab_progress at_once = SWIMTAB_PROGRESS_INIT, progress = SWIMTAB_PROGRESS_INIT;
        WANT(whole(&at_once, stream.at, stream.len) == no_streams[i].status);
        uint32_t status = SWIMTAB_ENDED;
        for (size_t len = 0; len <= stream.len && status == SWIMTAB_ENDED; len++) {
            status = whole(&progress, stream.at, len);
            WANT(status == finish_status(stream.at, len));
        }
        if (status != no_streams[i].status) printf("    %s: %s\n", no_streams[i].bytes, swimtab_fault_name(status));
        WANT(status == no_streams[i].status);
        WANT(status == SWIMTAB_ENDED || whole(&progress, stream.at, stream.len) == status);
        free(stream.at);
    }
}

/* The third record has the fault, and the two before it were read. */
static void a_fault_behind_whole_records_is_found(void) {
    struct bytes stream = hex(HEADER("c2", "03") RECORD("a47f000001", "00", "a0", "a161", "cd1f0a", "00", "a0")
                              RECORD("a0", "05", "a0", "a162", "00", "01", "a0") "81a44e616d65a0");
    swimtab_progress progress = SWIMTAB_PROGRESS_INIT;
    for (size_t len = 0; len < stream.len; len++) WANT(whole(&progress, stream.at, len) == SWIMTAB_ENDED);
    WANT(progress.left == 1);
    WANT(whole(&progress, stream.at, stream.len) == SWIMTAB_NAME_EMPTY);
    WANT(finish_status(stream.at, stream.len) == SWIMTAB_NAME_EMPTY && progress.left == 1);
    free(stream.at);
}

static void streams_without_records_are_whole(void) {
    swimtab_progress progress = SWIMTAB_PROGRESS_INIT;
    WANT(whole(&progress, (const uint8_t *)"\x06\x80", 2) == SWIMTAB_DONE);
    WANT(progress.at == 2 && progress.user_len == 0 && progress.left == 0 && progress.has_header);
    progress = (swimtab_progress)SWIMTAB_PROGRESS_INIT;
    WANT(whole(&progress, (const uint8_t *)"\x06", 1) == SWIMTAB_ENDED && !progress.has_header && progress.at == 0);
    WANT(swimtab_whole(&progress, NULL, 9) == SWIMTAB_ENDED);
    WANT(swimtab_whole(NULL, "\x06\x80", 2) == SWIMTAB_DONE && swimtab_whole(NULL, NULL, 0) == SWIMTAB_ENDED);
}

/* With numbers that no call left, the result means nothing, but the call returns. */
static void other_numbers_are_safe(void) {
    static const size_t places[] = {0, 1, 5, 27, 28, 1000, SIZE_MAX / 2, SIZE_MAX};
    static const uint32_t counts[] = {0, 1, 2, 131073, UINT32_MAX};
    struct bytes stream = hex(PIECES);
    size_t answers = 0;
    for (size_t i = 0; i < 8 * 5 * 5 * 2; i++) {
        swimtab_progress progress = SWIMTAB_PROGRESS_INIT;
        progress.at = places[i % 8];
        progress.left = counts[i / 8 % 5];
        progress.user_len = counts[i / 40 % 5];
        progress.has_header = i / 200 % 2;
        uint32_t status = swimtab_whole(&progress, stream.at, stream.len);
        answers += status <= SWIMTAB_USER_TOO_LONG;
    }
    WANT(answers == 8 * 5 * 5 * 2);
    /* behind the last byte there is none */
    swimtab_progress behind = {stream.len + 14, 9, 9, true};
    WANT(swimtab_whole(&behind, stream.at, stream.len) == SWIMTAB_ENDED);
    free(stream.at);
}

int main(void) {
    static const struct test tests[] = {
        {"a stream may come byte by byte", a_stream_may_come_byte_by_byte},
        {"pieces have any size", pieces_have_any_size},
        {"each record is read once", each_record_is_read_once},
        {"what is no stream is refused", what_is_no_stream_is_refused},
        {"a fault behind whole records is found", a_fault_behind_whole_records_is_found},
        {"streams without records are whole", streams_without_records_are_whole},
        {"other numbers are safe", other_numbers_are_safe},
    };
    return run_tests(tests, sizeof tests / sizeof *tests);
}

/* Views: streams told record by record and written, limits, and calls with NULL or an empty handle. The expected
 * values are those of include/swimtab.h, of docs/messages.md and of memberlist's state.go. */
#include "views.h"

/* b is alive at 4, c suspected at 5, d dead at 2, and e left at 3. */
#define RECORDS \
    MEMBER("62", "02", "04", "a3776562", "00") MEMBER("63", "03", "05", "a0", "01") \
    MEMBER("64", "04", "02", "a0", "02") MEMBER("65", "05", "03", "a0", "03")
#define STREAM HEADER("c2", "04") RECORDS
#define JOINING HEADER("c3", "04") RECORDS
#define WITH_USER_STATE "0683a44a6f696ec3a54e6f64657304ac5573657253746174654c656e03" RECORDS "78797a"

static const struct shown alive_b = {"b", SWIMTAB_ALIVE, 4, 9, 2, "web", NULL, 0, 0};

/* A view of the members of STREAM, in those states. */
static swimtab_view with_all(void) {
    swimtab_view view = new_view();
    told_at(&view, 1, alive("b", 4, 2, "web"), SWIMTAB_JOINED);
    told_at(&view, 1, alive("c", 5, 3, ""), SWIMTAB_JOINED);
    told_at(&view, 1, alive("d", 2, 4, ""), SWIMTAB_JOINED);
    told_at(&view, 1, alive("e", 3, 5, ""), SWIMTAB_JOINED);
    told_at(&view, 2, suspicion("b", "c", 5), SWIMTAB_SUSPECTED);
    told_at(&view, 3, death("b", "d", 2), SWIMTAB_DEAD);
    told_at(&view, 4, death("e", "e", 3), SWIMTAB_LEFT);
    return view;
}

/* Tells the view the next record, from a block of exactly `len` bytes. */
static swimtab_told next(swimtab_view *view, swimtab_progress *progress, const uint8_t *at, size_t len,
                         swimtab_view_data *data) {
    struct bytes block = bytes_of_size(len, 0);
    memcpy(block.at, at, len);
    *data = blank();
    swimtab_told told = swimtab_view_merge(view, 9, progress, block.at, len, data);
    free(block.at);
    return told;
}

/* The next record has this event, after which the view copies and shows exactly this. */
static bool merges(swimtab_view *view, swimtab_progress *progress, struct bytes stream, uint32_t event,
                   struct shown wanted) {
    swimtab_view_data data;
    swimtab_told told = next(view, progress, stream.at, stream.len, &data);
    return told.status == SWIMTAB_DONE && told.event == event && is_shown(&data, wanted) && shows(view, wanted);
}

/* The next call changes nothing, and has this status. */
static bool merges_nothing(swimtab_view *view, swimtab_progress *progress, struct bytes stream, uint32_t status) {
    static struct members before;
    swimtab_view_data data;
    look(view, &before);
    return has_no_event(view, next(view, progress, stream.at, stream.len, &data), status, &data, &before);
}

/* Of names that the view does not know, only the one that is alive is new. */
static void a_stream_is_told_record_by_record(void) {
    swimtab_view view = new_view();
    swimtab_progress progress = SWIMTAB_PROGRESS_INIT, whole = SWIMTAB_PROGRESS_INIT;
    struct bytes stream = hex(WITH_USER_STATE);
    WANT(merges(&view, &progress, stream, SWIMTAB_KNOWN, alive_b));
    for (size_t i = 0; i < 3; i++) WANT(merges_nothing(&view, &progress, stream, SWIMTAB_DONE));
    WANT(merges_nothing(&view, &progress, stream, SWIMTAB_NO_ITEM));
    WANT(merges_nothing(&view, &progress, stream, SWIMTAB_NO_ITEM));
    WANT(progress.left == 0 && progress.at + 3 == stream.len && progress.user_len == 3);
    WANT(swimtab_whole(&whole, stream.at, stream.len) == SWIMTAB_DONE && whole.at == progress.at);
    /* and the view tells it as it was told */
    swimtab_buffer buffer = SWIMTAB_BUFFER_INIT;
    WANT(swimtab_view_offer(&view, false, NULL, 0, &buffer) == SWIMTAB_DONE);
    WANT(is_hex(buffer.at, buffer.len, HEADER("c2", "01") MEMBER("62", "02", "04", "a3776562", "00")));
    swimtab_free(&buffer);
    free(stream.at);
    WANT(swimtab_view_close(&view) == SWIMTAB_DONE);
}

/* memberlist only suspects whom a stream has dead, in nobody's name. */
static void records_of_known_members_change_them(void) {
    swimtab_view view = new_view();
    swimtab_progress progress = SWIMTAB_PROGRESS_INIT;
    struct bytes stream = hex(STREAM);
    told_at(&view, 1, alive("b", 3, 2, ""), SWIMTAB_JOINED);
    told_at(&view, 1, alive("c", 5, 3, ""), SWIMTAB_JOINED);
    told_at(&view, 1, alive("d", 1, 4, ""), SWIMTAB_JOINED);
    told_at(&view, 1, alive("e", 3, 5, ""), SWIMTAB_JOINED);
    WANT(merges(&view, &progress, stream, SWIMTAB_UPDATED,
                (struct shown){"b", SWIMTAB_ALIVE, 4, 1, 2, "web", NULL, 0, 0}));
    WANT(merges(&view, &progress, stream, SWIMTAB_SUSPECTED, (struct shown){"c", SWIMTAB_SUSPECT, 5, 9, .host = 3}));
    WANT(merges(&view, &progress, stream, SWIMTAB_SUSPECTED, (struct shown){"d", SWIMTAB_SUSPECT, 2, 9, .host = 4}));
    WANT(merges(&view, &progress, stream, SWIMTAB_LEFT, (struct shown){"e", SWIMTAB_LEAVE, 3, 9, .host = 5}));
    WANT(merges_nothing(&view, &progress, stream, SWIMTAB_NO_ITEM));
    WANT(swimtab_view_accuser(&view, "d", 1, 0, NULL, 0).status == SWIMTAB_NO_ITEM);
    /* the same once more changes nothing */
    progress = (swimtab_progress)SWIMTAB_PROGRESS_INIT;
    for (size_t i = 0; i < 4; i++) WANT(merges_nothing(&view, &progress, stream, SWIMTAB_DONE));
    WANT(merges_nothing(&view, &progress, stream, SWIMTAB_NO_ITEM));
    free(stream.at);
    WANT(swimtab_view_close(&view) == SWIMTAB_DONE);
}

static void records_at_incarnation_0_are_noted(void) {
    swimtab_view view = new_view();
    swimtab_progress progress = SWIMTAB_PROGRESS_INIT;
    struct bytes stream =
        hex(HEADER("c2", "02") MEMBER("62", "02", "00", "a0", "00") MEMBER("62", "02", "01", "a0", "00"));
    WANT(merges(&view, &progress, stream, SWIMTAB_KNOWN, (struct shown){"b", SWIMTAB_NOTED, 0, 9, .host = 2}));
    WANT(merges(&view, &progress, stream, SWIMTAB_KNOWN, (struct shown){"b", SWIMTAB_ALIVE, 1, 9, .host = 2}));
    free(stream.at);
    WANT(swimtab_view_close(&view) == SWIMTAB_DONE);
}

static void a_stream_may_come_byte_by_byte(void) {
    swimtab_view view = with_all(), fresh = new_view();
    swimtab_progress progress = SWIMTAB_PROGRESS_INIT, in_fresh = SWIMTAB_PROGRESS_INIT;
    struct bytes stream = hex(STREAM);
    size_t records = 0;
    for (size_t len = 0; len <= stream.len; len++) {
        struct bytes piece = {stream.at, len};
        swimtab_view_data data;
        swimtab_told told = next(&fresh, &in_fresh, stream.at, len, &data);
        bool ended = told.status == SWIMTAB_ENDED;
        WANT(ended ? told.event == SWIMTAB_NO_EVENT && is_blank(&data) : told.status == SWIMTAB_DONE);
        records += !ended;
        WANT(merges_nothing(&view, &progress, piece, ended ? SWIMTAB_ENDED : SWIMTAB_DONE));
    }
    WANT(records == 4 && swimtab_view_count(&fresh) == 1 && shows(&fresh, alive_b));
    WANT(merges_nothing(&view, &progress, stream, SWIMTAB_NO_ITEM));
    WANT(merges_nothing(&fresh, &in_fresh, stream, SWIMTAB_NO_ITEM));
    free(stream.at);
    WANT(swimtab_view_close(&view) == SWIMTAB_DONE && swimtab_view_close(&fresh) == SWIMTAB_DONE);
}

/* The fault is that of swimtab_whole. */
static void what_is_no_stream_is_refused(void) {
    swimtab_view view = with_all();
    for (size_t i = 0; i < sizeof no_streams / sizeof *no_streams; i++) {
        struct bytes stream = hex(no_streams[i].bytes);
        swimtab_progress progress = SWIMTAB_PROGRESS_INIT;
        /* a stream without records whose user state is cut has no record left */
        bool is_told = strstr(no_streams[i].bytes, "0681ac5573657253746174654c656e02ff") != NULL;
        WANT(merges_nothing(&view, &progress, stream, is_told ? SWIMTAB_NO_ITEM : no_streams[i].status));
        free(stream.at);
    }
    /* the record before the fault is told */
    struct bytes stream = hex(HEADER("c2", "02") MEMBER("62", "02", "05", "a0", "00") "81a44e616d65a0");
    swimtab_progress progress = SWIMTAB_PROGRESS_INIT;
    swimtab_view_data data;
    WANT(next(&view, &progress, stream.at, stream.len, &data).event == SWIMTAB_UPDATED);
    for (size_t i = 0; i < 2; i++) WANT(merges_nothing(&view, &progress, stream, SWIMTAB_NAME_EMPTY));
    free(stream.at);
    WANT(swimtab_view_close(&view) == SWIMTAB_DONE);
}

static void a_view_is_written_as_a_stream(void) {
    swimtab_view view = with_all();
    swimtab_buffer buffer = SWIMTAB_BUFFER_INIT;
    WANT(swimtab_view_offer(&view, false, NULL, 9, &buffer) == SWIMTAB_DONE && is_hex(buffer.at, buffer.len, STREAM));
    WANT(swimtab_view_offer(&view, true, "", 0, &buffer) == SWIMTAB_DONE && is_hex(buffer.at, buffer.len, JOINING));
    /* f has no versions, and g is only noted */
    told_at(&view, 5, alive_with_versions("f", 1, 6, 7946, "", NULL), SWIMTAB_JOINED);
    told_at(&view, 5, alive("g", 0, 7, ""), SWIMTAB_KNOWN);
    WANT(swimtab_view_offer(&view, true, "xyz", 3, &buffer) == SWIMTAB_DONE);
    WANT(is_hex(buffer.at, buffer.len, WITH_USER_STATE) && swimtab_view_count(&view) == 6);
    const swimtab_buffer before = buffer;
    struct bytes user = bytes_of_size(20971521, 1);
    WANT(swimtab_view_offer(&view, true, user.at, user.len, &buffer) == SWIMTAB_USER_TOO_LONG);
    WANT(buffer.at == before.at && buffer.len == before.len && is_hex(buffer.at, buffer.len, WITH_USER_STATE));
    WANT(swimtab_view_offer(&view, true, user.at, user.len - 1, &buffer) == SWIMTAB_DONE);
    WANT(buffer.len == before.len - 3 + 4 + user.len - 1);
    WANT(swimtab_view_offer(&view, true, NULL, 0, NULL) == SWIMTAB_TOO_SMALL);
    free(user.at);
    /* a view of nobody */
    swimtab_view fresh = new_view();
    WANT(swimtab_view_offer(&fresh, false, NULL, 0, &buffer) == SWIMTAB_DONE);
    WANT(is_hex(buffer.at, buffer.len, HEADER("c2", "00")));
    swimtab_free(&buffer);
    WANT(swimtab_view_close(&view) == SWIMTAB_DONE && swimtab_view_close(&fresh) == SWIMTAB_DONE);
}

/* A node takes in each state, and a view what memberlist merges. */
static void what_is_written_is_read_back(void) {
    swimtab_view view = with_all(), fresh = new_view();
    swimtab_node node = opened("z", 1, 0);
    swimtab_buffer buffer = SWIMTAB_BUFFER_INIT;
    WANT(swimtab_view_offer(&view, true, NULL, 0, &buffer) == SWIMTAB_DONE);
    swimtab_exchanged made = swimtab_finish(&node, buffer.at, buffer.len);
    WANT(made.status == SWIMTAB_DONE && made.join && made.news && made.used == buffer.len);
    WANT(lists(&node, "b alive 4 4/0a000002/7946/776562/010502000000\nc suspect 5 -\nd confirm 2 -\ne leave 3 -\n"
                      "z alive 0 0/7f000001/1//\n"));
    struct bytes stream = {bytes_of_size(buffer.len, 0).at, buffer.len};
    memcpy(stream.at, buffer.at, buffer.len);
    swimtab_progress progress = SWIMTAB_PROGRESS_INIT, again = SWIMTAB_PROGRESS_INIT;
    for (size_t i = 0; i < 4; i++) WANT(merges_nothing(&view, &progress, stream, SWIMTAB_DONE));
    WANT(merges(&fresh, &again, stream, SWIMTAB_KNOWN, alive_b) && swimtab_view_count(&fresh) == 1);
    /* all are alive, so the other view shows all of them */
    told_at(&view, 10, alive("c", 6, 3, ""), SWIMTAB_REFUTED);
    told_at(&view, 10, alive("d", 3, 4, ""), SWIMTAB_BACK);
    told_at(&view, 10, alive("e", 4, 5, ""), SWIMTAB_BACK);
    WANT(swimtab_view_offer(&view, false, NULL, 0, &buffer) == SWIMTAB_DONE);
    again = (swimtab_progress)SWIMTAB_PROGRESS_INIT;
    while (swimtab_view_merge(&fresh, 9, &again, buffer.at, buffer.len, NULL).status == SWIMTAB_DONE) continue;
    WANT(swimtab_view_count(&fresh) == 4 && shows(&fresh, alive_b));
    WANT(shows(&fresh, (struct shown){"c", SWIMTAB_ALIVE, 6, 9, .host = 3}));
    WANT(shows(&fresh, (struct shown){"d", SWIMTAB_ALIVE, 3, 9, .host = 4}));
    WANT(shows(&fresh, (struct shown){"e", SWIMTAB_ALIVE, 4, 9, .host = 5}));
    swimtab_free(&buffer);
    free(stream.at);
    WANT(swimtab_close(&node) == SWIMTAB_DONE);
    WANT(swimtab_view_close(&view) == SWIMTAB_DONE && swimtab_view_close(&fresh) == SWIMTAB_DONE);
}

/* What swimtab_offer writes for memberlist is told in the same way. */
static void a_stream_of_a_node_is_told(void) {
    swimtab_view view = new_view();
    swimtab_node node = SWIMTAB_NODE_INIT;
    swimtab_buffer buffer = SWIMTAB_BUFFER_INIT;
    const uint8_t addr[4] = {10, 0, 0, 2};
    struct said c = alive("c", 5, 3, ""), suspected = suspicion("b", "c", 5);
    WANT(open_with(&node, "b", 1, addr, 4, 7946, "web", 3, sound, 6, 4) == SWIMTAB_DONE);
    WANT(swimtab_take(&node, c.at, c.len).news && swimtab_take(&node, suspected.at, suspected.len).news);
    WANT(swimtab_offer_new(&node, true, SWIMTAB_MEMBERLIST, "xyz", 3, &buffer) == SWIMTAB_DONE);
    swimtab_progress progress = SWIMTAB_PROGRESS_INIT, again = SWIMTAB_PROGRESS_INIT;
    swimtab_view_data data;
    swimtab_told told = next(&view, &progress, buffer.at, buffer.len, &data);
    WANT(told.event == SWIMTAB_KNOWN && is_shown(&data, alive_b));
    WANT(next(&view, &progress, buffer.at, buffer.len, &data).event == SWIMTAB_NO_EVENT);
    WANT(next(&view, &progress, buffer.at, buffer.len, &data).status == SWIMTAB_NO_ITEM);
    told_at(&view, 5, c, SWIMTAB_JOINED);
    WANT(next(&view, &again, buffer.at, buffer.len, &data).event == SWIMTAB_NO_EVENT);
    WANT(next(&view, &again, buffer.at, buffer.len, &data).event == SWIMTAB_SUSPECTED);
    WANT(is_shown(&data, (struct shown){"c", SWIMTAB_SUSPECT, 5, 9, .host = 3}) && progress.at + 3 == buffer.len);
    swimtab_free(&buffer);
    WANT(swimtab_close(&node) == SWIMTAB_DONE && swimtab_view_close(&view) == SWIMTAB_DONE);
}

static void the_longest_values_are_copied_out(void) {
    swimtab_view view = new_view();
    struct bytes name = bytes_of_size(1025, 'n'), addr = bytes_of_size(16, 1), meta = bytes_of_size(512, 2),
                 by = bytes_of_size(1024, 4), out = bytes_of_size(SWIMTAB_MAX_PACKET_LEN, 0);
    swimtab_written written = alive_with(name.at, 1024, addr.at, 16, 65535, meta.at, meta.len, sound, 6, UINT32_MAX,
                                         out.at, out.len);
    swimtab_view_data data = blank(), wanted = blank();
    WANT(swimtab_view_take(&view, 1, out.at, written.len, NULL).event == SWIMTAB_JOINED);
    written = swimtab_suspect_of(by.at, by.len, name.at, 1024, UINT32_MAX, out.at, out.len);
    WANT(swimtab_view_take(&view, UINT64_MAX, out.at, written.len, &data).event == SWIMTAB_SUSPECTED);
    wanted.since = UINT64_MAX, wanted.state = SWIMTAB_SUSPECT, wanted.inc = UINT32_MAX, wanted.port = 65535;
    wanted.name_len = 1024, wanted.meta_len = 512, wanted.by_len = 1024, wanted.accusers = 1, wanted.rivals = 0;
    wanted.addr_len = 16, wanted.vsn_len = 6;
    memcpy(wanted.addr, addr.at, 16), memcpy(wanted.vsn, sound, 6), memcpy(wanted.meta, meta.at, 512);
    memcpy(wanted.name, name.at, 1024), memcpy(wanted.by, by.at, 1024), memset(wanted.reserved, 0, 32);
    WANT(is_same(&data, &wanted));
    data = blank();
    WANT(swimtab_view_find(&view, name.at, 1024, &data) == SWIMTAB_DONE && is_same(&data, &wanted));
    WANT(swimtab_view_accuser(&view, name.at, 1024, 0, out.at, 1023).len == 1024 && out.at[0] != 4);
    WANT(swimtab_view_accuser(&view, name.at, 1024, 0, out.at, 1024).len == 1024 && memcmp(out.at, by.at, 1024) == 0);
    /* a name of 1,025 bytes */
    data = blank();
    WANT(swimtab_view_find(&view, name.at, 1025, &data) == SWIMTAB_NO_MEMBER);
    WANT(swimtab_view_after(&view, name.at, 1025, &data) == SWIMTAB_NAME_TOO_LONG);
    WANT(swimtab_view_accuser(&view, name.at, 1025, 0, out.at, 9).status == SWIMTAB_NO_MEMBER && is_blank(&data));
    free(name.at), free(addr.at), free(meta.at), free(by.at), free(out.at);
    WANT(swimtab_view_close(&view) == SWIMTAB_DONE);
}

static void accusers_and_rivals_are_counted_to_255(void) {
    swimtab_view view = new_view();
    swimtab_view_data data;
    char from[16];
    told_at(&view, 1, alive("b", 1, 2, ""), SWIMTAB_JOINED);
    for (int i = 0; i < 257; i++) {
        struct said rival = alive_with_versions("b", 1, 2, (uint16_t)i, "", sound);
        snprintf(from, sizeof from, "x%d", i);
        struct said said = suspicion(from, "b", 1);
        uint32_t conflict = i < 255 ? SWIMTAB_CONFLICT : SWIMTAB_NO_EVENT;
        uint32_t event = i == 0 ? SWIMTAB_SUSPECTED : i < 255 ? SWIMTAB_ALSO_SUSPECTED : SWIMTAB_NO_EVENT;
        WANT(swimtab_view_take(&view, 2, rival.at, rival.len, NULL).event == conflict);
        WANT(swimtab_view_take(&view, 3, said.at, said.len, NULL).event == event);
    }
    WANT(swimtab_view_find(&view, "b", 1, &data) == SWIMTAB_DONE && data.accusers == 255 && data.rivals == 255);
    WANT(data.by_len == 4 && memcmp(data.by, "x254", 4) == 0);
    WANT(swimtab_view_accuser(&view, "b", 1, 254, from, sizeof from).len == 4 && memcmp(from, "x254", 4) == 0);
    WANT(swimtab_view_accuser(&view, "b", 1, 255, from, sizeof from).status == SWIMTAB_NO_ITEM);
    WANT(swimtab_view_close(&view) == SWIMTAB_DONE);
}

/* A stream has at most 131,072 records. */
static void a_view_of_too_many_members_is_not_written(void) {
    swimtab_view view = new_view();
    swimtab_buffer buffer = SWIMTAB_BUFFER_INIT;
    struct said said = alive("000000", 1, 2, "");
    size_t digits = 0, joined = 0;
    while (memcmp(said.at + digits, "000000", 6) != 0) digits++;
    for (unsigned i = 0; i <= 131072; i++) {
        char name[16];
        snprintf(name, sizeof name, "%06u", i);
        memcpy(said.at + digits, name, 6);
        if (i == 131072) WANT(swimtab_view_offer(&view, false, NULL, 0, &buffer) == SWIMTAB_DONE);
        joined += swimtab_view_take(&view, 1, said.at, said.len, NULL).event == SWIMTAB_JOINED;
    }
    swimtab_progress progress = SWIMTAB_PROGRESS_INIT;
    const swimtab_buffer before = buffer;
    WANT(joined == 131073 && swimtab_view_count(&view) == 131073);
    WANT(swimtab_view_offer(&view, false, NULL, 0, &buffer) == SWIMTAB_TOO_MANY_RECORDS);
    WANT(buffer.at == before.at && swimtab_whole(&progress, buffer.at, buffer.len) == SWIMTAB_DONE);
    swimtab_free(&buffer);
    WANT(swimtab_view_close(&view) == SWIMTAB_DONE);
}

/* Each call on a handle without a view. */
static void refuses_without_a_view(swimtab_view *none) {
    swimtab_view_data data = blank();
    swimtab_progress progress = SWIMTAB_PROGRESS_INIT;
    swimtab_buffer buffer = SWIMTAB_BUFFER_INIT;
    struct said said = alive("b", 1, 2, "");
    struct bytes stream = hex(STREAM);
    uint8_t out[4] = {7};
    swimtab_told told = swimtab_view_take(none, 1, said.at, said.len, &data);
    WANT(told.status == SWIMTAB_NO_NODE && told.event == SWIMTAB_NO_EVENT);
    told = swimtab_view_merge(none, 1, &progress, stream.at, stream.len, &data);
    WANT(told.status == SWIMTAB_NO_NODE && told.event == SWIMTAB_NO_EVENT);
    WANT(swimtab_view_take(none, 1, NULL, 0, NULL).status == SWIMTAB_NO_NODE);
    WANT(swimtab_view_merge(none, 1, NULL, NULL, 0, NULL).status == SWIMTAB_NO_NODE);
    WANT(swimtab_view_forget(none, UINT64_MAX) == 0 && swimtab_view_count(none) == 0);
    WANT(swimtab_view_find(none, "b", 1, &data) == SWIMTAB_NO_NODE);
    WANT(swimtab_view_after(none, "", 0, &data) == SWIMTAB_NO_NODE);
    swimtab_written written = swimtab_view_accuser(none, "b", 1, 0, out, 4);
    WANT(written.status == SWIMTAB_NO_NODE && written.len == 0 && out[0] == 7);
    WANT(swimtab_view_offer(none, true, NULL, 0, &buffer) == SWIMTAB_NO_NODE && !buffer.kept.held);
    WANT(swimtab_view_offer(none, true, NULL, 0, NULL) == (none ? SWIMTAB_TOO_SMALL : SWIMTAB_NO_NODE));
    WANT(swimtab_view_close(none) == SWIMTAB_NO_NODE && is_blank(&data));
    free(stream.at);
}

static void a_handle_without_a_view_has_none(void) {
    swimtab_view fresh = SWIMTAB_VIEW_INIT, zeroed, closed = new_view();
    memset(&zeroed, 0, sizeof zeroed);
    WANT(swimtab_view_close(&closed) == SWIMTAB_DONE);
    refuses_without_a_view(&fresh);
    refuses_without_a_view(&zeroed);
    refuses_without_a_view(&closed);
    refuses_without_a_view(NULL);
    WANT(swimtab_view_open(NULL, WAIT) == SWIMTAB_NO_NODE);
}

static void arguments_may_be_null(void) {
    swimtab_view view = new_view();
    struct bytes stream = hex(STREAM);
    /* without a progress each call begins anew */
    WANT(swimtab_view_merge(&view, 9, NULL, stream.at, stream.len, NULL).event == SWIMTAB_KNOWN);
    swimtab_told told = swimtab_view_merge(&view, 9, NULL, stream.at, stream.len, NULL);
    WANT(told.status == SWIMTAB_DONE && told.event == SWIMTAB_NO_EVENT && shows(&view, alive_b));
    WANT(swimtab_view_merge(&view, 9, NULL, NULL, 9, NULL).status == SWIMTAB_ENDED);
    WANT(swimtab_view_take(&view, 9, NULL, 9, NULL).status == SWIMTAB_ENDED);
    WANT(swimtab_view_find(&view, "b", 1, NULL) == SWIMTAB_DONE);
    WANT(swimtab_view_find(&view, NULL, 1, NULL) == SWIMTAB_NO_MEMBER);
    WANT(swimtab_view_accuser(&view, NULL, 1, 0, NULL, 9).status == SWIMTAB_NO_MEMBER);
    free(stream.at);
    WANT(swimtab_view_close(&view) == SWIMTAB_DONE);
}

int main(void) {
    static const struct test tests[] = {
        {"a stream is told record by record", a_stream_is_told_record_by_record},
        {"records of known members change them", records_of_known_members_change_them},
        {"records at incarnation 0 are noted", records_at_incarnation_0_are_noted},
        {"a stream may come byte by byte", a_stream_may_come_byte_by_byte},
        {"what is no stream is refused", what_is_no_stream_is_refused},
        {"a view is written as a stream", a_view_is_written_as_a_stream},
        {"what is written is read back", what_is_written_is_read_back},
        {"a stream of a node is told", a_stream_of_a_node_is_told},
        {"the longest values are copied out", the_longest_values_are_copied_out},
        {"accusers and rivals are counted to 255", accusers_and_rivals_are_counted_to_255},
        {"a view of too many members is not written", a_view_of_too_many_members_is_not_written},
        {"a handle without a view has none", a_handle_without_a_view_has_none},
        {"arguments may be NULL", arguments_may_be_null},
    };
    return run_tests(tests, sizeof tests / sizeof *tests);
}

/* Views: what is told of messages, one after the other. The expected values are those of include/swimtab.h and of
 * memberlist's state.go. */
#include "views.h"

static void a_view_is_opened_and_closed(void) {
    int mine;
    swimtab_view view = SWIMTAB_VIEW_INIT;
    view.user = &mine;
    WANT(swimtab_view_close(&view) == SWIMTAB_NO_NODE && view.user == &mine);
    WANT(swimtab_view_open(&view, WAIT) == SWIMTAB_DONE && view.held && view.user == &mine);
    WANT(swimtab_view_count(&view) == 0);
    WANT(hears(&view, 1, alive("b", 1, 2, ""), SWIMTAB_JOINED, (struct shown){"b", SWIMTAB_ALIVE, 1, 1, .host = 2}));
    const swimtab_view before = view;
    WANT(swimtab_view_open(&view, 1) == SWIMTAB_NODE_THERE);
    WANT(view.at == before.at && view.held && view.user == &mine && swimtab_view_count(&view) == 1);
    WANT(swimtab_view_close(&view) == SWIMTAB_DONE && !view.held && view.user == &mine);
    WANT(swimtab_view_close(&view) == SWIMTAB_NO_NODE && view.user == &mine);
    WANT(swimtab_view_open(&view, 0) == SWIMTAB_DONE && swimtab_view_count(&view) == 0 && view.user == &mine);
    WANT(swimtab_view_close(&view) == SWIMTAB_DONE);
}

/* The accuser at the index is this one, and its name is written where it fits. */
static bool accuses(const swimtab_view *view, const char *name, size_t i, const char *wanted) {
    size_t len = strlen(wanted);
    struct bytes out = bytes_of_size(len + 1, 7), small = bytes_of_size(len - 1, 7);
    swimtab_written short_by_one = swimtab_view_accuser(view, name, strlen(name), i, small.at, small.len);
    WANT(short_by_one.status == SWIMTAB_TOO_SMALL && short_by_one.len == len);
    WANT(small.at[0] == 7 && swimtab_view_accuser(view, name, strlen(name), i, NULL, 99).len == len);
    swimtab_written written = swimtab_view_accuser(view, name, strlen(name), i, out.at, len);
    bool same = written.status == SWIMTAB_DONE && written.len == len && memcmp(out.at, wanted, len) == 0;
    WANT(out.at[len] == 7);
    free(out.at), free(small.at);
    return same;
}

/* There is no such accuser, or no such member. */
static bool accuses_none(const swimtab_view *view, const char *name, size_t i, uint32_t status) {
    uint8_t out[8] = {7};
    swimtab_written written = swimtab_view_accuser(view, name, strlen(name), i, out, sizeof out);
    return written.status == status && written.len == 0 && out[0] == 7;
}

static void a_suspicion_is_refuted(void) {
    swimtab_view view = new_view();
    struct shown b = {"b", SWIMTAB_ALIVE, 3, 100, 2, "m", NULL, 0, 0};
    WANT(hears(&view, 100, alive("b", 3, 2, "m"), SWIMTAB_JOINED, b));
    WANT(accuses_none(&view, "b", 0, SWIMTAB_NO_ITEM) && accuses_none(&view, "c", 0, SWIMTAB_NO_MEMBER));
    WANT(passes_over(&view, 150, suspicion("x", "b", 2)) && passes_over(&view, 160, death("x", "b", 2)));
    b.state = SWIMTAB_SUSPECT, b.since = 200, b.by = "x", b.accusers = 1;
    WANT(hears(&view, 200, suspicion("x", "b", 3), SWIMTAB_SUSPECTED, b));
    WANT(passes_over(&view, 250, suspicion("x", "b", 3)));
    /* the incarnation and the time stay */
    b.by = "yy", b.accusers = 2;
    WANT(hears(&view, 300, suspicion("yy", "b", 5), SWIMTAB_ALSO_SUSPECTED, b));
    WANT(accuses(&view, "b", 0, "x") && accuses(&view, "b", 1, "yy"));
    WANT(accuses_none(&view, "b", 2, SWIMTAB_NO_ITEM) && accuses_none(&view, "b", SIZE_MAX, SWIMTAB_NO_ITEM));
    WANT(accuses_none(&view, "bb", 0, SWIMTAB_NO_MEMBER) && accuses_none(&view, "", 0, SWIMTAB_NO_MEMBER));
    WANT(passes_over(&view, 350, alive("b", 3, 2, "new")) && passes_over(&view, 360, suspicion("z", "b", 2)));
    b = (struct shown){"b", SWIMTAB_ALIVE, 4, 400, 2, "new", NULL, 0, 0};
    WANT(hears(&view, 400, alive("b", 4, 2, "new"), SWIMTAB_REFUTED, b));
    WANT(accuses_none(&view, "b", 0, SWIMTAB_NO_ITEM));
    /* a new suspicion begins with its first accuser */
    b.state = SWIMTAB_SUSPECT, b.inc = 9, b.since = 500, b.by = "yy", b.accusers = 1;
    WANT(hears(&view, 500, suspicion("yy", "b", 9), SWIMTAB_SUSPECTED, b) && accuses(&view, "b", 0, "yy"));
    WANT(swimtab_view_close(&view) == SWIMTAB_DONE);
}

static void a_member_that_died_comes_back(void) {
    swimtab_view view = new_view();
    struct shown b = {"b", SWIMTAB_ALIVE, 3, 100, 2, NULL, NULL, 0, 0};
    WANT(hears(&view, 100, alive("b", 3, 2, ""), SWIMTAB_JOINED, b));
    b.state = SWIMTAB_SUSPECT, b.since = 150, b.by = "x", b.accusers = 1;
    WANT(hears(&view, 150, suspicion("x", "b", 3), SWIMTAB_SUSPECTED, b));
    b.state = SWIMTAB_CONFIRM, b.since = 200, b.by = "yy", b.accusers = 0;
    WANT(hears(&view, 200, death("yy", "b", 3), SWIMTAB_DEAD, b));
    WANT(accuses_none(&view, "b", 0, SWIMTAB_NO_ITEM));
    WANT(passes_over(&view, 250, death("z", "b", 4)) && passes_over(&view, 260, suspicion("z", "b", 4)));
    WANT(passes_over(&view, 270, alive("b", 3, 2, "late")) && passes_over(&view, 280, death("b", "b", 4)));
    b = (struct shown){"b", SWIMTAB_ALIVE, 4, 300, 2, NULL, NULL, 0, 0};
    WANT(hears(&view, 300, alive("b", 4, 2, ""), SWIMTAB_BACK, b) && passes_over(&view, 310, death("yy", "b", 3)));
    WANT(swimtab_view_close(&view) == SWIMTAB_DONE);
}

static void a_member_that_left_comes_back_from_anywhere(void) {
    swimtab_view view = new_view();
    struct shown b = {"b", SWIMTAB_ALIVE, 3, 100, .host = 2};
    WANT(hears(&view, 100, alive("b", 3, 2, ""), SWIMTAB_JOINED, b));
    b.state = SWIMTAB_LEAVE, b.inc = 4, b.since = 200;
    WANT(hears(&view, 200, death("b", "b", 4), SWIMTAB_LEFT, b));
    WANT(passes_over(&view, 250, alive("b", 4, 2, "")) && passes_over(&view, 260, death("x", "b", 9)));
    /* its address is free, whatever the incarnation */
    WANT(hears(&view, 300, alive("b", 1, 5, "m"), SWIMTAB_BACK,
               (struct shown){"b", SWIMTAB_ALIVE, 1, 300, 5, "m", NULL, 0, 0}));
    WANT(swimtab_view_close(&view) == SWIMTAB_DONE);
}

static void details_change_and_incarnations_grow(void) {
    swimtab_view view = new_view();
    struct shown b = {"b", SWIMTAB_ALIVE, 1, 100, 2, "m", NULL, 0, 0};
    const uint8_t unsound[3][6] = {{0, 5, 2, 0, 0, 0}, {1, 0, 2, 0, 0, 0}, {5, 1, 2, 0, 0, 0}};
    for (size_t i = 0; i < 3; i++)
        WANT(passes_over(&view, 50, alive_with_versions("b", 1, 2, 7946, "m", unsound[i])));
    WANT(hears(&view, 100, alive("b", 1, 2, "m"), SWIMTAB_JOINED, b));
    b.inc = 2;
    WANT(hears(&view, 200, alive("b", 2, 2, "m"), SWIMTAB_RENEWED, b));
    b.inc = 7, b.meta = "other";
    WANT(hears(&view, 300, alive("b", 7, 2, "other"), SWIMTAB_UPDATED, b));
    /* the versions that were known stay */
    b.inc = 8;
    WANT(hears(&view, 400, alive_with_versions("b", 8, 2, 7946, "other", NULL), SWIMTAB_RENEWED, b));
    WANT(passes_over(&view, 500, alive_with_versions("b", 9, 2, 7946, "m", unsound[0])));
    WANT(swimtab_view_close(&view) == SWIMTAB_DONE);
}

static void another_address_is_a_conflict(void) {
    swimtab_view view = new_view();
    struct shown b = {"b", SWIMTAB_ALIVE, 1, 100, 2, "m", NULL, 0, 0};
    WANT(hears(&view, 100, alive("b", 1, 2, "m"), SWIMTAB_JOINED, b));
    b.rivals = 1;
    WANT(hears(&view, 200, alive("b", 9, 3, "rival"), SWIMTAB_CONFLICT, b));
    WANT(passes_over(&view, 250, alive("b", 10, 3, "rival")));
    b.rivals = 2;
    WANT(hears(&view, 300, alive_with_versions("b", 9, 2, 7947, "m", sound), SWIMTAB_CONFLICT, b));
    /* the address of one that was declared dead is not free */
    b.state = SWIMTAB_CONFIRM, b.since = 400, b.by = "x";
    WANT(hears(&view, 400, death("x", "b", 1), SWIMTAB_DEAD, b));
    b.rivals = 3;
    WANT(hears(&view, 500, alive("b", 9, 4, "m"), SWIMTAB_CONFLICT, b));
    WANT(hears(&view, 600, alive("b", 2, 2, "m"), SWIMTAB_BACK,
               (struct shown){"b", SWIMTAB_ALIVE, 2, 600, 2, "m", NULL, 0, 0}));
    WANT(swimtab_view_close(&view) == SWIMTAB_DONE);
}

static void what_is_said_of_unknown_names_changes_nothing(void) {
    swimtab_view view = new_view();
    WANT(passes_over(&view, 1, suspicion("x", "b", 1)) && passes_over(&view, 1, death("x", "b", 1)));
    WANT(passes_over(&view, 1, death("b", "b", 1)) && swimtab_view_count(&view) == 0);
    WANT(swimtab_view_find(&view, "b", 1, NULL) == SWIMTAB_NO_MEMBER);
    WANT(hears(&view, 2, alive("b", 1, 2, ""), SWIMTAB_JOINED, (struct shown){"b", SWIMTAB_ALIVE, 1, 2, .host = 2}));
    WANT(passes_over(&view, 3, suspicion("x", "c", 1)) && swimtab_view_count(&view) == 1);
    WANT(swimtab_view_close(&view) == SWIMTAB_DONE);
}

static void who_is_gone_is_forgotten_after_the_wait(void) {
    swimtab_view view = new_view();
    static const char *const names[] = {"alive", "dead", "left", "suspect"};
    for (size_t i = 0; i < 4; i++) told_at(&view, 100, alive(names[i], 5, 2, ""), SWIMTAB_JOINED);
    told_at(&view, 200, suspicion("x", "suspect", 5), SWIMTAB_SUSPECTED);
    struct shown dead = {"dead", SWIMTAB_CONFIRM, 5, 200, 2, NULL, "x", 0, 0};
    struct shown left = {"left", SWIMTAB_LEAVE, 5, 300, 2, NULL, NULL, 0, 0};
    WANT(hears(&view, 200, death("x", "dead", 5), SWIMTAB_DEAD, dead));
    WANT(hears(&view, 300, death("left", "left", 5), SWIMTAB_LEFT, left));
    WANT(swimtab_view_forget(&view, 200 + WAIT) == 0 && swimtab_view_count(&view) == 4 && shows(&view, dead));
    WANT(swimtab_view_forget(&view, 201 + WAIT) == 1 && swimtab_view_count(&view) == 3 && shows(&view, left));
    WANT(swimtab_view_find(&view, "dead", 4, NULL) == SWIMTAB_NO_MEMBER);
    WANT(swimtab_view_forget(&view, 300 + WAIT) == 0 && swimtab_view_forget(&view, 301 + WAIT) == 1);
    WANT(swimtab_view_forget(&view, UINT64_MAX) == 0 && swimtab_view_count(&view) == 2);
    /* a forgotten name is a new one */
    WANT(passes_over(&view, 302 + WAIT, death("x", "dead", 5)));
    WANT(hears(&view, 400 + WAIT, alive("dead", 1, 3, ""), SWIMTAB_JOINED,
               (struct shown){"dead", SWIMTAB_ALIVE, 1, 400 + WAIT, .host = 3}));
    WANT(swimtab_view_close(&view) == SWIMTAB_DONE);
}

/* The wait is over whether or not swimtab_view_forget was called. */
static void who_is_gone_for_long_comes_back_at_any_incarnation(void) {
    swimtab_view view = new_view();
    told_at(&view, 100, alive("b", 5, 2, ""), SWIMTAB_JOINED);
    told_at(&view, 200, death("x", "b", 5), SWIMTAB_DEAD);
    WANT(passes_over(&view, 200 + WAIT, alive("b", 1, 2, "")) && passes_over(&view, 201 + WAIT, alive("b", 0, 2, "")));
    WANT(hears(&view, 201 + WAIT, alive("b", 1, 3, "m"), SWIMTAB_BACK,
               (struct shown){"b", SWIMTAB_ALIVE, 1, 201 + WAIT, 3, "m", NULL, 0, 0}));
    WANT(swimtab_view_close(&view) == SWIMTAB_DONE);
}

static void an_alive_at_incarnation_0_is_noted(void) {
    swimtab_view view = new_view();
    struct shown noted = {"b", SWIMTAB_NOTED, 0, 100, 2, "m", NULL, 0, 0};
    WANT(hears(&view, 100, alive("b", 0, 2, "m"), SWIMTAB_KNOWN, noted));
    WANT(passes_over(&view, 200, alive("b", 0, 2, "m")) && swimtab_view_count(&view) == 1);
    WANT(hears(&view, 300, alive("b", 1, 2, "m"), SWIMTAB_JOINED,
               (struct shown){"b", SWIMTAB_ALIVE, 1, 300, 2, "m", NULL, 0, 0}));
    WANT(swimtab_view_close(&view) == SWIMTAB_DONE);
}

#define PING "0082a44e6f6465a26433a55365714e6f01"
#define ACK "0282a75061796c6f6164a27570a55365714e6f07"

static void messages_without_claims_are_refused(void) {
    static const char *const others[] = {PING, ACK, "08616263", "0b81a55365714e6f07", "09", "06", HEADER("c2", "00")};
    swimtab_view view = new_view();
    struct said said = suspicion("x", "b", 9);
    told_at(&view, 1, alive("b", 1, 2, "m"), SWIMTAB_JOINED);
    for (size_t i = 0; i < sizeof others / sizeof *others; i++)
        WANT(leaves_hex(&view, others[i], SWIMTAB_WRONG_TYPE));
    /* whatever is missing */
    for (size_t len = 0; len < said.len; len++) {
        struct bytes cut = bytes_of_size(len, 0);
        memcpy(cut.at, said.at, len);
        WANT(leaves(&view, 2, cut.at, len, SWIMTAB_ENDED));
        free(cut.at);
    }
    WANT(leaves_hex(&view, "0383a446726f6da178ab496e6361726e6174696f6e09a44e6f6465a0", SWIMTAB_NAME_EMPTY));
    WANT(leaves_hex(&view, "0481a44e6f6465a163", SWIMTAB_BAD_ADDRESS));
    WANT(leaves(&view, 2, NULL, 9, SWIMTAB_ENDED));
    WANT(swimtab_view_close(&view) == SWIMTAB_DONE);
}

/* The number of events of the parts of a message, and how many are refused. */
static size_t part_events(swimtab_view *view, const char *text, size_t *refused) {
    struct bytes bytes = hex(text);
    swimtab_part_place part;
    size_t events = 0;
    for (size_t i = 0; (part = swimtab_part(bytes.at, bytes.len, i)).status == SWIMTAB_DONE; i++) {
        swimtab_told told = swimtab_view_take(view, 2, bytes.at + part.at, part.len, NULL);
        events += told.event != SWIMTAB_NO_EVENT;
        *refused += told.status != SWIMTAB_DONE;
    }
    free(bytes.at);
    return events;
}

static void the_parts_of_a_compound_message_are_told_one_by_one(void) {
    swimtab_view view = new_view();
    size_t refused = 0;
    told_at(&view, 1, alive("b", 1, 2, "m"), SWIMTAB_JOINED);
    WANT(leaves_hex(&view, "0701001d" SUSPECT_B_1, SWIMTAB_WRONG_TYPE));
    WANT(leaves_hex(&view, "0700", SWIMTAB_WRONG_TYPE));
    /* a ping, a suspicion, half a suspicion, and one of an unknown name */
    WANT(part_events(&view, "07040011001d000e001d" PING SUSPECT_B_1 "0383a446726f6da178ab496e6361" SUSPECT_A_5,
                     &refused) == 1);
    WANT(refused == 2 && shows(&view, (struct shown){"b", SWIMTAB_SUSPECT, 1, 2, 2, "m", "x", 1, 0}));
    WANT(swimtab_view_close(&view) == SWIMTAB_DONE);
}

static void keys_that_memberlist_does_not_know_are_passed_over(void) {
    swimtab_view view = new_view();
    struct said said = alive("b", 2, 2, "m");
    said.at[1]++;
    memcpy(said.at + said.len, "\xa1Z\xc3", 3), said.len += 3;
    WANT(hears(&view, 3, said, SWIMTAB_JOINED, (struct shown){"b", SWIMTAB_ALIVE, 2, 3, 2, "m", NULL, 0, 0}));
    WANT(swimtab_view_close(&view) == SWIMTAB_DONE);
}

static void a_walk_goes_on_where_it_was(void) {
    static const char *const names[] = {"m", "b", "ba", "c"};
    swimtab_view view = new_view();
    swimtab_view_data data = blank();
    char told[40] = "", *at = told, name[8] = "";
    for (size_t i = 0; i < 4; i++) told_at(&view, i, alive(names[i], 1, (uint8_t)i, ""), SWIMTAB_JOINED);
    while (swimtab_view_after(&view, name, strlen(name), &data) == SWIMTAB_DONE) {
        snprintf(name, sizeof name, "%.*s", (int)data.name_len, (const char *)data.name);
        at += sprintf(at, "%s ", name);
        /* ba dies and is forgotten while the walk is there, and bz is new */
        if (strcmp(name, "ba") == 0) {
            told_at(&view, 10, death("x", "ba", 1), SWIMTAB_DEAD);
            WANT(is_shown(&data, (struct shown){"ba", SWIMTAB_ALIVE, 1, 2, .host = 2}));
            WANT(swimtab_view_forget(&view, 11 + WAIT) == 1);
            told_at(&view, 12 + WAIT, alive("bz", 1, 9, ""), SWIMTAB_JOINED);
        }
        data = blank();
    }
    WANT(is_blank(&data) && strcmp(told, "b ba bz c m ") == 0);
    WANT(swimtab_view_after(&view, "bzz", 3, &data) == SWIMTAB_DONE);
    WANT(is_shown(&data, (struct shown){"c", SWIMTAB_ALIVE, 1, 3, .host = 3}));
    WANT(swimtab_view_after(&view, "m", 1, NULL) == SWIMTAB_NO_MEMBER);
    WANT(swimtab_view_after(&view, NULL, 9, NULL) == SWIMTAB_DONE);
    WANT(swimtab_view_close(&view) == SWIMTAB_DONE);
}

int main(void) {
    static const struct test tests[] = {
        {"a view is opened and closed", a_view_is_opened_and_closed},
        {"a suspicion is refuted", a_suspicion_is_refuted},
        {"a member that died comes back", a_member_that_died_comes_back},
        {"a member that left comes back from anywhere", a_member_that_left_comes_back_from_anywhere},
        {"details change and incarnations grow", details_change_and_incarnations_grow},
        {"another address is a conflict", another_address_is_a_conflict},
        {"what is said of unknown names changes nothing", what_is_said_of_unknown_names_changes_nothing},
        {"who is gone is forgotten after the wait", who_is_gone_is_forgotten_after_the_wait},
        {"who is gone for long comes back at any incarnation", who_is_gone_for_long_comes_back_at_any_incarnation},
        {"an Alive at incarnation 0 is noted", an_alive_at_incarnation_0_is_noted},
        {"messages without claims are refused", messages_without_claims_are_refused},
        {"the parts of a compound message are told one by one", the_parts_of_a_compound_message_are_told_one_by_one},
        {"keys that memberlist does not know are passed over", keys_that_memberlist_does_not_know_are_passed_over},
        {"a walk goes on where it was", a_walk_goes_on_where_it_was},
    };
    return run_tests(tests, sizeof tests / sizeof *tests);
}

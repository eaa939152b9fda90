/* Refuses each allocation of a run in turn. Every call is done, or returns SWIMTAB_MEMORY and has changed no
 * node, view, buffer or noted name; repeated, it is done, and writes what it writes if nothing is refused; and at
 * the end all memory is freed. No freed memory may hold a key: tests/embedded knows the keys, and looks for them.
 * Link it with -Wl,--wrap=malloc,--wrap=realloc,--wrap=free. */
#include "refusing.h"

enum { ROOM = 1 << 14 };

static swimtab_node first, second;
static swimtab_view view;
static swimtab_keyring keyring;
static swimtab_buffer buffer;
static uint8_t offer[ROOM], reply[ROOM], out[ROOM];
static size_t offer_len, reply_len;
static size_t out_len; /* how many bytes the last call wrote to out */

/* The calls of a run, in their order; each returns its status. The results that say more than a status are checked
 * where the call is: all are empty if it is refused. */

static uint32_t with_news(swimtab_taken taken) {
    WANT(taken.news == (taken.status == SWIMTAB_DONE));
    return taken.status;
}
static uint32_t refuted_at(swimtab_refuted refuted, uint32_t inc) {
    bool done = refuted.status == SWIMTAB_DONE;
    WANT(refuted.due == done && refuted.inc == (done ? inc : 0));
    return refuted.status;
}
static uint32_t exchanged(swimtab_exchanged made, size_t used) {
    bool done = made.status == SWIMTAB_DONE;
    WANT(made.news == done && made.used == (done ? used : 0) && (done || (!made.join && made.len == 0)));
    out_len = made.len;
    return made.status;
}

static const uint8_t local[4] = {127, 0, 0, 1};
static const char long_name[] = "a name of more than thirty bytes, which takes memory";
static uint8_t meta[200];

static uint32_t open_first(void) {
    return open_with(&first, long_name, sizeof long_name - 1, local, 4, 7946, meta, sizeof meta, NULL, 0, 1);
}
static uint32_t watch_first(void) { return swimtab_watch(&first, true); }
static uint32_t watch_second(void) { return swimtab_watch(&second, true); }
static uint32_t open_second(void) {
    return open_with(&second, "b", 1, local, 4, 7947, NULL, 0, NULL, 0, 1);
}
static uint32_t take(swimtab_node *node, const char *text) {
    uint8_t bytes[512];
    size_t len = 0;
    for (; digit_of(text[2 * len]) < 16; len++)
        bytes[len] = (uint8_t)(16 * digit_of(text[2 * len]) + digit_of(text[2 * len + 1]));
    watching = true;
    uint32_t status = with_news(swimtab_take(node, bytes, len));
    watching = false;
    return status;
}
static uint32_t take_alive(void) {
    return take(&first, "0486a441646472a47f000001ab496e6361726e6174696f6e04a44d657461a0a44e6f6465a161a4506f7274cd1f"
                        "0ba356736ea0");
}
static uint32_t take_known(void) {
    return take(&first, "0383a446726f6da178ab496e6361726e6174696f6e05a44e6f6465a161");
}
static uint32_t take_compound(void) {
    return take(&first, "0703001d001d001d" "0383a446726f6da178ab496e6361726e6174696f6e05a44e6f6465a163"
                        "0583a446726f6da178ab496e6361726e6174696f6e05a44e6f6465a161"
                        "0383a446726f6da178ab496e6361726e6174696f6e01a44e6f6465a164");
}
static uint32_t suspect_second(void) {
    return take(&second, "0383a446726f6da178ab496e6361726e6174696f6e01a44e6f6465a162");
}
static uint32_t suspect_second_again(void) {
    return take(&second, "0383a446726f6da178ab496e6361726e6174696f6e09a44e6f6465a162");
}
static uint32_t kept(swimtab_written written) {
    out_len = written.len;
    return written.status;
}
static uint32_t kept_unwrapped(swimtab_unwrapped unwrapped, uint32_t kind) {
    WANT(unwrapped.kind == (unwrapped.status == SWIMTAB_DONE ? kind : 0));
    out_len = unwrapped.len;
    return unwrapped.status;
}
/* The same if it is in memory of the library. */
static uint32_t kept_new(swimtab_unwrapped unwrapped, uint32_t kind) {
    bool done = unwrapped.status == SWIMTAB_DONE;
    WANT(done ? unwrapped.kind == kind && unwrapped.len == buffer.len : unwrapped.len == 0);
    return unwrapped.status;
}
static uint32_t say_alive(void) { return kept(swimtab_alive(&first, 2, out, ROOM)); }
static uint32_t say_suspect(void) { return kept(swimtab_suspect(&first, long_name, 40, 2, out, ROOM)); }
static uint32_t say_confirm(void) { return kept(swimtab_confirm(&first, long_name, 40, 2, out, ROOM)); }
static uint32_t say_leave(void) { return kept(swimtab_leave(&first, 2, out, ROOM)); }
static uint32_t say_compound(void) {
    static const uint8_t packets[] = "\x03\x81\xa4Node\xa1g\x03\x81\xa4Node\xa1h";
    const size_t lens[2] = {9, 9};
    return kept(swimtab_compound(packets, 18, lens, 2, out, ROOM));
}
static uint32_t list_first(void) { return kept(swimtab_list(&first, out, ROOM)); }
static swimtab_progress arrived; /* of the offer */
static uint32_t offer_first(void) {
    uint32_t status = kept(swimtab_offer(&first, true, SWIMTAB_CANONICAL, NULL, 0, out, ROOM));
    memcpy(offer, out, out_len);
    offer_len = out_len;
    arrived = (swimtab_progress)SWIMTAB_PROGRESS_INIT;
    return status;
}
static uint32_t answer_second(void) {
    uint32_t status =
        exchanged(swimtab_answer(&second, offer, offer_len, SWIMTAB_CANONICAL, NULL, 0, out, ROOM), offer_len);
    memcpy(reply, out, out_len);
    reply_len = out_len;
    return status;
}
static uint32_t say_alive_of(void) {
    return kept(alive_with(long_name, 40, local, 4, 1, meta, sizeof meta, NULL, 0, 9, out, ROOM));
}
/* Two keys of 32 and 16 bytes, and a suspicion that is sealed and unwrapped again. */
static const uint8_t keys[2][32] = {
    {0x20, 0x27, 0x2e, 0x35, 0x3c, 0x43, 0x4a, 0x51, 0x58, 0x5f, 0x66, 0x6d, 0x74, 0x7b, 0x82, 0x89,
     0x90, 0x97, 0x9e, 0xa5, 0xac, 0xb3, 0xba, 0xc1, 0xc8, 0xcf, 0xd6, 0xdd, 0xe4, 0xeb, 0xf2, 0xf9},
    {0x10, 0x17, 0x1e, 0x25, 0x2c, 0x33, 0x3a, 0x41, 0x48, 0x4f, 0x56, 0x5d, 0x64, 0x6b, 0x72, 0x79},
};
static uint8_t sealed[256], unwrapped[256];
static size_t sealed_len, unwrapped_len;

static uint32_t add_key(void) { return swimtab_keyring_add(&keyring, keys[0], 32); }
static uint32_t add_another_key(void) { return swimtab_keyring_add(&keyring, keys[1], 16); }
static uint32_t accept_clear(void) { return swimtab_keyring_accept_clear(&keyring); }
static uint32_t seal(void) {
    static const uint8_t message[] = "\x03\x82\xabIncarnation\x01\xa4Node\xa1y", nonce[SWIMTAB_NONCE_LEN] = {9};
    uint32_t status = kept(swimtab_seal(&keyring, nonce, "dc", 2, message, sizeof message - 1, out, ROOM));
    memcpy(sealed, out, out_len);
    sealed_len = out_len;
    return status;
}
static uint32_t unwrap(void) {
    uint32_t status = kept_unwrapped(swimtab_unwrap(&keyring, sealed, sealed_len, out, ROOM), SWIMTAB_KIND_SUSPECT);
    memcpy(unwrapped, out, out_len);
    unwrapped_len = out_len;
    return status;
}
static uint32_t take_unwrapped(void) { return with_news(swimtab_take(&second, unwrapped, unwrapped_len)); }
/* an Alive that was compressed, with its checksum */
static uint32_t unwrap_compressed(void) {
    static const uint8_t packet[] =
        "\x0c\xaa\x79\x8b\x02\x09\x82\xa4\x41\x6c\x67\x6f\x00\xa3\x42\x75\x66\xda\x00\x3c\x00\x09\x18\x22\x15"
        "\x84\x0c\x19\x39\xa4\xfe\x00\x00\x10\x60\x55\x12\x37\x63\xc2\xc8\x71\x13\x86\x4e\x9a\x37\x6e\x00\x90"
        "\x6a\x52\x86\x4e\x18\x50\xa4\x9c\xbc\x21\x53\x26\x54\x18\x52\x50\xde\xc8\xa1\xd3\xec\x83\x82\x51\x56"
        "\xe6\xb8\x01\x15\x10";
    return kept_unwrapped(swimtab_unwrap(NULL, packet, sizeof packet - 1, out, ROOM), SWIMTAB_KIND_ALIVE);
}
static uint32_t unwrap_new(void) {
    return kept_new(swimtab_unwrap_new(&keyring, sealed, sealed_len, &buffer), SWIMTAB_KIND_SUSPECT);
}
/* A stream that suspects f, sealed as one and as a reply, and unwrapped again, also once the other key is the first. */
static const uint8_t stream[] = "\x06\x81\xa5Nodes\x01\x82\xa4Name\xa1" "f\xa5State\x01";
enum { STREAM_LEN = sizeof stream - 1 };
static uint8_t sealed_stream[128], sealed_reply[128];
static size_t sealed_stream_len, sealed_reply_len;

static uint32_t seal_stream(void) {
    static const uint8_t nonce[SWIMTAB_NONCE_LEN] = {8};
    uint32_t status = kept(swimtab_seal_stream(&keyring, nonce, "dc", 2, false, stream, STREAM_LEN, out, 128));
    memcpy(sealed_stream, out, out_len);
    sealed_stream_len = out_len;
    return status;
}
static uint32_t seal_reply(void) {
    static const uint8_t nonce[SWIMTAB_NONCE_LEN] = {7};
    uint32_t status = kept(swimtab_seal_stream(&keyring, nonce, "dc", 2, true, stream, STREAM_LEN, out, 128));
    memcpy(sealed_reply, out, out_len);
    sealed_reply_len = out_len;
    return status;
}
static uint32_t kept_stream(swimtab_unwrapped made) {
    WANT(made.status != SWIMTAB_DONE || (made.len == STREAM_LEN && memcmp(out, stream, STREAM_LEN) == 0));
    return kept_unwrapped(made, SWIMTAB_KIND_PUSH_PULL);
}
static uint32_t unwrap_stream(void) {
    return kept_stream(swimtab_unwrap_stream(&keyring, "", 0, sealed_stream, sealed_stream_len, out, ROOM));
}
static uint32_t unwrap_reply(void) {
    return kept_stream(swimtab_unwrap_stream(&keyring, "dc", 2, sealed_reply, sealed_reply_len, out, ROOM));
}
static uint32_t unwrap_reply_new(void) {
    uint32_t status = kept_new(
        swimtab_unwrap_stream_new(&keyring, "dc", 2, sealed_reply, sealed_reply_len, &buffer), SWIMTAB_KIND_PUSH_PULL);
    WANT(status != SWIMTAB_DONE || (buffer.len == STREAM_LEN && memcmp(buffer.at, stream, STREAM_LEN) == 0));
    return status;
}
/* The same in the clear: without keys, and with keys once it is accepted. */
static const uint8_t clear_ping[] = "\x00\x82\xa4Node\xa2" "d3\xa5SeqNo\x01";
enum { PING_LEN = sizeof clear_ping - 1 };

static uint32_t seal_clear(void) { return kept(swimtab_seal(NULL, NULL, "dc", 2, clear_ping, PING_LEN, out, ROOM)); }
static uint32_t seal_clear_stream(void) {
    return kept(swimtab_seal_stream(NULL, NULL, "dc", 2, false, clear_ping, PING_LEN, out, ROOM));
}
static uint32_t seal_clear_reply(void) {
    return kept(swimtab_seal_stream(NULL, NULL, "dc", 2, true, clear_ping, PING_LEN, out, ROOM));
}
static uint32_t unwrap_clear_stream(void) {
    return kept_stream(swimtab_unwrap_stream(NULL, "dc", 2, stream, STREAM_LEN, out, ROOM));
}
static uint32_t unwrap_clear_new(void) {
    return kept_new(swimtab_unwrap_new(NULL, clear_ping, PING_LEN, &buffer), SWIMTAB_KIND_PING);
}
static uint32_t unwrap_clear_stream_new(void) {
    return kept_new(swimtab_unwrap_stream_new(NULL, "", 0, clear_ping, PING_LEN, &buffer), SWIMTAB_KIND_PING);
}
static uint32_t unwrap_accepted(void) {
    return kept_unwrapped(swimtab_unwrap(&keyring, clear_ping, PING_LEN, out, ROOM), SWIMTAB_KIND_PING);
}
static uint32_t unwrap_accepted_stream(void) {
    return kept_stream(swimtab_unwrap_stream(&keyring, "dc", 2, stream, STREAM_LEN, out, ROOM));
}
static uint32_t say_ping(void) {
    swimtab_details source = details_of(long_name, 40, local, 4, 1, NULL, 0, NULL, 0, 1);
    return kept(swimtab_ping_of(1, "d", 1, &source, out, ROOM));
}
static uint32_t say_indirect(void) {
    swimtab_details target = details_of(long_name, 40, local, 4, 1, NULL, 0, NULL, 0, 1);
    return kept(swimtab_indirect_of(1, &target, true, &target, out, ROOM));
}
static uint32_t say_ack(void) { return kept(swimtab_ack_of(1, meta, sizeof meta, out, ROOM)); }
static uint32_t say_nack(void) { return kept(swimtab_nack_of(1, out, ROOM)); }
static uint32_t say_user(void) { return kept(swimtab_user_of(meta, sizeof meta, out, ROOM)); }
static uint32_t say_suspect_of(void) { return kept(swimtab_suspect_of(long_name, 40, "d", 1, 1, out, ROOM)); }
static uint32_t say_dead_of(void) { return kept(swimtab_dead_of(long_name, 40, "d", 1, 1, out, ROOM)); }
static uint32_t read_ping(void) {
    static swimtab_probe probe;
    memset(&probe, 9, sizeof probe);
    uint32_t status = swimtab_read(clear_ping, PING_LEN, &probe);
    if (status == SWIMTAB_DONE)
        WANT(probe.kind == SWIMTAB_KIND_PING && probe.seq == 1 && probe.node_len == 2 && probe.node[1] == '3');
    else
        WANT(probe.seq == 0x09090909 && probe.node_len == 0x0909 && probe.node[1] == 9);
    return status;
}
/* e dies and comes back, and is believed; then the details of the second node are others */
static uint32_t kill_e(void) { return take(&second, "0583a446726f6da178ab496e6361726e6174696f6e01a44e6f6465a165"); }
static uint32_t revive_e(void) {
    return take(&second, "0486a441646472a47f000001ab496e6361726e6174696f6e02a44d657461a0a44e6f6465a165a4506f727401"
                         "a356736ea0");
}
static uint32_t readmit_e(void) { return swimtab_readmit(&second, "e", 1); }
static uint32_t update_second(void) {
    swimtab_details details = details_of(NULL, 0, local, 4, 7950, meta, sizeof meta, NULL, 0, 0);
    return refuted_at(swimtab_update(&second, &details), 11);
}
static uint32_t use_second_key(void) { return swimtab_keyring_use(&keyring, 1); }
static uint32_t list_new(void) { return swimtab_list_new(&first, &buffer); }
static uint32_t offer_new(void) { return swimtab_offer_new(&first, true, SWIMTAB_MEMBERLIST, NULL, 0, &buffer); }
static uint32_t offer_new_again(void) { return swimtab_offer_new(&first, true, SWIMTAB_CANONICAL, NULL, 0, &buffer); }
static uint32_t answer_new(void) {
    /* a table that changes: f is new */
    return exchanged(swimtab_answer_new(&second, stream, STREAM_LEN, SWIMTAB_MEMBERLIST, NULL, 0, &buffer), STREAM_LEN);
}
static uint32_t whole_offer(void) {
    swimtab_progress progress = SWIMTAB_PROGRESS_INIT;
    return swimtab_whole(&progress, offer, offer_len);
}
/* It comes in two pieces, and a call that is repeated goes on from where the refused one left it. */
static uint32_t whole_piece(void) {
    uint32_t status = swimtab_whole(&arrived, offer, offer_len - 1);
    return status == SWIMTAB_ENDED ? SWIMTAB_DONE : status;
}
static uint32_t whole_rest(void) {
    uint32_t status = swimtab_whole(&arrived, offer, offer_len);
    WANT(status != SWIMTAB_DONE || (arrived.at == offer_len && arrived.left == 0));
    return status;
}
static uint32_t forget_d(void) { return swimtab_forget(&first, "d", 1); }
static uint32_t finish_first(void) { return exchanged(swimtab_finish(&first, reply, reply_len), reply_len); }
static uint32_t refute_second(void) { return refuted_at(swimtab_refute(&second), 2); }
static uint32_t refute_second_again(void) { return refuted_at(swimtab_refute(&second), 10); }

/* What a view is told of a long name, by long names; write_said writes it before the first run. */
enum { UNKNOWN, ALIVE, OLD, SUSPECT, ALSO_SUSPECT, RIVAL, DEATH, RETURN, MESSAGES };
static uint8_t said[MESSAGES][SWIMTAB_MAX_PACKET_LEN];
static size_t said_len[MESSAGES];
static swimtab_progress told_records;
static swimtab_view_data shown;

static void write_said(void) {
    const size_t len = sizeof long_name - 1, room = SWIMTAB_MAX_PACKET_LEN;
    said_len[UNKNOWN] = swimtab_suspect_of(long_name, len, long_name, 38, 1, said[UNKNOWN], room).len;
    said_len[OLD] = swimtab_suspect_of(long_name, len, long_name, 40, 0, said[OLD], room).len;
    said_len[ALIVE] = alive_with(long_name, 40, local, 4, 1, meta, sizeof meta, NULL, 0, 1, said[ALIVE], room).len;
    said_len[SUSPECT] = swimtab_suspect_of(long_name, len, long_name, 40, 1, said[SUSPECT], room).len;
    said_len[ALSO_SUSPECT] = swimtab_suspect_of(long_name, 41, long_name, 40, 1, said[ALSO_SUSPECT], room).len;
    said_len[RIVAL] = alive_with(long_name, 40, local, 4, 2, meta, sizeof meta, NULL, 0, 1, said[RIVAL], room).len;
    said_len[DEATH] = swimtab_dead_of(long_name, len, long_name, 40, 1, said[DEATH], room).len;
    said_len[RETURN] = alive_with(long_name, 40, local, 4, 1, meta, 100, NULL, 0, 2, said[RETURN], room).len;
}
static uint32_t open_view(void) {
    told_records = (swimtab_progress)SWIMTAB_PROGRESS_INIT;
    return swimtab_view_open(&view, 1000);
}
static uint32_t has_event(swimtab_told told, uint32_t event) {
    WANT(told.event == (told.status == SWIMTAB_DONE ? event : SWIMTAB_NO_EVENT));
    return told.status;
}
static uint32_t hear(size_t i, uint32_t event) {
    return has_event(swimtab_view_take(&view, i, said[i], said_len[i], &shown), event);
}
static uint32_t hear_unknown(void) { return hear(UNKNOWN, SWIMTAB_NO_EVENT); }
static uint32_t hear_alive(void) { return hear(ALIVE, SWIMTAB_JOINED); }
static uint32_t hear_old(void) { return hear(OLD, SWIMTAB_NO_EVENT); }
static uint32_t hear_suspect(void) { return hear(SUSPECT, SWIMTAB_SUSPECTED); }
static uint32_t hear_also_suspect(void) { return hear(ALSO_SUSPECT, SWIMTAB_ALSO_SUSPECTED); }
static uint32_t hear_rival(void) { return hear(RIVAL, SWIMTAB_CONFLICT); }
static uint32_t hear_death(void) { return hear(DEATH, SWIMTAB_DEAD); }
static uint32_t hear_return(void) { return hear(RETURN, SWIMTAB_BACK); }
static uint32_t hear_no_claim(void) {
    static const uint8_t ack[] = "\x02\x82\xa7Payload\xa2up\xa5SeqNo\x07";
    swimtab_told told = swimtab_view_take(&view, RETURN, ack, sizeof ack - 1, &shown);
    WANT(told.event == SWIMTAB_NO_EVENT);
    return told.status == SWIMTAB_WRONG_TYPE ? SWIMTAB_DONE : told.status;
}
/* The offer of the first node has five records: a alive and dead, its own, c and d suspected. The view only suspects
 * a, in nobody's name, and does not know c and d. */
static uint32_t hear_record(uint32_t event) {
    return has_event(swimtab_view_merge(&view, 9, &told_records, offer, offer_len, &shown), event);
}
static uint32_t hear_new_record(void) { return hear_record(SWIMTAB_KNOWN); }
static uint32_t hear_suspect_record(void) { return hear_record(SWIMTAB_SUSPECTED); }
static uint32_t hear_idle_record(void) { return hear_record(SWIMTAB_NO_EVENT); }
static uint32_t hear_no_record(void) {
    uint32_t status = hear_idle_record();
    return status == SWIMTAB_NO_ITEM ? SWIMTAB_DONE : status;
}
static uint32_t find_shown(void) { return swimtab_view_find(&view, long_name, 40, &shown); }
static uint32_t find_after(void) { return swimtab_view_after(&view, long_name, 39, &shown); }
static uint32_t find_accuser(void) { return kept(swimtab_view_accuser(&view, long_name, 40, 1, out, ROOM)); }
static uint32_t offer_view(void) { return swimtab_view_offer(&view, true, meta, sizeof meta, &buffer); }

static uint32_t (*const calls[])(void) = {
    open_first,    watch_first,    open_second,       take_alive,   take_known,    take_compound, suspect_second,
    say_alive,     say_alive_of,   say_suspect,       say_confirm,  say_leave,     say_compound,  list_first,
    list_new,      offer_new,      offer_first,       watch_second, add_key,       seal,          add_another_key,
    unwrap,        take_unwrapped, unwrap_compressed, refute_second, suspect_second_again,        offer_new_again,
    whole_offer,   whole_piece,   whole_rest,        seal_stream,  seal_reply,    unwrap_stream, unwrap_reply,
    answer_second, answer_new,    finish_first,      refute_second_again,         forget_d,      accept_clear,
    unwrap_new,    say_ping,      say_indirect,      say_ack,      say_nack,      say_user,      say_suspect_of,
    say_dead_of,   read_ping,     kill_e,            revive_e,     readmit_e,     update_second, use_second_key,
    unwrap_stream, unwrap_reply_new,                 unwrap_accepted,             unwrap_accepted_stream,
    seal_clear,    seal_clear_stream,                seal_clear_reply,            unwrap_clear_stream,
    unwrap_clear_new,             unwrap_clear_stream_new,
    open_view,     hear_unknown,  hear_alive,        hear_old,     hear_suspect,  hear_also_suspect,
    find_accuser,  hear_rival,    hear_death,        hear_return,  hear_no_claim, hear_new_record,
    hear_suspect_record,          hear_new_record,   hear_idle_record,            hear_idle_record,
    hear_no_record,               find_shown,        find_after,   offer_view,
};

enum { CALLS = sizeof calls / sizeof *calls };

/* What the view shows, without watching. */
static size_t show_view(char *text, size_t room) {
    static swimtab_view_data data;
    char name[64] = "";
    size_t len = 0;
    while (swimtab_view_after(&view, name, strlen(name), &data) == SWIMTAB_DONE && len < room) {
        snprintf(name, sizeof name, "%.*s", (int)data.name_len, (const char *)data.name);
        len += (size_t)snprintf(text + len, room - len, "%s %u %u %u %u %u %u %u %.*s\n", name, (unsigned)data.since,
                                (unsigned)data.state, (unsigned)data.inc, (unsigned)data.port, (unsigned)data.meta_len,
                                (unsigned)data.accusers, (unsigned)data.rivals, (int)data.by_len,
                                (const char *)data.by);
    }
    return len;
}

/* The output of both nodes and of the view, without watching, followed by the bytes of the buffer. */
static size_t show(uint8_t *text) {
    swimtab_written one = swimtab_list(&first, text, ROOM);
    swimtab_written two = swimtab_list(&second, text + one.len, ROOM - one.len);
    size_t len = one.len + two.len;
    len += show_view((char *)text + len, ROOM - len);
    if (buffer.len) memcpy(text + len, buffer.at, buffer.len);
    return len + buffer.len;
}

/* What is shown before each call of the run in which nothing is refused, and what the call writes. */
static struct step {
    size_t len;
    uint8_t shown[ROOM], written[ROOM];
} steps[CALLS];

static uint32_t watched(uint32_t (*call)(void)) {
    watching = true;
    uint32_t status = call();
    watching = false;
    return status;
}

/* Makes a call with the next allocations as they come, and once more if it was refused. */
static bool make(size_t i, bool is_first) {
    static uint8_t before[ROOM], after[ROOM];
    struct step *step = &steps[i];
    size_t len = show(before);
    if (is_first) step->len = len, memcpy(step->shown, before, len);
    WANT(len == step->len && memcmp(before, step->shown, len) == 0);
    memset(out, 7, ROOM);
    const uint8_t *at = buffer.at;
    uint32_t status = watched(calls[i]);
    bool is_refused = status != SWIMTAB_DONE;
    if (is_refused) {
        WANT(buffer.at == at);
        WANT(status == SWIMTAB_MEMORY);
        WANT(show(after) == len && memcmp(before, after, len) == 0);
        WANT(out[0] == 7 && memcmp(out, out + 1, ROOM - 1) == 0);
        WANT(watched(calls[i]) == SWIMTAB_DONE);
    }
    if (is_first) memcpy(step->written, out, ROOM);
    WANT(memcmp(out, step->written, ROOM) == 0);
    return is_refused;
}

static void close_all(void) {
    swimtab_close(&first), swimtab_close(&second), swimtab_free(&buffer), swimtab_keyring_close(&keyring);
    swimtab_view_close(&view);
    WANT(held == 0);
}

/* Takes the noted names of both nodes, as a line of text. */
static void drain(char *text, size_t room) {
    static swimtab_member_data member;
    size_t len = 0;
    swimtab_node *nodes[2] = {&first, &second};
    text[0] = 0;
    for (size_t i = 0; i < 2; i++) {
        while (swimtab_next_change(nodes[i], &member) == SWIMTAB_DONE && len < room)
            len += (size_t)snprintf(text + len, room - len, "%.*s ", (int)member.name_len, (char *)member.name);
        if (len < room) len += (size_t)snprintf(text + len, room - len, "| ");
    }
}

/* Makes the first `count` calls with the allocation of this number refused. Returns how many were done. */
static size_t calls_done(long number, size_t count) {
    size_t done = 0;
    until_refused = number;
    while (done < count && watched(calls[done]) == SWIMTAB_DONE) done++;
    until_refused = -1;
    return done;
}

/* After the refused call the noted names are the same as before it. Returns whether a call was refused. */
static bool noted_names_stay(long number) {
    static char wanted[4096], noted[4096];
    size_t done = calls_done(number, CALLS);
    if (done == CALLS) {
        close_all();
        return false;
    }
    drain(noted, sizeof noted);
    close_all();
    WANT(calls_done(-1, done) == done);
    drain(wanted, sizeof wanted);
    close_all();
    if (strcmp(noted, wanted) != 0) printf("    noted %s, wanted %s\n", noted, wanted);
    WANT(strcmp(noted, wanted) == 0);
    return true;
}

/* Makes a run with the allocation of this number refused. Returns how many calls were refused, or -1 if there
 * was no such allocation. */
static int run(long number) {
    static uint8_t wanted[ROOM], got[ROOM];
    static size_t wanted_len;
    int refused = 0;
    until_refused = number;
    for (size_t i = 0; i < CALLS; i++) refused += make(i, number < 0);
    bool reached = until_refused < 0 && number >= 0;
    until_refused = -1;
    size_t len = show(got);
    if (number < 0) {
        memcpy(wanted, got, len);
        wanted_len = len;
    }
    WANT(len == wanted_len && memcmp(got, wanted, len) == 0);
    close_all();
    return reached ? refused : -1;
}

static long runs = 0, refusals = 0;

static void each_allocation_may_be_refused(void) {
    run(-1);
    int refused;
    while ((refused = run(runs)) >= 0) {
        WANT(refused <= 1);
        refusals += refused;
        runs++;
        if (runs > 10000) break;
    }
    WANT(runs > 0 && runs <= 10000 && refusals > 0);
}

static void a_refused_call_leaves_the_noted_names(void) {
    long refused = 0;
    for (long number = 0; number < runs; number++) refused += noted_names_stay(number);
    WANT(refused > 0 && refused == refusals);
}

static void an_alive_of_a_known_name_takes_no_memory(void) {
    WANT(open_first() == 0 && open_second() == 0 && suspect_second() == 0);
    swimtab_member_data member;
    until_refused = 0;
    WANT(take(&second, "0486a441646472a47f000001ab496e6361726e6174696f6e08a44d657461a0a44e6f6465a162a4506f7274cd1f"
                       "0ba356736ea6010502000000") == 0);
    until_refused = -1;
    WANT(take(&second, "0383a446726f6da178ab496e6361726e6174696f6e09a44e6f6465a162") == 0);
    until_refused = 0;
    watching = true;
    WANT(swimtab_refute(&second).due && swimtab_count(&second) == 1);
    WANT(swimtab_member(&second, 0, &member) == 0 && swimtab_find(&second, "b", 1, &member) == 0);
    WANT(swimtab_after(&second, "", 0, &member) == 0 && swimtab_left_out(&second) == 1);
    WANT(swimtab_relate(&first, &second).status == 0);
    watching = false;
    WANT(until_refused == 0);
    until_refused = -1;
    WANT(swimtab_close(&first) == 0 && swimtab_close(&second) == 0 && held == 0);
}

static void an_offer_takes_no_memory(void) {
    WANT(open_first() == 0 && take_alive() == 0 && take_compound() == 0);
    until_refused = 0;
    watching = true;
    swimtab_written asked = swimtab_offer(&first, true, SWIMTAB_CANONICAL, NULL, 0, NULL, 0);
    WANT(asked.status == SWIMTAB_TOO_SMALL);
    swimtab_written short_by_one = swimtab_offer(&first, true, SWIMTAB_CANONICAL, NULL, 0, out, asked.len - 1);
    WANT(short_by_one.status == SWIMTAB_TOO_SMALL && short_by_one.len == asked.len);
    swimtab_written made = swimtab_offer(&first, true, SWIMTAB_CANONICAL, NULL, 0, out, asked.len);
    WANT(made.status == SWIMTAB_DONE && made.len == asked.len);
    WANT(swimtab_offer(&first, true, SWIMTAB_MEMBERLIST, NULL, 0, reply, ROOM).status == SWIMTAB_DONE);
    WANT(swimtab_offer(&first, true, SWIMTAB_MEMBERLIST, "me", 2, reply, ROOM).status == SWIMTAB_DONE);
    watching = false;
    WANT(until_refused == 0);
    until_refused = -1;
    WANT(swimtab_finish(&first, out, made.len).used == made.len);
    WANT(swimtab_close(&first) == 0 && held == 0);
}

static void watching_and_forgetting_take_no_memory(void) {
    swimtab_member_data member;
    WANT(open_first() == 0 && watch_first() == 0 && take_alive() == 0 && take_compound() == 0);
    until_refused = 0;
    watching = true;
    WANT(swimtab_next_change(&first, &member) == SWIMTAB_DONE && swimtab_next_change(&first, NULL) == SWIMTAB_DONE);
    WANT(swimtab_forget(&first, "a", 1) == SWIMTAB_DONE && swimtab_forget(&first, "a", 1) == SWIMTAB_NO_MEMBER);
    WANT(swimtab_watch(&first, true) == SWIMTAB_DONE && swimtab_watch(&first, false) == SWIMTAB_DONE);
    WANT(swimtab_version() == SWIMTAB_VERSION_NUMBER);
    watching = false;
    WANT(until_refused == 0);
    until_refused = -1;
    WANT(swimtab_close(&first) == 0 && held == 0);
}

static void turning_keys_and_finding_parts_take_no_memory(void) {
    static const uint8_t compound[] = {7, 2, 0, 1, 0, 1, 8, 11};
    uint8_t key[32];
    WANT(add_key() == 0 && add_another_key() == 0);
    until_refused = 0;
    watching = true;
    WANT(swimtab_keyring_count(&keyring) == 2 && swimtab_keyring_use(&keyring, 1) == SWIMTAB_DONE);
    WANT(swimtab_keyring_remove(&keyring, 0) == SWIMTAB_KEY_IN_USE);
    WANT(swimtab_keyring_remove(&keyring, 1) == SWIMTAB_DONE);
    WANT(swimtab_keyring_key(&keyring, 0, key, 32).len == 16 && memcmp(key, keys[1], 16) == 0);
    WANT(swimtab_keyring_use(&keyring, 1) == SWIMTAB_NO_ITEM && accept_clear() == SWIMTAB_DONE);
    WANT(swimtab_part(compound, sizeof compound, 1).at == 7);
    watching = false;
    WANT(until_refused == 0);
    until_refused = -1;
    WANT(swimtab_keyring_close(&keyring) == SWIMTAB_DONE && held == 0);
}

static void a_view_forgets_without_memory(void) {
    WANT(open_view() == 0 && hear_alive() == 0 && hear_death() == 0);
    until_refused = 0;
    watching = true;
    WANT(swimtab_view_after(&view, "", 0, &shown) == SWIMTAB_DONE && shown.name_len == 40);
    WANT(swimtab_view_forget(&view, DEATH + 1000) == 0 && swimtab_view_forget(&view, DEATH + 1001) == 1);
    WANT(swimtab_view_count(&view) == 0);
    watching = false;
    WANT(until_refused == 0);
    until_refused = -1;
    WANT(swimtab_view_close(&view) == SWIMTAB_DONE && held == 0);
}

int main(void) {
    static const struct test tests[] = {
        {"each allocation may be refused", each_allocation_may_be_refused},
        {"a refused call leaves the noted names", a_refused_call_leaves_the_noted_names},
        {"an Alive of a known name takes no memory", an_alive_of_a_known_name_takes_no_memory},
        {"an offer takes no memory", an_offer_takes_no_memory},
        {"watching and forgetting take no memory", watching_and_forgetting_take_no_memory},
        {"turning keys and finding parts take no memory", turning_keys_and_finding_parts_take_no_memory},
        {"a view forgets without memory", a_view_forgets_without_memory},
    };
    /* the first print takes a block for its buffer */
    printf("refused memory:\n");
    write_said();
    held = 0;
    int failed = run_tests(tests, sizeof tests / sizeof *tests);
    printf("%ld allocations, each refused in turn: %ld calls were refused\n", runs, refusals);
    return failed;
}

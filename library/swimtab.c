/* The functions of swimtab.h over those of the proved crate swim_c, to which no pointer may be NULL. Nothing
 * is decided here but what becomes of a NULL. */
#include "raw.h"

/* A byte to point at in place of NULL, always with length 0. */
static uint8_t nothing;

static const void *given(const void *bytes) {
    return bytes ? bytes : &nothing;
}

static void *some(void *bytes) {
    return bytes ? bytes : &nothing;
}

/* Copies the details, without a NULL. Returns whether there are any, with the size of a version. */
static bool has_size(const swimtab_details *details, swimtab_details *copy) {
    if (!details || details->size != sizeof *details) return false;
    *copy = *details;
    if (!copy->name) copy->name_len = 0;
    if (!copy->addr) copy->addr_len = 0;
    if (!copy->meta) copy->meta_len = 0;
    if (!copy->vsn) copy->vsn_len = 0;
    copy->name = given(copy->name);
    copy->addr = given(copy->addr);
    copy->meta = given(copy->meta);
    copy->vsn = given(copy->vsn);
    return true;
}

/* The proved crate returns statuses of 32 bits. */
typedef char status_has_32_bits[sizeof(swimtab_status) == 4 ? 1 : -1];

uint32_t swimtab_version(void) {
    return swimtab_raw_version();
}

swimtab_status swimtab_open(swimtab_node *node, const swimtab_details *details) {
    swimtab_details d;
    if (!node) return SWIMTAB_NO_NODE;
    if (!has_size(details, &d)) return SWIMTAB_BAD_SIZE;
    return swimtab_raw_open(node, d.name, d.name_len, d.addr, d.addr_len, d.port, d.meta, d.meta_len, d.vsn,
                            d.vsn_len, d.inc);
}

swimtab_refuted swimtab_update(swimtab_node *node, const swimtab_details *details) {
    swimtab_refuted refused = {SWIMTAB_NO_NODE, false, 0};
    swimtab_details d;
    if (!node) return refused;
    refused.status = SWIMTAB_BAD_SIZE;
    if (!has_size(details, &d)) return refused;
    return swimtab_raw_update(node, d.addr, d.addr_len, d.port, d.meta, d.meta_len, d.vsn, d.vsn_len);
}

swimtab_status swimtab_close(swimtab_node *node) {
    if (!node) return SWIMTAB_NO_NODE;
    return swimtab_raw_close(node);
}

swimtab_taken swimtab_take(swimtab_node *node, const void *bytes, size_t len) {
    const swimtab_taken no_node = {SWIMTAB_NO_NODE, false};
    if (!node) return no_node;
    return swimtab_raw_take(node, given(bytes), bytes ? len : 0);
}

swimtab_refuted swimtab_refute(swimtab_node *node) {
    const swimtab_refuted no_node = {SWIMTAB_NO_NODE, false, 0};
    if (!node) return no_node;
    return swimtab_raw_refute(node);
}

swimtab_written swimtab_alive(const swimtab_node *node, uint32_t inc, void *out, size_t out_len) {
    const swimtab_written no_node = {SWIMTAB_NO_NODE, 0};
    if (!node) return no_node;
    return swimtab_raw_alive(node, inc, some(out), out ? out_len : 0);
}

swimtab_written swimtab_alive_of(const swimtab_details *details, void *out, size_t out_len) {
    const swimtab_written refused = {SWIMTAB_BAD_SIZE, 0};
    swimtab_details d;
    if (!has_size(details, &d)) return refused;
    return swimtab_raw_alive_of(d.name, d.name_len, d.addr, d.addr_len, d.port, d.meta, d.meta_len, d.vsn,
                                d.vsn_len, d.inc, some(out), out ? out_len : 0);
}

swimtab_written swimtab_suspect(const swimtab_node *node, const void *name, size_t name_len,
                                uint32_t inc, void *out, size_t out_len) {
    const swimtab_written no_node = {SWIMTAB_NO_NODE, 0};
    if (!node) return no_node;
    return swimtab_raw_suspect(node, given(name), name ? name_len : 0, inc, some(out),
                               out ? out_len : 0);
}

swimtab_written swimtab_confirm(const swimtab_node *node, const void *name, size_t name_len,
                                uint32_t inc, void *out, size_t out_len) {
    const swimtab_written no_node = {SWIMTAB_NO_NODE, 0};
    if (!node) return no_node;
    return swimtab_raw_confirm(node, given(name), name ? name_len : 0, inc, some(out),
                               out ? out_len : 0);
}

swimtab_written swimtab_leave(const swimtab_node *node, uint32_t inc, void *out, size_t out_len) {
    const swimtab_written no_node = {SWIMTAB_NO_NODE, 0};
    if (!node) return no_node;
    return swimtab_raw_leave(node, inc, some(out), out ? out_len : 0);
}

swimtab_written swimtab_suspect_of(const void *from, size_t from_len, const void *name, size_t name_len,
                                   uint32_t inc, void *out, size_t out_len) {
    return swimtab_raw_suspect_of(given(from), from ? from_len : 0, given(name), name ? name_len : 0,
                                  inc, some(out), out ? out_len : 0);
}

swimtab_written swimtab_dead_of(const void *from, size_t from_len, const void *name, size_t name_len,
                                uint32_t inc, void *out, size_t out_len) {
    return swimtab_raw_dead_of(given(from), from ? from_len : 0, given(name), name ? name_len : 0, inc,
                               some(out), out ? out_len : 0);
}

swimtab_written swimtab_compound(const void *packets, size_t len, const size_t *lens, size_t count,
                                 void *out, size_t out_len) {
    const size_t no_lens = 0;
    return swimtab_raw_compound(given(packets), packets ? len : 0, lens ? lens : &no_lens,
                                lens ? count : 0, some(out), out ? out_len : 0);
}

swimtab_part_place swimtab_part(const void *message, size_t len, size_t i) {
    return swimtab_raw_part(given(message), message ? len : 0, i);
}

swimtab_status swimtab_read(const void *message, size_t len, swimtab_probe *probe) {
    swimtab_probe unread;
    return swimtab_raw_read(given(message), message ? len : 0, probe ? probe : &unread);
}

swimtab_written swimtab_ping_of(uint32_t seq, const void *name, size_t name_len,
                                const swimtab_details *source, void *out, size_t out_len) {
    const swimtab_details nobody = SWIMTAB_DETAILS_INIT;
    const swimtab_written refused = {SWIMTAB_BAD_SIZE, 0};
    swimtab_details s;
    if (!has_size(source ? source : &nobody, &s)) return refused;
    return swimtab_raw_ping_of(seq, given(name), name ? name_len : 0, s.name, s.name_len, s.addr, s.addr_len,
                               s.port, some(out), out ? out_len : 0);
}

swimtab_written swimtab_indirect_of(uint32_t seq, const swimtab_details *target, bool nack,
                                    const swimtab_details *source, void *out, size_t out_len) {
    const swimtab_details nobody = SWIMTAB_DETAILS_INIT;
    const swimtab_written refused = {SWIMTAB_BAD_SIZE, 0};
    swimtab_details t, s;
    if (!has_size(target, &t) || !has_size(source ? source : &nobody, &s)) return refused;
    return swimtab_raw_indirect_of(seq, t.name, t.name_len, t.addr, t.addr_len, t.port, nack, s.name,
                                   s.name_len, s.addr, s.addr_len, s.port, some(out), out ? out_len : 0);
}

swimtab_written swimtab_ack_of(uint32_t seq, const void *payload, size_t payload_len, void *out,
                               size_t out_len) {
    return swimtab_raw_ack_of(seq, given(payload), payload ? payload_len : 0, some(out),
                              out ? out_len : 0);
}

swimtab_written swimtab_nack_of(uint32_t seq, void *out, size_t out_len) {
    return swimtab_raw_nack_of(seq, some(out), out ? out_len : 0);
}

swimtab_written swimtab_user_of(const void *bytes, size_t len, void *out, size_t out_len) {
    return swimtab_raw_user_of(given(bytes), bytes ? len : 0, some(out), out ? out_len : 0);
}

swimtab_written swimtab_offer(const swimtab_node *node, bool join, uint32_t form, const void *user,
                              size_t user_len, void *out, size_t out_len) {
    const swimtab_written no_node = {SWIMTAB_NO_NODE, 0};
    if (!node) return no_node;
    return swimtab_raw_offer(node, join, form, given(user), user ? user_len : 0, some(out),
                             out ? out_len : 0);
}

size_t swimtab_left_out(const swimtab_node *node) {
    if (!node) return 0;
    return swimtab_raw_left_out(node);
}

swimtab_written swimtab_dump(const swimtab_node *node, void *out, size_t out_len) {
    return swimtab_offer(node, false, SWIMTAB_CANONICAL, NULL, 0, out, out_len);
}

swimtab_exchanged swimtab_answer(swimtab_node *node, const void *stream, size_t len, uint32_t form,
                                 const void *user, size_t user_len, void *out, size_t out_len) {
    const swimtab_exchanged no_node = {SWIMTAB_NO_NODE, false, false, 0, 0};
    if (!node) return no_node;
    return swimtab_raw_answer(node, given(stream), stream ? len : 0, form, given(user),
                              user ? user_len : 0, some(out), out ? out_len : 0);
}

swimtab_exchanged swimtab_finish(swimtab_node *node, const void *stream, size_t len) {
    const swimtab_exchanged no_node = {SWIMTAB_NO_NODE, false, false, 0, 0};
    if (!node) return no_node;
    return swimtab_raw_finish(node, given(stream), stream ? len : 0);
}

swimtab_status swimtab_offer_new(const swimtab_node *node, bool join, uint32_t form, const void *user,
                                 size_t user_len, swimtab_buffer *buffer) {
    if (!node) return SWIMTAB_NO_NODE;
    if (!buffer) return SWIMTAB_TOO_SMALL;
    return swimtab_raw_offer_new(node, join, form, given(user), user ? user_len : 0, buffer);
}

swimtab_exchanged swimtab_answer_new(swimtab_node *node, const void *stream, size_t len, uint32_t form,
                                     const void *user, size_t user_len, swimtab_buffer *buffer) {
    const swimtab_exchanged no_node = {SWIMTAB_NO_NODE, false, false, 0, 0};
    if (!node) return no_node;
    const swimtab_exchanged too_small = {SWIMTAB_TOO_SMALL, false, false, 0, 0};
    if (!buffer) return too_small;
    return swimtab_raw_answer_new(node, given(stream), stream ? len : 0, form, given(user),
                                  user ? user_len : 0, buffer);
}

void swimtab_free(swimtab_buffer *buffer) {
    if (buffer) swimtab_raw_free(buffer);
}

swimtab_status swimtab_whole(swimtab_progress *progress, const void *bytes, size_t len) {
    swimtab_progress fresh = SWIMTAB_PROGRESS_INIT;
    return swimtab_raw_whole(progress ? progress : &fresh, given(bytes), bytes ? len : 0);
}

swimtab_status swimtab_keyring_add(swimtab_keyring *keyring, const void *key, size_t key_len) {
    if (!keyring) return SWIMTAB_NO_NODE;
    return swimtab_raw_keyring_add(keyring, given(key), key ? key_len : 0);
}

swimtab_status swimtab_keyring_accept_clear(swimtab_keyring *keyring) {
    if (!keyring) return SWIMTAB_NO_NODE;
    return swimtab_raw_keyring_accept_clear(keyring);
}

size_t swimtab_keyring_count(const swimtab_keyring *keyring) {
    const swimtab_keyring no_keys = SWIMTAB_KEYRING_INIT;
    return swimtab_raw_keyring_count(keyring ? keyring : &no_keys);
}

swimtab_written swimtab_keyring_key(const swimtab_keyring *keyring, size_t i, void *out,
                                    size_t out_len) {
    const swimtab_keyring no_keys = SWIMTAB_KEYRING_INIT;
    return swimtab_raw_keyring_key(keyring ? keyring : &no_keys, i, some(out), out ? out_len : 0);
}

swimtab_status swimtab_keyring_use(swimtab_keyring *keyring, size_t i) {
    if (!keyring) return SWIMTAB_NO_ITEM;
    return swimtab_raw_keyring_use(keyring, i);
}

swimtab_status swimtab_keyring_remove(swimtab_keyring *keyring, size_t i) {
    if (!keyring) return SWIMTAB_NO_ITEM;
    return swimtab_raw_keyring_remove(keyring, i);
}

swimtab_status swimtab_keyring_close(swimtab_keyring *keyring) {
    if (!keyring) return SWIMTAB_NO_NODE;
    return swimtab_raw_keyring_close(keyring);
}

swimtab_unwrapped swimtab_unwrap(const swimtab_keyring *keyring, const void *packet, size_t len,
                                 void *out, size_t out_len) {
    const swimtab_keyring no_keys = SWIMTAB_KEYRING_INIT;
    return swimtab_raw_unwrap(keyring ? keyring : &no_keys, given(packet), packet ? len : 0, some(out),
                              out ? out_len : 0);
}

swimtab_unwrapped swimtab_unwrap_stream(const swimtab_keyring *keyring, const void *label,
                                        size_t label_len, const void *stream, size_t len, void *out,
                                        size_t out_len) {
    const swimtab_keyring no_keys = SWIMTAB_KEYRING_INIT;
    return swimtab_raw_unwrap_stream(keyring ? keyring : &no_keys, given(label), label ? label_len : 0,
                                     given(stream), stream ? len : 0, some(out), out ? out_len : 0);
}

swimtab_unwrapped swimtab_unwrap_new(const swimtab_keyring *keyring, const void *packet, size_t len,
                                     swimtab_buffer *buffer) {
    const swimtab_keyring no_keys = SWIMTAB_KEYRING_INIT;
    const swimtab_unwrapped too_small = {SWIMTAB_TOO_SMALL, 0, 0};
    if (!buffer) return too_small;
    return swimtab_raw_unwrap_new(keyring ? keyring : &no_keys, given(packet), packet ? len : 0,
                                  buffer);
}

swimtab_unwrapped swimtab_unwrap_stream_new(const swimtab_keyring *keyring, const void *label,
                                            size_t label_len, const void *stream, size_t len,
                                            swimtab_buffer *buffer) {
    const swimtab_keyring no_keys = SWIMTAB_KEYRING_INIT;
    const swimtab_unwrapped too_small = {SWIMTAB_TOO_SMALL, 0, 0};
    if (!buffer) return too_small;
    return swimtab_raw_unwrap_stream_new(keyring ? keyring : &no_keys, given(label),
                                         label ? label_len : 0, given(stream), stream ? len : 0,
                                         buffer);
}

swimtab_written swimtab_seal(const swimtab_keyring *keyring, const void *nonce, const void *label,
                             size_t label_len, const void *message, size_t len, void *out,
                             size_t out_len) {
    const uint8_t zeros[SWIMTAB_NONCE_LEN] = {0};
    const swimtab_keyring no_keys = SWIMTAB_KEYRING_INIT;
    return swimtab_raw_seal(keyring ? keyring : &no_keys, nonce ? nonce : zeros, given(label),
                            label ? label_len : 0, given(message), message ? len : 0, some(out),
                            out ? out_len : 0);
}

swimtab_written swimtab_seal_stream(const swimtab_keyring *keyring, const void *nonce,
                                    const void *label, size_t label_len, bool reply,
                                    const void *message, size_t len, void *out, size_t out_len) {
    const uint8_t zeros[SWIMTAB_NONCE_LEN] = {0};
    const swimtab_keyring no_keys = SWIMTAB_KEYRING_INIT;
    return swimtab_raw_seal_stream(keyring ? keyring : &no_keys, nonce ? nonce : zeros, given(label),
                                   label ? label_len : 0, reply, given(message), message ? len : 0,
                                   some(out), out ? out_len : 0);
}

size_t swimtab_count(const swimtab_node *node) {
    if (!node) return 0;
    return swimtab_raw_count(node);
}

swimtab_status swimtab_member(const swimtab_node *node, size_t i, swimtab_member_data *member) {
    swimtab_member_data unread;
    if (!node) return SWIMTAB_NO_NODE;
    return swimtab_raw_member(node, i, member ? member : &unread);
}

swimtab_status swimtab_find(const swimtab_node *node, const void *name, size_t name_len,
                            swimtab_member_data *member) {
    swimtab_member_data unread;
    if (!node) return SWIMTAB_NO_NODE;
    return swimtab_raw_find(node, given(name), name ? name_len : 0, member ? member : &unread);
}

swimtab_status swimtab_after(const swimtab_node *node, const void *name, size_t name_len,
                             swimtab_member_data *member) {
    swimtab_member_data unread;
    if (!node) return SWIMTAB_NO_NODE;
    return swimtab_raw_after(node, given(name), name ? name_len : 0, member ? member : &unread);
}

swimtab_written swimtab_list(const swimtab_node *node, void *out, size_t out_len) {
    const swimtab_written no_node = {SWIMTAB_NO_NODE, 0};
    if (!node) return no_node;
    return swimtab_raw_list(node, some(out), out ? out_len : 0);
}

swimtab_status swimtab_list_new(const swimtab_node *node, swimtab_buffer *buffer) {
    if (!node) return SWIMTAB_NO_NODE;
    if (!buffer) return SWIMTAB_TOO_SMALL;
    return swimtab_raw_list_new(node, buffer);
}

swimtab_related swimtab_relate(const swimtab_node *first, const swimtab_node *second) {
    swimtab_related answer = {SWIMTAB_NO_NODE, SWIMTAB_EQUAL};
    if (!first || !second) return answer;
    if (first != second) return swimtab_raw_relate(first, second);
    if (first->held) answer.status = SWIMTAB_DONE;
    return answer;
}

swimtab_status swimtab_watch(swimtab_node *node, bool on) {
    if (!node) return SWIMTAB_NO_NODE;
    return swimtab_raw_watch(node, on);
}

swimtab_status swimtab_next_change(swimtab_node *node, swimtab_member_data *member) {
    swimtab_member_data unread;
    if (!node) return SWIMTAB_NO_NODE;
    return swimtab_raw_next_change(node, member ? member : &unread);
}

swimtab_status swimtab_forget(swimtab_node *node, const void *name, size_t name_len) {
    if (!node) return SWIMTAB_NO_NODE;
    return swimtab_raw_forget(node, given(name), name ? name_len : 0);
}

swimtab_status swimtab_readmit(swimtab_node *node, const void *name, size_t name_len) {
    if (!node) return SWIMTAB_NO_NODE;
    return swimtab_raw_readmit(node, given(name), name ? name_len : 0);
}

swimtab_status swimtab_view_open(swimtab_view *view, uint64_t wait) {
    if (!view) return SWIMTAB_NO_NODE;
    return swimtab_raw_view_open(view, wait);
}

swimtab_status swimtab_view_close(swimtab_view *view) {
    if (!view) return SWIMTAB_NO_NODE;
    return swimtab_raw_view_close(view);
}

swimtab_told swimtab_view_take(swimtab_view *view, uint64_t time, const void *message, size_t len,
                               swimtab_view_data *member) {
    const swimtab_told no_view = {SWIMTAB_NO_NODE, SWIMTAB_NO_EVENT};
    swimtab_view_data unread;
    if (!view) return no_view;
    return swimtab_raw_view_take(view, time, given(message), message ? len : 0, member ? member : &unread);
}

swimtab_told swimtab_view_merge(swimtab_view *view, uint64_t time, swimtab_progress *progress,
                                const void *stream, size_t len, swimtab_view_data *member) {
    const swimtab_told no_view = {SWIMTAB_NO_NODE, SWIMTAB_NO_EVENT};
    swimtab_progress fresh = SWIMTAB_PROGRESS_INIT;
    swimtab_view_data unread;
    if (!view) return no_view;
    return swimtab_raw_view_merge(view, time, progress ? progress : &fresh, given(stream), stream ? len : 0,
                                  member ? member : &unread);
}

size_t swimtab_view_forget(swimtab_view *view, uint64_t time) {
    if (!view) return 0;
    return swimtab_raw_view_forget(view, time);
}

size_t swimtab_view_count(const swimtab_view *view) {
    if (!view) return 0;
    return swimtab_raw_view_count(view);
}

swimtab_status swimtab_view_find(const swimtab_view *view, const void *name, size_t name_len,
                                 swimtab_view_data *member) {
    swimtab_view_data unread;
    if (!view) return SWIMTAB_NO_NODE;
    return swimtab_raw_view_find(view, given(name), name ? name_len : 0, member ? member : &unread);
}

swimtab_status swimtab_view_after(const swimtab_view *view, const void *name, size_t name_len,
                                  swimtab_view_data *member) {
    swimtab_view_data unread;
    if (!view) return SWIMTAB_NO_NODE;
    return swimtab_raw_view_after(view, given(name), name ? name_len : 0, member ? member : &unread);
}

swimtab_written swimtab_view_accuser(const swimtab_view *view, const void *name, size_t name_len, size_t i,
                                     void *out, size_t out_len) {
    const swimtab_written no_view = {SWIMTAB_NO_NODE, 0};
    if (!view) return no_view;
    return swimtab_raw_view_accuser(view, given(name), name ? name_len : 0, i, some(out), out ? out_len : 0);
}

swimtab_status swimtab_view_offer(const swimtab_view *view, bool join, const void *user, size_t user_len,
                                  swimtab_buffer *buffer) {
    if (!view) return SWIMTAB_NO_NODE;
    if (!buffer) return SWIMTAB_TOO_SMALL;
    return swimtab_raw_view_offer(view, join, given(user), user ? user_len : 0, buffer);
}

swimtab_status swimtab_agent_open(swimtab_agent *agent, const swimtab_agent_config *config, uint64_t now) {
    const swimtab_keyring no_keys = SWIMTAB_KEYRING_INIT;
    swimtab_raw_settings settings;
    if (!agent) return SWIMTAB_NO_NODE;
    if (!config || config->size != sizeof *config) return SWIMTAB_BAD_SIZE;
    settings.probe_interval = config->probe_interval;
    settings.probe_timeout = config->probe_timeout;
    settings.indirect_checks = config->indirect_checks;
    settings.push_pull_interval = config->push_pull_interval;
    settings.gossip_interval = config->gossip_interval;
    settings.gossip_nodes = config->gossip_nodes;
    settings.gossip_to_the_dead_time = config->gossip_to_the_dead_time;
    settings.tcp_timeout = config->tcp_timeout;
    settings.reconnect_interval = config->reconnect_interval;
    settings.reconnect_timeout = config->reconnect_timeout;
    settings.retransmit_mult = config->retransmit_mult;
    settings.suspicion_mult = config->suspicion_mult;
    settings.suspicion_max_timeout_mult = config->suspicion_max_timeout_mult;
    settings.awareness_max_multiplier = config->awareness_max_multiplier;
    settings.udp_buffer_size = config->udp_buffer_size;
    settings.is_silent = config->is_silent;
    settings.is_uncompressed = config->is_uncompressed;
    return swimtab_raw_agent_open(agent, now, given(config->name), config->name ? config->name_len : 0,
                                  given(config->addr), config->addr ? config->addr_len : 0, config->port,
                                  given(config->meta), config->meta ? config->meta_len : 0, given(config->vsn),
                                  config->vsn ? config->vsn_len : 0, config->inc, given(config->label),
                                  config->label ? config->label_len : 0, config->keys ? config->keys : &no_keys,
                                  &settings, config->seed);
}

swimtab_status swimtab_agent_close(swimtab_agent *agent) {
    if (!agent) return SWIMTAB_NO_NODE;
    return swimtab_raw_agent_close(agent);
}

swimtab_status swimtab_agent_next(swimtab_agent *agent, swimtab_agent_out *out, swimtab_buffer *buffer) {
    if (!agent) return SWIMTAB_NO_NODE;
    if (!out || !buffer) return SWIMTAB_TOO_SMALL;
    return swimtab_raw_agent_next(agent, out, buffer);
}

uint64_t swimtab_agent_wake(const swimtab_agent *agent) {
    if (!agent) return UINT64_MAX;
    return swimtab_raw_agent_wake(agent);
}

swimtab_status swimtab_agent_tick(swimtab_agent *agent, uint64_t now) {
    if (!agent) return SWIMTAB_NO_NODE;
    return swimtab_raw_agent_tick(agent, now);
}

swimtab_status swimtab_agent_packet(swimtab_agent *agent, uint64_t now, const swimtab_place *from, const void *bytes,
                                    size_t len) {
    if (!agent) return SWIMTAB_NO_NODE;
    if (!from) return SWIMTAB_BAD_ADDRESS;
    return swimtab_raw_agent_packet(agent, now, from, given(bytes), bytes ? len : 0);
}

swimtab_status swimtab_agent_accepted(swimtab_agent *agent, uint64_t now, uint64_t *stream) {
    if (!agent) return SWIMTAB_NO_NODE;
    if (!stream) return SWIMTAB_TOO_SMALL;
    return swimtab_raw_agent_accepted(agent, now, stream);
}

swimtab_status swimtab_agent_connected(swimtab_agent *agent, uint64_t now, uint64_t stream) {
    if (!agent) return SWIMTAB_NO_NODE;
    return swimtab_raw_agent_connected(agent, now, stream);
}

swimtab_status swimtab_agent_received(swimtab_agent *agent, uint64_t now, uint64_t stream, const void *bytes,
                                      size_t len) {
    if (!agent) return SWIMTAB_NO_NODE;
    return swimtab_raw_agent_received(agent, now, stream, given(bytes), bytes ? len : 0);
}

swimtab_status swimtab_agent_closed(swimtab_agent *agent, uint64_t now, uint64_t stream) {
    if (!agent) return SWIMTAB_NO_NODE;
    return swimtab_raw_agent_closed(agent, now, stream);
}

swimtab_status swimtab_agent_join(swimtab_agent *agent, uint64_t now, const swimtab_place *places, size_t count) {
    const swimtab_place nowhere = {{0}, 0, 0};
    if (!agent) return SWIMTAB_NO_NODE;
    return swimtab_raw_agent_join(agent, now, places ? places : &nowhere, places ? count : 0);
}

swimtab_status swimtab_agent_leave(swimtab_agent *agent, uint64_t now) {
    if (!agent) return SWIMTAB_NO_NODE;
    return swimtab_raw_agent_leave(agent, now);
}

swimtab_status swimtab_agent_update(swimtab_agent *agent, uint64_t now, const void *meta, size_t len) {
    if (!agent) return SWIMTAB_NO_NODE;
    return swimtab_raw_agent_update(agent, now, given(meta), meta ? len : 0);
}

swimtab_status swimtab_agent_say(swimtab_agent *agent, uint64_t now, const void *bytes, size_t len) {
    if (!agent) return SWIMTAB_NO_NODE;
    return swimtab_raw_agent_say(agent, now, given(bytes), bytes ? len : 0);
}

swimtab_status swimtab_agent_state(swimtab_agent *agent, uint64_t now, const void *bytes, size_t len) {
    if (!agent) return SWIMTAB_NO_NODE;
    return swimtab_raw_agent_state(agent, now, given(bytes), bytes ? len : 0);
}

swimtab_status swimtab_agent_keys(swimtab_agent *agent, const swimtab_keyring *keys) {
    const swimtab_keyring no_keys = SWIMTAB_KEYRING_INIT;
    if (!agent) return SWIMTAB_NO_NODE;
    return swimtab_raw_agent_keys(agent, keys ? keys : &no_keys);
}

size_t swimtab_agent_count(const swimtab_agent *agent) {
    if (!agent) return 0;
    return swimtab_raw_agent_count(agent);
}

swimtab_status swimtab_agent_find(const swimtab_agent *agent, const void *name, size_t name_len,
                                  swimtab_view_data *member) {
    swimtab_view_data unread;
    if (!agent) return SWIMTAB_NO_NODE;
    return swimtab_raw_agent_find(agent, given(name), name ? name_len : 0, member ? member : &unread);
}

swimtab_status swimtab_agent_after(const swimtab_agent *agent, const void *name, size_t name_len,
                                   swimtab_view_data *member) {
    swimtab_view_data unread;
    if (!agent) return SWIMTAB_NO_NODE;
    return swimtab_raw_agent_after(agent, given(name), name ? name_len : 0, member ? member : &unread);
}

const char *swimtab_fault_name(uint32_t status) {
    switch (status) {
    case 0: return "Done";
    case 1: return "Ended";
    case 2: return "NotUnsigned";
    case 3: return "OutOfRange";
    case 4: return "NotBool";
    case 5: return "NotRaw";
    case 6: return "TooLong";
    case 7: return "NotMap";
    case 8: return "MapCount";
    case 9: return "Fault";
    case 10: return "Memory";
    case 11: return "NameEmpty";
    case 12: return "NameTooLong";
    case 13: return "BadAddress";
    case 14: return "MetaTooLong";
    case 15: return "BadVersions";
    case 16: return "WrongType";
    case 17: return "UnknownKey";
    case 18: return "DuplicateKey";
    case 19: return "BadState";
    case 20: return "TooManyNodes";
    case 21: return "UserTooLong";
    case 22: return "Trailing";
    case 23: return "TooManyRecords";
    case 24: return "Exhausted";
    case 25: return "Gone";
    case 26: return "NoSuchNode";
    case 27: return "SameNode";
    case 28: return "TooLargeForLoop";
    case 29: return "Push";
    case 30: return "BadHex";
    case 31: return "BadScript";
    case 32: return "InputTooLong";
    case 40: return "Ended";
    case 41: return "Trailing";
    case 42: return "BadCode";
    case 43: return "BadChecksum";
    case 44: return "BadMap";
    case 45: return "BadAlgo";
    case 46: return "BadLabel";
    case 47: return "TooLarge";
    case 48: return "TooDeep";
    case 49: return "Memory";
    case 50: return "BadKey";
    case 51: return "TooLong";
    case 52: return "TooShort";
    case 53: return "WrongVersion";
    case 54: return "WrongTag";
    case 55: return "BadPadding";
    case 56: return "NotEncrypted";
    case 57: return "Trailing";
    case 58: return "Memory";
    case 59: return "Unencrypted";
    case 64: return "NoNode";
    case 65: return "NodeThere";
    case 66: return "TooSmall";
    case 67: return "NoMember";
    case 68: return "OwnName";
    case 69: return "TooManyPackets";
    case 70: return "BadForm";
    case 71: return "NoItem";
    case 72: return "KeyInUse";
    case 73: return "NotBack";
    case 74: return "BadSize";
    case 75: return "BadMultiplier";
    case 76: return "ShortDatagrams";
    case 77: return "NoSeed";
    default: return "Unknown";
    }
}

const char *swimtab_fault_text(uint32_t status) {
    switch (status) {
    case 0: return "Done.";
    case 1: return "The bytes end too soon.";
    case 2: return "Expected a number that is not negative.";
    case 3: return "A number is above the maximum of its field.";
    case 4: return "Expected a boolean.";
    case 5: return "Expected text or bytes.";
    case 6: return "Text or bytes are longer than their field allows.";
    case 7: return "Expected a map.";
    case 8: return "A map has more pairs than the message has fields.";
    case 10: return "Out of memory.";
    case 11: return "The name is empty.";
    case 12: return "The name has more than 1,024 bytes.";
    case 13: return "The address does not have 4 or 16 bytes.";
    case 14: return "The metadata has more than 512 bytes.";
    case 15: return "The versions do not have 0 or 6 bytes.";
    case 16: return "The message is of another type.";
    case 17: return "A map has a key that the message does not have.";
    case 18: return "A map has a key twice.";
    case 19: return "A state is not 0, 1, 2 or 3.";
    case 20: return "The stream announces more than 131,072 members.";
    case 21: return "The stream has more than 20,971,520 bytes of user state.";
    case 22: return "Bytes follow the end.";
    case 23: return "The table has more than 131,072 records, too many for a stream.";
    case 24: return "There is no greater incarnation.";
    case 25: return "The member was declared dead, or left.";
    case 40: return "A wrapper or compressed bytes end too soon.";
    case 41: return "Bytes follow a compression.";
    case 42: return "A compression has a code that is not in the dictionary.";
    case 43: return "The checksum is wrong.";
    case 44: return "The map of a compression is invalid.";
    case 45: return "The compression is not LZW.";
    case 46: return "The label is empty.";
    case 47: return "Wrapped bytes exceed the limit.";
    case 48: return "More than 4 wrappers are nested.";
    case 50: return "The key does not have 16, 24 or 32 bytes.";
    case 51: return "The label, or what is encrypted, is too long.";
    case 52: return "Encrypted bytes end too soon.";
    case 53: return "The version of the encryption is not 0 or 1.";
    case 54: return "No key decrypts it.";
    case 55: return "Decrypted bytes are not padded.";
    case 56: return "The stream is not encrypted.";
    case 57: return "Bytes follow an encrypted stream.";
    case 59: return "It is not encrypted, and only what is encrypted is read.";
    case 64: return "The handle is empty.";
    case 65: return "The handle has a node, a view or an agent already.";
    case 66: return "The buffer is too small.";
    case 67: return "There is no such member.";
    case 68: return "A member does not declare itself dead; it leaves.";
    case 69: return "There are more than 255 packets for one compound packet.";
    case 70: return "There is no such form of a stream, or it has no user state.";
    case 71: return "There is no key, part or accuser at this index, or no further record or output.";
    case 72: return "The first key encrypts, so it is not removed.";
    case 73: return "The member has not come back.";
    case 74: return "The size of a struct is not that of any version.";
    case 75: return "A multiplier of the configuration is too large.";
    case 76: return "The configuration has datagrams of fewer than 576 bytes.";
    case 77: return "The seed of the configuration was never drawn.";
    default: return "There is no such status.";
    }
}

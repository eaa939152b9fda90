/* What the proved crate swim_c exports. Its functions do what those of swimtab.h do, but no pointer passed
 * to them may be NULL, not even with length 0, and swimtab_raw_relate takes two different handles. */
#ifndef SWIMTAB_RAW_H
#define SWIMTAB_RAW_H

#include <swimtab.h>

/* How an agent behaves: the same fields of swimtab_agent_config. */
typedef struct swimtab_raw_settings {
    uint32_t probe_interval;
    uint32_t probe_timeout;
    uint32_t indirect_checks;
    uint32_t push_pull_interval;
    uint32_t gossip_interval;
    uint32_t gossip_nodes;
    uint32_t gossip_to_the_dead_time;
    uint32_t tcp_timeout;
    uint32_t reconnect_interval;
    uint32_t reconnect_timeout;
    uint16_t retransmit_mult;
    uint16_t suspicion_mult;
    uint16_t suspicion_max_timeout_mult;
    uint16_t awareness_max_multiplier;
    uint16_t udp_buffer_size;
    bool is_silent;
    bool is_uncompressed;
} swimtab_raw_settings;

swimtab_status swimtab_raw_open(swimtab_node *node, const void *name, size_t name_len, const void *addr,
                                size_t addr_len, uint16_t port, const void *meta, size_t meta_len,
                                const void *vsn, size_t vsn_len, uint32_t inc);
swimtab_status swimtab_raw_close(swimtab_node *node);
uint32_t swimtab_raw_version(void);
swimtab_taken swimtab_raw_take(swimtab_node *node, const void *bytes, size_t len);
swimtab_written swimtab_raw_offer(const swimtab_node *node, bool join, uint32_t form, const void *user,
                                  size_t user_len, void *out, size_t out_len);
swimtab_exchanged swimtab_raw_answer(swimtab_node *node, const void *stream, size_t len, uint32_t form,
                                     const void *user, size_t user_len, void *out, size_t out_len);
swimtab_exchanged swimtab_raw_finish(swimtab_node *node, const void *stream, size_t len);
swimtab_refuted swimtab_raw_refute(swimtab_node *node);
swimtab_written swimtab_raw_alive_of(const void *name, size_t name_len, const void *addr,
                                     size_t addr_len, uint16_t port, const void *meta, size_t meta_len,
                                     const void *vsn, size_t vsn_len, uint32_t inc, void *out,
                                     size_t out_len);
swimtab_written swimtab_raw_alive(const swimtab_node *node, uint32_t inc, void *out, size_t out_len);
swimtab_written swimtab_raw_suspect(const swimtab_node *node, const void *name, size_t name_len,
                                    uint32_t inc, void *out, size_t out_len);
swimtab_written swimtab_raw_confirm(const swimtab_node *node, const void *name, size_t name_len,
                                    uint32_t inc, void *out, size_t out_len);
swimtab_written swimtab_raw_leave(const swimtab_node *node, uint32_t inc, void *out, size_t out_len);
swimtab_written swimtab_raw_compound(const void *packets, size_t len, const size_t *lens, size_t count,
                                     void *out, size_t out_len);
swimtab_status swimtab_raw_forget(swimtab_node *node, const void *name, size_t name_len);
swimtab_status swimtab_raw_offer_new(const swimtab_node *node, bool join, uint32_t form,
                                     const void *user, size_t user_len, swimtab_buffer *buffer);
swimtab_exchanged swimtab_raw_answer_new(swimtab_node *node, const void *stream, size_t len,
                                         uint32_t form, const void *user, size_t user_len,
                                         swimtab_buffer *buffer);
swimtab_status swimtab_raw_list_new(const swimtab_node *node, swimtab_buffer *buffer);
void swimtab_raw_free(swimtab_buffer *buffer);
swimtab_status swimtab_raw_whole(swimtab_progress *progress, const void *bytes, size_t len);
swimtab_status swimtab_raw_watch(swimtab_node *node, bool on);
swimtab_status swimtab_raw_next_change(swimtab_node *node, swimtab_member_data *member);
size_t swimtab_raw_count(const swimtab_node *node);
swimtab_status swimtab_raw_member(const swimtab_node *node, size_t i, swimtab_member_data *member);
swimtab_status swimtab_raw_find(const swimtab_node *node, const void *name, size_t name_len,
                                swimtab_member_data *member);
swimtab_written swimtab_raw_list(const swimtab_node *node, void *out, size_t out_len);
swimtab_related swimtab_raw_relate(const swimtab_node *first, const swimtab_node *second);
swimtab_status swimtab_raw_keyring_add(swimtab_keyring *keyring, const void *key, size_t key_len);
swimtab_status swimtab_raw_keyring_accept_clear(swimtab_keyring *keyring);
swimtab_status swimtab_raw_keyring_close(swimtab_keyring *keyring);
swimtab_unwrapped swimtab_raw_unwrap(const swimtab_keyring *keyring, const void *packet, size_t len,
                                     void *out, size_t out_len);
swimtab_unwrapped swimtab_raw_unwrap_stream(const swimtab_keyring *keyring, const void *label,
                                            size_t label_len, const void *stream, size_t len, void *out,
                                            size_t out_len);
swimtab_written swimtab_raw_seal(const swimtab_keyring *keyring, const void *nonce, const void *label,
                                 size_t label_len, const void *message, size_t len, void *out,
                                 size_t out_len);
swimtab_written swimtab_raw_seal_stream(const swimtab_keyring *keyring, const void *nonce,
                                        const void *label, size_t label_len, bool reply,
                                        const void *message, size_t len, void *out, size_t out_len);
swimtab_unwrapped swimtab_raw_unwrap_new(const swimtab_keyring *keyring, const void *packet, size_t len,
                                         swimtab_buffer *buffer);
swimtab_unwrapped swimtab_raw_unwrap_stream_new(const swimtab_keyring *keyring, const void *label,
                                                size_t label_len, const void *stream, size_t len,
                                                swimtab_buffer *buffer);
swimtab_refuted swimtab_raw_update(swimtab_node *node, const void *addr, size_t addr_len, uint16_t port,
                                   const void *meta, size_t meta_len, const void *vsn, size_t vsn_len);
swimtab_status swimtab_raw_readmit(swimtab_node *node, const void *name, size_t name_len);
swimtab_status swimtab_raw_after(const swimtab_node *node, const void *name, size_t name_len,
                                 swimtab_member_data *member);
size_t swimtab_raw_left_out(const swimtab_node *node);
size_t swimtab_raw_keyring_count(const swimtab_keyring *keyring);
swimtab_written swimtab_raw_keyring_key(const swimtab_keyring *keyring, size_t i, void *out,
                                        size_t out_len);
swimtab_status swimtab_raw_keyring_use(swimtab_keyring *keyring, size_t i);
swimtab_status swimtab_raw_keyring_remove(swimtab_keyring *keyring, size_t i);
swimtab_written swimtab_raw_suspect_of(const void *from, size_t from_len, const void *name,
                                       size_t name_len, uint32_t inc, void *out, size_t out_len);
swimtab_written swimtab_raw_dead_of(const void *from, size_t from_len, const void *name,
                                    size_t name_len, uint32_t inc, void *out, size_t out_len);
swimtab_part_place swimtab_raw_part(const void *message, size_t len, size_t i);
swimtab_status swimtab_raw_read(const void *message, size_t len, swimtab_probe *probe);
swimtab_written swimtab_raw_ping_of(uint32_t seq, const void *name, size_t name_len, const void *source,
                                    size_t source_len, const void *source_addr, size_t source_addr_len,
                                    uint16_t source_port, void *out, size_t out_len);
swimtab_written swimtab_raw_indirect_of(uint32_t seq, const void *name, size_t name_len,
                                        const void *addr, size_t addr_len, uint16_t port, bool nack,
                                        const void *source, size_t source_len, const void *source_addr,
                                        size_t source_addr_len, uint16_t source_port, void *out,
                                        size_t out_len);
swimtab_written swimtab_raw_ack_of(uint32_t seq, const void *payload, size_t payload_len, void *out,
                                   size_t out_len);
swimtab_written swimtab_raw_nack_of(uint32_t seq, void *out, size_t out_len);
swimtab_written swimtab_raw_user_of(const void *bytes, size_t len, void *out, size_t out_len);
swimtab_status swimtab_raw_view_open(swimtab_view *view, uint64_t wait);
swimtab_status swimtab_raw_view_close(swimtab_view *view);
swimtab_told swimtab_raw_view_take(swimtab_view *view, uint64_t time, const void *message, size_t len,
                                   swimtab_view_data *member);
swimtab_told swimtab_raw_view_merge(swimtab_view *view, uint64_t time, swimtab_progress *progress,
                                    const void *stream, size_t len, swimtab_view_data *member);
size_t swimtab_raw_view_forget(swimtab_view *view, uint64_t time);
size_t swimtab_raw_view_count(const swimtab_view *view);
swimtab_status swimtab_raw_view_find(const swimtab_view *view, const void *name, size_t name_len,
                                     swimtab_view_data *member);
swimtab_status swimtab_raw_view_after(const swimtab_view *view, const void *name, size_t name_len,
                                      swimtab_view_data *member);
swimtab_written swimtab_raw_view_accuser(const swimtab_view *view, const void *name, size_t name_len,
                                         size_t i, void *out, size_t out_len);
swimtab_status swimtab_raw_view_offer(const swimtab_view *view, bool join, const void *user,
                                      size_t user_len, swimtab_buffer *buffer);
swimtab_status swimtab_raw_agent_open(swimtab_agent *agent, uint64_t now, const void *name, size_t name_len,
                                      const void *addr, size_t addr_len, uint16_t port, const void *meta,
                                      size_t meta_len, const void *vsn, size_t vsn_len, uint32_t inc,
                                      const void *label, size_t label_len, const swimtab_keyring *keys,
                                      const swimtab_raw_settings *settings, const uint8_t *seed);
swimtab_status swimtab_raw_agent_close(swimtab_agent *agent);
swimtab_status swimtab_raw_agent_next(swimtab_agent *agent, swimtab_agent_out *out, swimtab_buffer *buffer);
uint64_t swimtab_raw_agent_wake(const swimtab_agent *agent);
swimtab_status swimtab_raw_agent_tick(swimtab_agent *agent, uint64_t now);
swimtab_status swimtab_raw_agent_packet(swimtab_agent *agent, uint64_t now, const swimtab_place *from,
                                        const void *bytes, size_t len);
swimtab_status swimtab_raw_agent_accepted(swimtab_agent *agent, uint64_t now, uint64_t *stream);
swimtab_status swimtab_raw_agent_connected(swimtab_agent *agent, uint64_t now, uint64_t stream);
swimtab_status swimtab_raw_agent_received(swimtab_agent *agent, uint64_t now, uint64_t stream, const void *bytes,
                                          size_t len);
swimtab_status swimtab_raw_agent_closed(swimtab_agent *agent, uint64_t now, uint64_t stream);
swimtab_status swimtab_raw_agent_join(swimtab_agent *agent, uint64_t now, const swimtab_place *places, size_t count);
swimtab_status swimtab_raw_agent_leave(swimtab_agent *agent, uint64_t now);
swimtab_status swimtab_raw_agent_update(swimtab_agent *agent, uint64_t now, const void *meta, size_t len);
swimtab_status swimtab_raw_agent_say(swimtab_agent *agent, uint64_t now, const void *bytes, size_t len);
swimtab_status swimtab_raw_agent_state(swimtab_agent *agent, uint64_t now, const void *bytes, size_t len);
swimtab_status swimtab_raw_agent_keys(swimtab_agent *agent, const swimtab_keyring *keys);
size_t swimtab_raw_agent_count(const swimtab_agent *agent);
swimtab_status swimtab_raw_agent_find(const swimtab_agent *agent, const void *name, size_t name_len,
                                      swimtab_view_data *member);
swimtab_status swimtab_raw_agent_after(const swimtab_agent *agent, const void *name, size_t name_len,
                                       swimtab_view_data *member);

#endif

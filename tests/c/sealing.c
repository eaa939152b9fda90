/* Packets and streams as a real cluster sends them: unwrapped, decrypted and sealed. The bytes are from the
 * cluster with two keys in tests/captures/sealed, decrypted with python's cryptography and zlib; from
 * memberlist's encryptPayload and encryptLocalState, with labels; and from Go's crypto and compress/lzw. No memory that
 * is freed here may hold a key: tests/embedded knows the keys, and looks for them. */
#include "check.h"

/* The keys of the captured cluster: the new one replaced the first one. */
#define OLD_KEY "0d1c51557ebaaee59ca0f5167923fc116f050e5174abc232601430cf8ead85db"
#define NEW_KEY "3b91421dae7f570e037c45dd729985efad5f7659103d10134452b9016801a83f"

/* One of its alive messages, with its checksum, and as it was sent. */
#define ALIVE \
    "0486a441646472b0fd000010000000000000000000000013ab496e6361726e6174696f6e01a44d657461b2ff82a4" \
    "726f6c65a26462a47261636ba27233a44e6f6465a464622d33a4506f7274cd1f0aa356736ea6010502020505"
#define ALIVE_CHECKED "0c29149cbb" ALIVE
#define ALIVE_SENT \
    "01a6ff7135cf2a6d3866656dc4e0b2a465837e6bc65c3df1898088f451fc0f85c0853ca9531ed6043f25857c4bca" \
    "4ad9c6037f43b3e873c40fd38bf6f47507d6080a6f99561a28886a0f6f5155e008482c946bf86968999941ec6287" \
    "b0c801c56af60715913e6f84c83d958d902f86873061704661c3d7844df8d0ae"

/* A compressed compound packet, a suspicion encrypted with the new key, and a nack. */
#define PACKED \
    "0702005a005a0486a441646472b0fd000010000000000000000000000012ab496e6361726e6174696f6e01a44d65" \
    "7461b2ff82a47261636ba27232a4726f6c65a26462a44e6f6465a464622d32a4506f7274cd1f0aa356736ea60105" \
    "020205050486a441646472b0fd000010000000000000000000000011ab496e6361726e6174696f6e01a44d657461" \
    "b2ff82a4726f6c65a26462a47261636ba27231a44e6f6465a464622d31a4506f7274cd1f0aa356736ea601050202" \
    "0505"
#define PACKED_SENT \
    "013a04157eea4acab4d84906137ddee62291bbd98b68bfc8bce6dee712ac69126075e712139692917e4cf64383c9" \
    "89e5c484b8116e23b451f4e60a138c90a21a762490f036d7e6bd94b8b0e69c49350286a2ba11fde62b913be30430" \
    "43a3873da3ead77c3365a3b89aae62937764904beff54f30cb0761c3a3913eb4bda04f7f5845746fef670009abd3" \
    "9dc450c10382a9aa0802c4da28dac978d55698edbc51dc038e9d2f36e3275fb5b9845739101a7fddfa83dae29624" \
    "5584c15ad2ca5036ee1b579f"
#define SUSPECT "0383a446726f6da464622d32ab496e6361726e6174696f6e01a44e6f6465a464622d33"
#define SUSPECT_SENT \
    "018dccbf33b5e26f3f81a65fd70ea9d69b1348813ba29bc4e9ab063156cc18dc3c55115dc87a942e07e25d6bcce8" \
    "164a55ee3c20b4a793b16652643b16b49e34513039e20b"
#define NACK_SENT "0159fd7e689944fde609e1cab0f36aa10434125a7a4c7811552170dfad9a7962f268ab0b6e40"

/* A stream of one member and its user state, compressed, and as it was sent. */
#define STREAM \
    "0683a44a6f696ec3a54e6f64657301ac5573657253746174654c656ecd024c87a441646472b0fd00001000000000" \
    "0000000000000012ab496e6361726e6174696f6e01a44d657461b2ff82a47261636ba27232a4726f6c65a26462a4" \
    "4e616d65a464622d32a4506f7274cd1f0aa5537461746500a356736ea60105020205050286aa4576656e744c5469" \
    "6d6501a64576656e7473dc0200c0c0c0c0c0c0c0c0c0c0c0c0c0c0c0c0c0c0c0c0c0c0c0c0c0c0c0c0c0c0c0c0c0" \
    "c0c0c0c0c0c0c0c0c0c0c0c0c0c0c0c0c0c0c0c0c0c0c0c0c0c0c0c0c0c0c0c0c0c0c0c0c0c0c0c0c0c0c0c0c0c0" \
    "c0c0c0c0c0c0c0c0c0c0c0c0c0c0c0c0c0c0c0c0c0c0c0c0c0c0c0c0c0c0c0c0c0c0c0c0c0c0c0c0c0c0c0c0c0c0" \
    "c0c0c0c0c0c0c0c0c0c0c0c0c0c0c0c0c0c0c0c0c0c0c0c0c0c0c0c0c0c0c0c0c0c0c0c0c0c0c0c0c0c0c0c0c0c0" \
    "c0c0c0c0c0c0c0c0c0c0c0c0c0c0c0c0c0c0c0c0c0c0c0c0c0c0c0c0c0c0c0c0c0c0c0c0c0c0c0c0c0c0c0c0c0c0" \
    "c0c0c0c0c0c0c0c0c0c0c0c0c0c0c0c0c0c0c0c0c0c0c0c0c0c0c0c0c0c0c0c0c0c0c0c0c0c0c0c0c0c0c0c0c0c0" \
    "c0c0c0c0c0c0c0c0c0c0c0c0c0c0c0c0c0c0c0c0c0c0c0c0c0c0c0c0c0c0c0c0c0c0c0c0c0c0c0c0c0c0c0c0c0c0" \
    "c0c0c0c0c0c0c0c0c0c0c0c0c0c0c0c0c0c0c0c0c0c0c0c0c0c0c0c0c0c0c0c0c0c0c0c0c0c0c0c0c0c0c0c0c0c0" \
    "c0c0c0c0c0c0c0c0c0c0c0c0c0c0c0c0c0c0c0c0c0c0c0c0c0c0c0c0c0c0c0c0c0c0c0c0c0c0c0c0c0c0c0c0c0c0" \
    "c0c0c0c0c0c0c0c0c0c0c0c0c0c0c0c0c0c0c0c0c0c0c0c0c0c0c0c0c0c0c0c0c0c0c0c0c0c0c0c0c0c0c0c0c0c0" \
    "c0c0c0c0c0c0c0c0c0c0c0c0c0c0c0c0c0c0c0c0c0c0c0c0c0c0c0c0c0c0c0c0c0c0c0c0c0c0c0c0c0c0c0c0c0c0" \
    "c0c0c0c0c0c0c0c0c0c0c0c0c0c0c0c0c0c0c0a54c54696d6501ab4c6566744d656d6265727390aa51756572794c" \
    "54696d6501ac5374617475734c54696d657381a464622d3200"
#define STREAM_PACKED \
    "0982a4416c676f00a3427566da00e0000d0c22a5e44d1a37c34a397943a6cc9c00acaacc2923670a9d3074ca3029" \
    "e3a69900268748052143460eac7e00004048c9b2654a09ab92b81913468e1b8c69deb80940aa49998bb2fe092225" \
    "27cc9835a2e4c820fa864d195164c4907212a64d1952515b2c85f2460e9d661f1494b288b10c805156e6b83115a0" \
    "80000105dc1a5255c40e473a4ca8a4b11ac054ddbb73b8090000acb0e1c388132b5eccb8b1e3c790234b9e4cb9b2" \
    "e5cb98336bdeccb9b3e7cfa0438b9e5c2aefde3201566d3443c7671b3114e7405215a50ec53ca6f9b2224ba7ce9c" \
    "dc0e036115a3154040"
#define STREAM_SENT \
    "0a0000010c0195aea59235948105d549b19a34d3aa8edebbb2d0783957692307a7efe278c52afdeb75c113abd9f0" \
    "e99165aa157b755b4ed01eed081b5435ac911b6cc34f532856df1fa50e7be4d09b21d846523944ea38e39ba16e21" \
    "5dc85248e28f5a16257b96ff43375c8ff9d7b09eb10a22f623d5936ad2a65752211de4e852c6945bcfca052e1b9e" \
    "d0c098a96b3235c523c4c9f3b2a2eaacb8ec2e3091ff396f3dc1995e159f42f9430ecaadc02bf3861d6b277e3ad9" \
    "f414a8f1812b3b1fef8d2e47405458d8d4de678b796f6a8b8b9a626d8143de2ce7b20dc953823f8ede875359f043" \
    "35b2f97faed8a76767a8d9f6be31fcf870099a6c4aa8847b9c5588b216f837de53b18eb7b7d0ec48c0a7ff"

/* `labelled` encrypted with a key of 16 bytes, after the label `east`. */
#define KEY_16 "10171e252c333a41484f565d646b7279"
#define LABELLED "6c6162656c6c6564"
#define LABELLED_SENT \
    "f40465617374010518b6eda9ae85b3032d0a4fce82ef025099abc4d5e68f21a9fc9eb54669615b149ff295"
#define LABELLED_STREAM_SENT \
    "f404656173740a0000002501c7baf9e8c9a5ae07b800f654274ded0e46948099ad5b4eebcc79afa0f9e1eb3928a3" \
    "09dd"

/* Encrypted with a key of 32 bytes, after the label `dc`: an alive message and a stream of one member. */
#define KEY_32 "000102030405060708090a0b0c0d0e0f101112131415161718191a1b1c1d1e1f"
#define CLEAR_ALIVE \
    "0486a441646472a47f000001ab496e6361726e6174696f6e00a44d657461a0a44e6f6465a161a4506f7274cd1f0a" \
    "a356736ea0"
#define SEALED_ALIVE \
    "f4026463016e6f6e63652d6e756d6265723920ab3d76e6704b1981b2c4e261f17ba5fc3f130ff8cd1d66bc9156e8" \
    "44b4b8bc30546c509b67376ac0f3e39120cd2272652423e554e1f10971feecd5feda8d3d8cea"
#define CLEAR_STREAM \
    "0683a44a6f696ec2a54e6f64657301ac5573657253746174654c656e0087a441646472a47f000001ab496e636172" \
    "6e6174696f6e00a44d657461a0a44e616d65a161a4506f7274cd1f0aa5537461746500a356736ea0"
#define SEALED_STREAM \
    "f40264630a0000008d006e6f6e63652d6e756d6265723424ab3d7ee56defc5c3c7a39328c118c98273d79fdcb844" \
    "a452e54adf83d880f2f39ac5d8d9a46d9882f3e4be038d72c12ad6e19daac821b704768d546f7528744183bc0624" \
    "3ddbc40f0850f3d22ed0ccbc18544e0bf4f3d866e25a87d491ec3e0f6ad1a8bdb2950829fc54ff7279587b06cbcd" \
    "7b5e5c17e150c6feb935b8d1"

/* The stream as a reply in the cluster `dc`, with no label before it; made with python's cryptography. */
#define SEALED_REPLY \
    "0a00000073017265706c792d6e756d626572cac33fce2641d8d4bca9832bea86239a813d97cde094ecba0ca5c532" \
    "f86908430e42d76f5bae8aaf91d5153387d57ae1ffbd621086e929bf00f3f783854ca8be93a7e61f1a4dd7654271" \
    "1255994f2af38d89d1c698a2ae58d0d2a6d36eb14726b7c5d5c927fc"

/* Encrypted with it, without a label: the first byte of a push/pull, and an ack as a stream. */
#define SEALED_BYTE "016e6f6e63652d6e756d6265723b0b56637d80325b1ad4163cc9c2cbef66"
#define ACK_STREAM \
    "0a0000002f016e6f6e63652d6e756d6265723f24a82c73fb6e8007e572601a4dee56ab8f2b2c23af1a5a34fd34c8" \
    "c1ce29aa11ed"

/* The alive message and the stream, encrypted with KEY_16 by python's cryptography: the message as it is behind the
 * label `dc`, the stream without a label, and the stream as a reply in the cluster `dc`; and another key. */
#define BEHIND_DC \
    "016e6f6e63652d6e756d626572b2980fe9247d4805575d830023618ef4dbc489567f158533ac5b9850e44d7eed8a" \
    "bd6b4b98a8b5fb34a4d321187f3372c0b79384532062b2a63884313296f0be0ef24b"
#define SEALED_IN_DC "f4026463" BEHIND_DC
#define STREAM_BY_16 \
    "0a00000073016e6f6e63652d6e756d626572b09d0fe22f7054638d13ec65ed5be13befc5824558088b29c9b3b05b" \
    "90ab7a08a0b67d8a46c911aaf09fc98f6607fe45c7b05c0e8a748142e81811a4cb40f3c799065657aab47a8bab9a" \
    "febb7c515f32b33cf6ebdaa4c1c174934a92cb9a721be8ee591af88f"
#define REPLY_BY_16 \
    "0a00000073016e6f6e63652d6e756d626572b09d0fe22f7054638d13ec65ed5be13befc5824558088b29c9b3b05b" \
    "90ab7a08a0b67d8a46c911aaf09fc98f6607fe45c7b05c0e8a748142e81811a4cb40f3c799065657aab47a8bab9a" \
    "febb7c515f32b33cf6ebdaa4fe06959a2c355f984de9a106a6e7c606"
#define KEY_24 "616e6f74686572206b6579206f662032342062797465732e"

/* The alive message, compressed and with a checksum. */
#define PACKED_ALIVE \
    "0caa798b020982a4416c676f00a3427566da003c0009182215840c1939a4fe0000106055123763c2c87113864e9a" \
    "376e00906a52864e1850a49cbc21532654185250dec8a1d3ec83825156e6b8011510"

/* A ping. */
#define PING \
    "0085a44e6f6465a26433a55365714e6f01aa536f7572636541646472a47f000502aa536f757263654e6f6465a264" \
    "32aa536f75726365506f7274cd1f0a"

/* A call that reads wrapped bytes, and one that writes them. */
typedef swimtab_written (*unwrapping)(const swimtab_keyring *, const void *, size_t, void *, size_t);
typedef swimtab_written (*sealing)(const swimtab_keyring *, const void *, const void *, size_t, const void *, size_t,
                                   void *, size_t);

static swimtab_written unwrap(const swimtab_keyring *keyring, const void *packet, size_t len, void *out,
                              size_t out_len) {
    return written_of(swimtab_unwrap(keyring, packet, len, out, out_len));
}

/* A stream in a cluster without a label, and in the clusters `dc` and `east`. */
static swimtab_written unwrap_stream(const swimtab_keyring *keyring, const void *stream, size_t len, void *out,
                                     size_t out_len) {
    return written_of(swimtab_unwrap_stream(keyring, "", 0, stream, len, out, out_len));
}

static swimtab_written unwrap_in_dc(const swimtab_keyring *keyring, const void *stream, size_t len, void *out,
                                    size_t out_len) {
    return written_of(swimtab_unwrap_stream(keyring, "dc", 2, stream, len, out, out_len));
}

static swimtab_written unwrap_in_east(const swimtab_keyring *keyring, const void *stream, size_t len, void *out,
                                      size_t out_len) {
    return written_of(swimtab_unwrap_stream(keyring, "east", 4, stream, len, out, out_len));
}

/* A stream from the side that opens a connection, and one from the side that answers. */
static swimtab_written seal_stream(const swimtab_keyring *keyring, const void *nonce, const void *label,
                                   size_t label_len, const void *message, size_t len, void *out, size_t out_len) {
    return swimtab_seal_stream(keyring, nonce, label, label_len, false, message, len, out, out_len);
}

static swimtab_written seal_reply(const swimtab_keyring *keyring, const void *nonce, const void *label,
                                  size_t label_len, const void *message, size_t len, void *out, size_t out_len) {
    return swimtab_seal_stream(keyring, nonce, label, label_len, true, message, len, out, out_len);
}

/* Frees a key, of which nothing is left: writes that a compiler sees to be lost it may leave out. */
static void wipe(struct bytes key) {
    volatile uint8_t *at = key.at;
    for (size_t i = 0; i < key.len; i++) at[i] = 0;
    free(key.at);
}

/* A keyring with these keys in hexadecimal, up to the first NULL. */
static swimtab_keyring keyring_of(const char *const *keys) {
    swimtab_keyring keyring = SWIMTAB_KEYRING_INIT;
    for (; *keys; keys++) {
        struct bytes key = hex(*keys);
        WANT(swimtab_keyring_add(&keyring, key.at, key.len) == SWIMTAB_DONE && keyring.held);
        wipe(key);
    }
    return keyring;
}

/* Closes a keyring, with or without keys. */
static void closes(swimtab_keyring *keyring) {
    bool held = keyring->held;
    WANT(swimtab_keyring_close(keyring) == (held ? SWIMTAB_DONE : SWIMTAB_NO_NODE));
    WANT(!keyring->held && swimtab_keyring_close(keyring) == SWIMTAB_NO_NODE);
}

static bool is_filled(struct bytes bytes, size_t from) {
    for (; from < bytes.len; from++)
        if (bytes.at[from] != 7) return false;
    return true;
}

/* The buffer of this length that was passed to a call is right: it begins with the bytes and is unchanged after
 * them or, if it is too small, is unchanged. */
static void is_written(swimtab_written written, struct bytes room, const char *wanted) {
    struct bytes bytes = hex(wanted);
    WANT(written.len == bytes.len);
    if (room.len < bytes.len)
        WANT(written.status == SWIMTAB_TOO_SMALL && is_filled(room, 0));
    else
        WANT(written.status == SWIMTAB_DONE && is_hex(room.at, bytes.len, wanted) && is_filled(room, bytes.len));
    free(bytes.at);
}

/* The bytes unwrap to the wanted ones, with a buffer that just fits, a longer one and shorter ones. */
static void unwraps(const char *const *keys, unwrapping call, const char *sent, const char *wanted) {
    swimtab_keyring keyring = keyring_of(keys);
    struct bytes packet = hex(sent);
    size_t len = strlen(wanted) / 2;
    const size_t rooms[] = {len, len + 9, len - 1, 0};
    for (size_t i = 0; i < sizeof rooms / sizeof *rooms; i++) {
        struct bytes room = bytes_of_size(rooms[i], 7);
        is_written(call(&keyring, packet.at, packet.len, room.at, room.len), room, wanted);
        free(room.at);
    }
    free(packet.at);
    closes(&keyring);
}

/* The bytes are refused with this status, and the buffer is unchanged. */
static void refused(const char *const *keys, unwrapping call, const char *sent, uint32_t status) {
    swimtab_keyring keyring = keyring_of(keys);
    struct bytes packet = hex(sent), room = bytes_of_size(2000, 7);
    swimtab_written written = call(&keyring, packet.at, packet.len, room.at, room.len);
    if (written.status != status) printf("    %.20s: %u\n", sent, written.status);
    WANT(written.status == status && written.len == 0 && is_filled(room, 0));
    free(packet.at), free(room.at);
    closes(&keyring);
}

/* The message is sealed as in the cluster, with the nonce that the cluster used. */
static void seals(const char *const *keys, sealing call, size_t nonce_at, const char *label, const char *message,
                  const char *wanted) {
    swimtab_keyring keyring = keyring_of(keys);
    struct bytes bytes = hex(message), sent = hex(wanted);
    const size_t rooms[] = {sent.len, sent.len + 9, sent.len - 1, 0};
    for (size_t i = 0; i < sizeof rooms / sizeof *rooms; i++) {
        struct bytes room = bytes_of_size(rooms[i], 7);
        is_written(call(&keyring, sent.at + nonce_at, label, strlen(label), bytes.at, bytes.len, room.at, room.len),
                   room, wanted);
        free(room.at);
    }
    free(bytes.at), free(sent.at);
    closes(&keyring);
}

static const char *const no_keys[] = {NULL};
static const char *const both[] = {NEW_KEY, OLD_KEY, NULL};
static const char *const old_only[] = {OLD_KEY, NULL};
static const char *const key_16[] = {KEY_16, NULL};
static const char *const keys_16_24[] = {KEY_16, KEY_24, NULL};
static const char *const keys_24_16[] = {KEY_24, KEY_16, NULL};
static const char *const key_32[] = {KEY_32, NULL};
static const char *const others[] = {OLD_KEY, KEY_16, KEY_32, NULL};

static void keys_are_added_and_freed(void) {
    swimtab_keyring keyring = SWIMTAB_KEYRING_INIT;
    const uint8_t key[33] = {1};
    static const size_t wrong[] = {0, 1, 15, 17, 23, 25, 31, 33};
    for (size_t i = 0; i < sizeof wrong / sizeof *wrong; i++)
        WANT(swimtab_keyring_add(&keyring, key, wrong[i]) == 50 && !keyring.held);
    for (size_t len = 16; len <= 32; len += 8)
        WANT(swimtab_keyring_add(&keyring, key, len) == SWIMTAB_DONE && keyring.held);
    for (size_t i = 0; i < sizeof wrong / sizeof *wrong; i++)
        WANT(swimtab_keyring_add(&keyring, key, wrong[i]) == 50 && keyring.held);
    closes(&keyring);
}

/* memberlist drops what is in the clear if it has keys (net.go, GossipVerifyIncoming in config.go). */
static void what_is_in_the_clear_is_refused_with_keys(void) {
    refused(both, unwrap, ALIVE, SWIMTAB_UNENCRYPTED);
    refused(both, unwrap, ALIVE_CHECKED, SWIMTAB_UNENCRYPTED);
    refused(both, unwrap, PACKED_ALIVE, SWIMTAB_UNENCRYPTED);
    refused(both, unwrap, "f40161" ALIVE, SWIMTAB_UNENCRYPTED);
    refused(key_16, unwrap_stream, CLEAR_STREAM, SWIMTAB_UNENCRYPTED);
    refused(key_16, unwrap_in_dc, CLEAR_STREAM, SWIMTAB_UNENCRYPTED);
    refused(key_16, unwrap_stream, "f4026463" CLEAR_STREAM, SWIMTAB_UNENCRYPTED);
}

/* The bytes in the clear unwrap to the wanted ones once that is accepted, until the keyring is closed. */
static void accepts(unwrapping call, const char *sent, const char *wanted) {
    swimtab_keyring keyring = SWIMTAB_KEYRING_INIT;
    struct bytes bytes = hex(sent), room = bytes_of_size(2000, 7);
    WANT(swimtab_keyring_accept_clear(&keyring) == SWIMTAB_NO_NODE);
    keyring = keyring_of(key_16);
    WANT(call(&keyring, bytes.at, bytes.len, room.at, room.len).status == SWIMTAB_UNENCRYPTED);
    WANT(swimtab_keyring_accept_clear(&keyring) == SWIMTAB_DONE);
    WANT(swimtab_keyring_add(&keyring, "sixteen more byt", 16) == SWIMTAB_DONE);
    is_written(call(&keyring, bytes.at, bytes.len, room.at, room.len), room, wanted);
    closes(&keyring);
    keyring = keyring_of(key_16);
    WANT(call(&keyring, bytes.at, bytes.len, room.at, room.len).status == SWIMTAB_UNENCRYPTED);
    free(bytes.at), free(room.at);
    closes(&keyring);
}

static void what_is_in_the_clear_is_accepted_if_asked(void) {
    accepts(unwrap, ALIVE, ALIVE);
    accepts(unwrap, ALIVE_CHECKED, ALIVE);
    accepts(unwrap_stream, CLEAR_STREAM, CLEAR_STREAM);
    accepts(unwrap_in_dc, CLEAR_STREAM, CLEAR_STREAM);
    /* and what is encrypted is decrypted as before */
    swimtab_keyring keyring = keyring_of(keys_16_24);
    struct bytes sealed = hex(SEALED_IN_DC), room = bytes_of_size(200, 7);
    WANT(swimtab_keyring_accept_clear(&keyring) == SWIMTAB_DONE);
    is_written(unwrap(&keyring, sealed.at, sealed.len, room.at, room.len), room, CLEAR_ALIVE);
    free(sealed.at), free(room.at);
    closes(&keyring);
    WANT(swimtab_keyring_accept_clear(&keyring) == SWIMTAB_NO_NODE);
}

static void packets_of_a_cluster_are_unwrapped(void) {
    unwraps(both, unwrap, ALIVE_SENT, ALIVE);
    unwraps(old_only, unwrap, ALIVE_SENT, ALIVE);
    unwraps(both, unwrap, PACKED_SENT, PACKED);
    unwraps(both, unwrap, SUSPECT_SENT, SUSPECT);
    unwraps(no_keys, unwrap, ALIVE_CHECKED, ALIVE);
    unwraps(no_keys, unwrap, PACKED_ALIVE, CLEAR_ALIVE);
    unwraps(no_keys, unwrap, "f40161" ALIVE, ALIVE);
    unwraps(others, unwrap, SEALED_ALIVE, CLEAR_ALIVE);
}

/* The kind of what is unwrapped is told, also if the buffer is too small. */
static void is_of_kind(const char *const *keys, bool in_stream, const char *sent, uint32_t kind) {
    swimtab_keyring keyring = keyring_of(keys);
    struct bytes bytes = hex(sent), room = bytes_of_size(2000, 7);
    for (size_t len = 0; len <= room.len; len += room.len) {
        swimtab_unwrapped made =
            in_stream ? swimtab_unwrap_stream(&keyring, NULL, 0, bytes.at, bytes.len, room.at, len)
                      : swimtab_unwrap(&keyring, bytes.at, bytes.len, room.at, len);
        WANT(made.status == (len ? SWIMTAB_DONE : SWIMTAB_TOO_SMALL) && made.kind == kind);
    }
    swimtab_buffer buffer = SWIMTAB_BUFFER_INIT;
    swimtab_unwrapped made = in_stream
                                 ? swimtab_unwrap_stream_new(&keyring, NULL, 0, bytes.at, bytes.len, &buffer)
                                 : swimtab_unwrap_new(&keyring, bytes.at, bytes.len, &buffer);
    WANT(made.status == SWIMTAB_DONE && made.kind == kind && made.len == buffer.len);
    WANT(memcmp(buffer.at, room.at, buffer.len) == 0);
    made = in_stream ? swimtab_unwrap_stream_new(&keyring, NULL, 0, "\x09", 1, &buffer)
                     : swimtab_unwrap_new(&keyring, "\x09", 1, &buffer);
    WANT(made.status != SWIMTAB_DONE && made.kind == 0 && memcmp(buffer.at, room.at, buffer.len) == 0);
    swimtab_free(&buffer);
    free(bytes.at), free(room.at);
    closes(&keyring);
}

static void any_message_is_unwrapped(void) {
    is_of_kind(both, false, NACK_SENT, SWIMTAB_KIND_NACK);
    is_of_kind(both, false, ALIVE_SENT, SWIMTAB_KIND_ALIVE);
    is_of_kind(both, false, SUSPECT_SENT, SWIMTAB_KIND_SUSPECT);
    is_of_kind(no_keys, false, PING, SWIMTAB_KIND_PING);
    is_of_kind(no_keys, false, "06", SWIMTAB_KIND_PUSH_PULL);
    is_of_kind(no_keys, true, PING, SWIMTAB_KIND_PING);
    is_of_kind(no_keys, true, "08616263", SWIMTAB_KIND_USER);
    is_of_kind(both, true, STREAM_SENT, SWIMTAB_KIND_PUSH_PULL);
    is_of_kind(key_32, true, ACK_STREAM, SWIMTAB_KIND_ACK);
    unwraps(no_keys, unwrap, PING, PING);
    unwraps(key_32, unwrap, SEALED_BYTE, "06");
    unwraps(no_keys, unwrap_stream, "08616263", "08616263");
    /* without a key, what is encrypted is given as it is */
    unwraps(no_keys, unwrap, ALIVE_SENT, ALIVE_SENT);
}

static void packets_without_a_message_are_refused(void) {
    refused(no_keys, unwrap, "0e", SWIMTAB_WRONG_TYPE);
    refused(no_keys, unwrap, "0a", SWIMTAB_WRONG_TYPE);
    refused(no_keys, unwrap, "", SWIMTAB_ENDED);
    refused(no_keys, unwrap, "0c00000000", SWIMTAB_ENDED);
    refused(old_only, unwrap, SUSPECT_SENT, 54);
    refused(key_16, unwrap, ALIVE_SENT, 54);
    refused(both, unwrap, "01ff", 54);
    refused(key_32, unwrap, "f4026463" SEALED_BYTE, 54);
    refused(both, unwrap, "0c00", 54);
    refused(no_keys, unwrap, "0c00", 40);
    refused(no_keys, unwrap, "0c00000001", 43);
    refused(no_keys, unwrap, "0905", 44);
    refused(no_keys, unwrap, "f400", 46);
    refused(no_keys, unwrap, "f40161f40161f40161f40161f4016103", 48);
}

static void streams_of_a_cluster_are_unwrapped(void) {
    unwraps(both, unwrap_stream, STREAM_SENT, STREAM);
    unwraps(no_keys, unwrap_stream, STREAM_PACKED, STREAM);
    unwraps(others, unwrap_stream, SEALED_STREAM, CLEAR_STREAM);
}

static void replies_of_a_cluster_with_a_label_are_unwrapped(void) {
    unwraps(others, unwrap_in_dc, SEALED_REPLY, CLEAR_STREAM);
    unwraps(others, unwrap_stream, "f4026463" SEALED_REPLY, CLEAR_STREAM);
    unwraps(no_keys, unwrap_in_dc, CLEAR_STREAM, CLEAR_STREAM);
    unwraps(no_keys, unwrap_in_dc, STREAM_PACKED, STREAM);
    unwraps(others, unwrap_in_dc, SEALED_STREAM, CLEAR_STREAM);
    unwraps(others, unwrap_in_east, SEALED_STREAM, CLEAR_STREAM);
    refused(key_32, unwrap_stream, SEALED_REPLY, 54);
    refused(key_32, unwrap_in_east, SEALED_REPLY, 54);
    refused(key_32, unwrap_in_dc, ACK_STREAM, 54);
    refused(no_keys, unwrap_in_dc, SEALED_REPLY, SWIMTAB_WRONG_TYPE);
    refused(no_keys, unwrap_in_dc, "", SWIMTAB_ENDED);
    refused(no_keys, unwrap_in_dc, "f400", 46);
}

static void what_holds_no_message_is_refused(void) {
    refused(no_keys, unwrap_stream, "", SWIMTAB_ENDED);
    refused(no_keys, unwrap_stream, "0e", SWIMTAB_WRONG_TYPE);
    refused(no_keys, unwrap_stream, STREAM_SENT, SWIMTAB_WRONG_TYPE);
    refused(no_keys, unwrap_stream, "0c00", SWIMTAB_ENDED);
    refused(no_keys, unwrap_stream, "0c00000001", 43);
    refused(key_32, unwrap_stream, "0a10000001", 51);
    refused(key_32, unwrap_stream, "0a000000", SWIMTAB_ENDED);
    refused(key_16, unwrap_stream, STREAM_SENT, 54);
    refused(both, unwrap_stream, STREAM_SENT "00", 57);
}

static void messages_are_sealed_as_the_cluster_did(void) {
    seals(old_only, swimtab_seal, 1, "", ALIVE_CHECKED, ALIVE_SENT);
    seals(old_only, seal_stream, 6, "", STREAM_PACKED, STREAM_SENT);
    seals(key_16, swimtab_seal, 7, "east", LABELLED, LABELLED_SENT);
    seals(key_16, seal_stream, 12, "east", LABELLED, LABELLED_STREAM_SENT);
    seals(key_32, swimtab_seal, 5, "dc", CLEAR_ALIVE, SEALED_ALIVE);
}

static void a_reply_is_sealed_without_its_label(void) {
    seals(key_32, seal_reply, 6, "dc", CLEAR_STREAM, SEALED_REPLY);
    seals(old_only, seal_reply, 6, "", STREAM_PACKED, STREAM_SENT);
    seals(no_keys, seal_reply, 0, "", CLEAR_STREAM, CLEAR_STREAM);
    seals(no_keys, seal_reply, 0, "dc", CLEAR_STREAM, CLEAR_STREAM);
}

static void the_first_key_seals(void) {
    static const char *const first[] = {OLD_KEY, NEW_KEY, KEY_16, NULL};
    seals(first, swimtab_seal, 1, "", ALIVE_CHECKED, ALIVE_SENT);
    seals(first, seal_stream, 6, "", STREAM_PACKED, STREAM_SENT);
}

static void a_keyring_seals_by_its_first_key(void) {
    seals(keys_16_24, swimtab_seal, 5, "dc", CLEAR_ALIVE, SEALED_IN_DC);
    seals(keys_16_24, seal_stream, 6, "", CLEAR_STREAM, STREAM_BY_16);
    seals(keys_16_24, seal_reply, 6, "dc", CLEAR_STREAM, REPLY_BY_16);
    const char *const *const either[] = {keys_16_24, keys_24_16};
    for (size_t i = 0; i < 2; i++) {
        unwraps(either[i], unwrap, SEALED_IN_DC, CLEAR_ALIVE);
        unwraps(either[i], unwrap_stream, STREAM_BY_16, CLEAR_STREAM);
        unwraps(either[i], unwrap_in_dc, REPLY_BY_16, CLEAR_STREAM);
        refused(either[i], unwrap_stream, REPLY_BY_16, SWIMTAB_WRONG_TAG);
        refused(either[i], unwrap, "01ff", SWIMTAB_WRONG_TAG);
        refused(either[i], unwrap, CLEAR_ALIVE, SWIMTAB_UNENCRYPTED);
        refused(either[i], unwrap_stream, CLEAR_STREAM, SWIMTAB_UNENCRYPTED);
        /* nothing, a label and nothing else, and a packet in place of a stream */
        refused(either[i], unwrap, "", SWIMTAB_UNENCRYPTED);
        refused(either[i], unwrap_in_dc, "f4026463", SWIMTAB_ENDED);
        refused(either[i], unwrap_in_dc, SEALED_IN_DC, SWIMTAB_UNENCRYPTED);
    }
    /* without a key only the label is removed */
    unwraps(no_keys, unwrap, SEALED_IN_DC, BEHIND_DC);
}

static void without_a_key_the_label_alone_is_written(void) {
    seals(no_keys, swimtab_seal, 0, "", CLEAR_ALIVE, CLEAR_ALIVE);
    seals(no_keys, swimtab_seal, 0, "dc", CLEAR_ALIVE, "f4026463" CLEAR_ALIVE);
    seals(no_keys, seal_stream, 0, "", CLEAR_STREAM, CLEAR_STREAM);
    seals(no_keys, seal_stream, 0, "dc", CLEAR_STREAM, "f4026463" CLEAR_STREAM);
}

/* A label of 255 bytes is written, and one of 256 refused, with a key and without. */
static void the_longest_label(sealing call, const char *const *keys) {
    swimtab_keyring keyring = keyring_of(keys);
    struct bytes label = bytes_of_size(256, 'x'), room = bytes_of_size(2000, 7);
    const uint8_t nonce[12] = {1};
    swimtab_written written = call(&keyring, nonce, label.at, 256, "\x03", 1, room.at, room.len);
    WANT(written.status == 51 && written.len == 0 && is_filled(room, 0));
    written = call(&keyring, nonce, label.at, 255, "\x03", 1, room.at, room.len);
    WANT(written.status == SWIMTAB_DONE && room.at[0] == 244 && room.at[1] == 255);
    free(label.at), free(room.at);
    closes(&keyring);
}

/* The same for the label of a reply, which is not written, with a key and without. */
static void the_longest_label_of_a_clear_reply(void) {
    swimtab_keyring keyring = SWIMTAB_KEYRING_INIT;
    struct bytes label = bytes_of_size(256, 'x'), room = bytes_of_size(2000, 7);
    const uint8_t nonce[12] = {1};
    swimtab_written written = seal_reply(&keyring, nonce, label.at, 256, "\x06", 1, room.at, room.len);
    WANT(written.status == 51 && written.len == 0 && is_filled(room, 0));
    written = seal_reply(&keyring, nonce, label.at, 255, "\x06", 1, room.at, room.len);
    is_written(written, room, "06");
    free(label.at), free(room.at);
}

/* And for one that is unwrapped. */
static void the_longest_label_of_a_reply(void) {
    swimtab_keyring keyring = keyring_of(key_16);
    struct bytes label = bytes_of_size(256, 'x'), room = bytes_of_size(2000, 7), read = bytes_of_size(9, 7);
    const uint8_t nonce[12] = {1};
    swimtab_written written = seal_reply(&keyring, nonce, label.at, 256, "\x06", 1, room.at, room.len);
    WANT(written.status == 51 && written.len == 0 && is_filled(room, 0));
    written = seal_reply(&keyring, nonce, label.at, 255, "\x06", 1, room.at, room.len);
    WANT(written.status == SWIMTAB_DONE && written.len == 35 && room.at[0] == 10);
    written = written_of(swimtab_unwrap_stream(&keyring, label.at, 256, room.at, 35, read.at, read.len));
    WANT(written.status == 51 && written.len == 0 && is_filled(read, 0));
    written = written_of(swimtab_unwrap_stream(&keyring, label.at, 255, room.at, 35, read.at, read.len));
    is_written(written, read, "06");
    free(label.at), free(room.at), free(read.at);
    closes(&keyring);
}

static void a_label_has_255_bytes_at_most(void) {
    the_longest_label(swimtab_seal, no_keys);
    the_longest_label(swimtab_seal, key_16);
    the_longest_label(seal_stream, no_keys);
    the_longest_label(seal_stream, key_16);
    the_longest_label_of_a_clear_reply();
    the_longest_label_of_a_reply();
}

/* What is sealed is unwrapped again, and a node takes it in. */
static void what_is_sealed_is_taken_in(void) {
    swimtab_keyring keyring = keyring_of(both);
    swimtab_node node = opened("a", 7946, 0), other = opened("b", 7947, 0);
    uint8_t packet[400], sent[500], read[400];
    const uint8_t nonce[12] = {9, 8, 7};
    swimtab_written said = swimtab_alive(&other, 3, packet, sizeof packet);
    WANT(said.status == SWIMTAB_DONE);
    swimtab_written sealed = swimtab_seal(&keyring, nonce, "dc", 2, packet, said.len, sent, sizeof sent);
    WANT(sealed.status == SWIMTAB_DONE && sealed.len == said.len + 33);
    swimtab_written got = written_of(swimtab_unwrap(&keyring, sent, sealed.len, read, sizeof read));
    WANT(got.status == SWIMTAB_DONE && got.len == said.len && memcmp(read, packet, said.len) == 0);
    WANT(swimtab_take(&node, read, got.len).status == SWIMTAB_DONE && swimtab_count(&node) == 2);

    said = swimtab_offer(&other, true, SWIMTAB_CANONICAL, NULL, 0, packet, sizeof packet);
    sealed = swimtab_seal_stream(&keyring, nonce, "dc", 2, false, packet, said.len, sent, sizeof sent);
    WANT(sealed.status == SWIMTAB_DONE && sealed.len == said.len + 38);
    got = written_of(swimtab_unwrap_stream(&keyring, "", 0, sent, sealed.len, read, sizeof read));
    WANT(got.status == SWIMTAB_DONE && got.len == said.len);
    swimtab_exchanged answered = swimtab_answer(&node, read, got.len, SWIMTAB_CANONICAL, NULL, 0, packet, sizeof packet);
    WANT(answered.status == SWIMTAB_DONE);

    sealed = swimtab_seal_stream(&keyring, nonce, "dc", 2, true, packet, answered.len, sent, sizeof sent);
    WANT(sealed.status == SWIMTAB_DONE && sealed.len == answered.len + 34);
    got = written_of(swimtab_unwrap_stream(&keyring, "dc", 2, sent, sealed.len, read, sizeof read));
    WANT(got.status == SWIMTAB_DONE && got.len == answered.len);
    WANT(swimtab_finish(&other, read, got.len).status == SWIMTAB_DONE && swimtab_count(&other) == 2);
    WANT(swimtab_close(&node) == SWIMTAB_DONE && swimtab_close(&other) == SWIMTAB_DONE);
    closes(&keyring);
}

int main(void) {
    static const struct test tests[] = {
        {"keys are added and freed", keys_are_added_and_freed},
        {"packets of a cluster are unwrapped", packets_of_a_cluster_are_unwrapped},
        {"what is in the clear is refused with keys", what_is_in_the_clear_is_refused_with_keys},
        {"what is in the clear is accepted if asked", what_is_in_the_clear_is_accepted_if_asked},
        {"any message is unwrapped", any_message_is_unwrapped},
        {"packets without a message are refused", packets_without_a_message_are_refused},
        {"streams of a cluster are unwrapped", streams_of_a_cluster_are_unwrapped},
        {"replies of a cluster with a label are unwrapped", replies_of_a_cluster_with_a_label_are_unwrapped},
        {"what holds no message is refused", what_holds_no_message_is_refused},
        {"messages are sealed as the cluster did", messages_are_sealed_as_the_cluster_did},
        {"a reply is sealed without its label", a_reply_is_sealed_without_its_label},
        {"the first key seals", the_first_key_seals},
        {"a keyring seals by its first key, and unwraps by each", a_keyring_seals_by_its_first_key},
        {"without a key the label alone is written", without_a_key_the_label_alone_is_written},
        {"a label has 255 bytes at most", a_label_has_255_bytes_at_most},
        {"what is sealed is taken in", what_is_sealed_is_taken_in},
    };
    return run_tests(tests, sizeof tests / sizeof *tests);
}

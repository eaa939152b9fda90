// The library from C++: handles in classes that close them, and calls without a cast.
#include <swimtab.h>

#include <cstdio>
#include <string>

namespace {

// Bytes of the library, freed with the object.
struct Bytes {
    Bytes() : buffer(SWIMTAB_BUFFER_INIT) {}
    ~Bytes() { swimtab_free(&buffer); }
    Bytes(const Bytes &) = delete;
    Bytes &operator=(const Bytes &) = delete;

    swimtab_buffer buffer;
};

class Node {
public:
    Node(const std::string &name, uint16_t port) : handle_(SWIMTAB_NODE_INIT) {
        const unsigned char local[4] = {127, 0, 0, 1};
        swimtab_details details = SWIMTAB_DETAILS_INIT;
        details.name = name.data(), details.name_len = name.size();
        details.addr = local, details.addr_len = sizeof local, details.port = port, details.inc = 0;
        status_ = swimtab_open(&handle_, &details);
    }
    ~Node() { swimtab_close(&handle_); }
    Node(const Node &) = delete;
    Node &operator=(const Node &) = delete;

    uint32_t status() const { return status_; }
    swimtab_taken take(const std::string &packet) { return swimtab_take(&handle_, packet.data(), packet.size()); }
    bool join(const Node &other) {
        Bytes offer;
        if (swimtab_offer_new(&other.handle_, true, SWIMTAB_CANONICAL, NULL, 0, &offer.buffer) != SWIMTAB_DONE) return false;
        swimtab_exchanged made = swimtab_finish(&handle_, offer.buffer.at, offer.buffer.len);
        return made.status == SWIMTAB_DONE && made.join && made.news;
    }
    std::string list() const {
        Bytes text;
        if (swimtab_list_new(&handle_, &text.buffer) != SWIMTAB_DONE) return std::string();
        return std::string(text.buffer.at, text.buffer.at + text.buffer.len);
    }
    std::string suspicion(const std::string &name, uint32_t inc) {
        std::string packet(SWIMTAB_MAX_PACKET_LEN, ' ');
        swimtab_written written =
            swimtab_suspect(&handle_, name.data(), name.size(), inc, &packet[0], packet.size());
        packet.resize(written.len);
        return packet;
    }

private:
    swimtab_node handle_;
    uint32_t status_;
};

class View {
public:
    View() : handle_(SWIMTAB_VIEW_INIT) { swimtab_view_open(&handle_, 30000000); }
    ~View() { swimtab_view_close(&handle_); }
    View(const View &) = delete;
    View &operator=(const View &) = delete;

    swimtab_told take(uint64_t time, const std::string &message) {
        return swimtab_view_take(&handle_, time, message.data(), message.size(), NULL);
    }
    uint32_t merge(uint64_t time, const Bytes &stream) {
        swimtab_progress progress = SWIMTAB_PROGRESS_INIT;
        swimtab_view_data member;
        return swimtab_view_merge(&handle_, time, &progress, stream.buffer.at, stream.buffer.len, &member).event;
    }
    bool offer(Bytes &stream) const {
        return swimtab_view_offer(&handle_, true, NULL, 0, &stream.buffer) == SWIMTAB_DONE;
    }
    std::string accuser(const std::string &name) const {
        char out[1024];
        swimtab_written written = swimtab_view_accuser(&handle_, name.data(), name.size(), 0, out, sizeof out);
        return std::string(out, written.len);
    }
    size_t count() const { return swimtab_view_count(&handle_); }

private:
    swimtab_view handle_;
};

std::string alive(const std::string &name) {
    const unsigned char local[4] = {127, 0, 0, 1}, versions[6] = {1, 5, 2, 0, 0, 0};
    std::string packet(SWIMTAB_MAX_PACKET_LEN, ' ');
    swimtab_details details = SWIMTAB_DETAILS_INIT;
    details.name = name.data(), details.name_len = name.size();
    details.addr = local, details.addr_len = sizeof local;
    details.vsn = versions, details.vsn_len = sizeof versions;
    packet.resize(swimtab_alive_of(&details, &packet[0], packet.size()).len);
    return packet;
}

bool views_work(const std::string &suspicion) {
    View view, other;
    Bytes stream;
    bool fine = view.take(1, suspicion).event == SWIMTAB_NO_EVENT && view.count() == 0;
    fine = fine && view.take(2, alive("b")).event == SWIMTAB_JOINED && view.offer(stream);
    fine = fine && other.merge(3, stream) == SWIMTAB_KNOWN && other.count() == 1;
    return fine && view.take(4, suspicion).event == SWIMTAB_SUSPECTED && view.accuser("b") == "a";
}

} // namespace

int main() {
    Node a("a", 1), b("b", 2), none("", 3);
    bool fine = swimtab_version() == SWIMTAB_VERSION_NUMBER;
    fine = fine && a.status() == SWIMTAB_DONE && none.status() == SWIMTAB_NAME_EMPTY && none.list().empty();
    const std::string suspicion = a.suspicion("b", 4);
    fine = fine && b.take(suspicion).news && !b.take(suspicion).news && b.take("\x09").status == SWIMTAB_WRONG_TYPE;
    fine = fine && b.list() == "b suspect 4 0/7f000001/2//\n" && a.list() == "a alive 0 0/7f000001/1//\n";
    fine = fine && a.join(b) && a.list() == "a alive 0 0/7f000001/1//\nb suspect 4 0/7f000001/2//\n";
    fine = fine && views_work(suspicion);
    std::puts(fine ? "1 passed, 0 failed" : "0 passed, 1 failed");
    return fine ? 0 : 1;
}

// Gets or puts a file by TFTP, without an exception: client get|put ADDR PORT NAME LOCAL [BLKSIZE [netascii]]
// In netascii LF is stored for CR LF, and sent as CR LF.
#include "tftp.hpp"
#include <arpa/inet.h>
#include <chrono>
#include <cstdio>
#include <cstdlib>
#include <cstring>
#include <fstream>
#include <iterator>
#include <poll.h>
#include <string>
#include <sys/socket.h>
#include <unistd.h>
#include <vector>

namespace {

using Clock = std::chrono::steady_clock;

// A UDP port of the system's choice.
class Port {
public:
    Port() : fd_(socket(AF_INET, SOCK_DGRAM, 0)) {}
    Port(const Port &) = delete;
    Port &operator=(const Port &) = delete;
    ~Port() { close(fd_); }

    void send(const tftp::Event &event, const std::vector<uint8_t> &reply) const {
        sockaddr_in at{};
        at.sin_family = AF_INET;
        at.sin_port = htons(event.to.port);
        std::memcpy(&at.sin_addr, event.to.ip, 4);
        if (event.send_len && sendto(fd_, reply.data(), event.send_len, 0, reinterpret_cast<sockaddr *>(&at), sizeof at) < 0)
            std::perror("sendto"); // as a datagram that was lost
    }

    // The length of a datagram that came before `due`, or -1.
    ssize_t receive(Clock::time_point due, tftp::Endpoint &from, std::vector<uint8_t> &bytes) const {
        for (;;) {
            auto left = std::chrono::duration_cast<std::chrono::milliseconds>(due - Clock::now()).count() + 1;
            pollfd ready{fd_, POLLIN, 0};
            int some = poll(&ready, 1, left > 0 ? static_cast<int>(left) : 0);
            if (some == 0) return -1;
            sockaddr_in source{};
            socklen_t size = sizeof source;
            ssize_t len = recvfrom(fd_, bytes.data(), bytes.size(), 0, reinterpret_cast<sockaddr *>(&source), &size);
            if (some < 0 || len < 0) continue; // a signal, or an ICMP error
            std::memcpy(from.ip, &source.sin_addr, 4);
            from.port = ntohs(source.sin_port);
            return len;
        }
    }

private:
    int fd_;
};

} // namespace

int main(int argc, char **argv) {
    if (argc < 6) return 2;
    const bool puts = std::strcmp(argv[1], "put") == 0;
    tftp::Endpoint server{};
    server.port = static_cast<uint16_t>(std::atoi(argv[3]));
    if (inet_pton(AF_INET, argv[2], server.ip) != 1) return 2;
    tftp::Options options;
    options.asks_tsize = true;
    options.backoff = true; // the waits grow, as RFC 1123 asks for
    if (argc > 6) options.blksize = static_cast<uint16_t>(std::atoi(argv[6]));
    options.is_netascii = argc > 7;
    std::vector<uint8_t> file;
    if (puts) {
        std::ifstream local(argv[5], std::ios::binary);
        if (!local) return 2;
        file.assign(std::istreambuf_iterator<char>(local), {});
        if (options.is_netascii) {
            std::vector<uint8_t> wire(tftp_wire_length(file.data(), file.size()));
            if (tftp_to_wire(file.data(), file.size(), wire.data(), wire.size()) != wire.size()) return 2;
            file = std::move(wire);
        }
    }
    std::vector<uint8_t> reply(TFTP_HEADER + TFTP_MAX_BLOCK), datagram(reply.size() + 1), block(TFTP_MAX_BLOCK);
    const Port port;
    tftp::End end;
    auto fault = puts ? end.put(server, argv[4], file.size(), options, reply) : end.get(server, argv[4], options, reply);
    if (fault != tftp::Fault::None) {
        std::fprintf(stderr, "the request cannot be sent: %s\n", tftp::text(fault));
        return 2;
    }
    std::ofstream local;
    if (!puts) local.open(argv[5], std::ios::binary);
    port.send(end.event(), reply);
    auto due = Clock::now() + std::chrono::seconds(end.event().interval);
    size_t moved = 0;
    bool stored = true;
    while (end) {
        tftp::Endpoint from{};
        const ssize_t len = port.receive(due, from, datagram);
        const tftp::View came(datagram.data(), len < 0 ? 0 : static_cast<size_t>(len));
        fault = len < 0 ? end.timeout(reply)
            : puts ? end.send(from, came, tftp::View(file.data() + moved, file.size() - moved), reply)
                   : end.receive(from, came, block, reply);
        if (fault == tftp::Fault::Memory) continue; // nothing has changed: the peer sends again
        if (fault != tftp::Fault::None) break;
        moved += end.event().file_len;
        if (!puts) {
            local.write(reinterpret_cast<const char *>(block.data()), static_cast<std::streamsize>(end.event().file_len));
            if (end.event().complete) local.flush();
            if (!local) { // its block is not acknowledged, and the server is told
                stored = false;
                fault = end.abort(TFTP_ERROR_DISK_FULL, "file not stored", reply);
                if (fault != tftp::Fault::None) break;
            }
        }
        port.send(end.event(), reply);
        if (len < 0 || end.event().progress) due = Clock::now() + std::chrono::seconds(end.event().interval);
    }
    const bool good = stored && end.event().complete;
    std::printf("%s, %s %zu\n", tftp::text(end.outcome()), good ? "complete" : "failed", moved);
    return good ? 0 : 1;
}

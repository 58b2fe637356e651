// TFTP for C++: RAII over the calls of tftp.h, which says what each does and what its caller owes. C++17; nothing here
// throws, allocates or copies a byte.
//
//     tftp::End end;
//     uint8_t reply[TFTP_MIN_REPLY];
//     if (end.get(server, "boot.img", tftp::Options(), reply) != tftp::Fault::None) ...
//     send(end.event().to, reply, end.event().send_len);
#ifndef TFTP_HPP
#define TFTP_HPP
#include "tftp.h"
#include <cstddef>
#include <cstdint>
#include <optional>
#include <string_view>
#include <type_traits>
#include <utility>

namespace tftp {

using Endpoint = tftp_endpoint;
using Event = tftp_event;
using Info = tftp_info;
using Packet = tftp_packet;
using Question = tftp_question;

// Why a call did nothing: the numbers of tftp.h.
enum class Fault : uint8_t {
    None = TFTP_OK,
    NotOpen = TFTP_FAULT_NOT_OPEN,
    BadRequest = TFTP_FAULT_BAD_REQUEST,
    Memory = TFTP_FAULT_MEMORY,
    Closed = TFTP_FAULT_CLOSED,
    WrongSide = TFTP_FAULT_WRONG_SIDE,
    TooLargeFile = TFTP_FAULT_TOO_LARGE_FILE,
    RefusedOptions = TFTP_FAULT_REFUSED_OPTIONS,
    NoSource = TFTP_FAULT_NO_SOURCE,
    NoTransfer = TFTP_FAULT_NO_TRANSFER,
    InUse = TFTP_FAULT_IN_USE,
    BadOptions = TFTP_FAULT_BAD_OPTIONS,
    NoRoom = TFTP_FAULT_NO_ROOM,
    OverLimit = TFTP_FAULT_OVER_LIMIT,
    LaterStruct = TFTP_FAULT_LATER_STRUCT
};

// How a transfer ended.
enum class Outcome : uint8_t {
    Open = TFTP_OUTCOME_OPEN,
    Complete = TFTP_OUTCOME_COMPLETE,
    TimedOut = TFTP_OUTCOME_TIMED_OUT,
    PeerError = TFTP_OUTCOME_PEER_ERROR,
    Illegal = TFTP_OUTCOME_ILLEGAL,
    Refused = TFTP_OUTCOME_REFUSED,
    TooLarge = TFTP_OUTCOME_TOO_LARGE,
    StoreFault = TFTP_OUTCOME_STORE_FAULT,
    SourceFault = TFTP_OUTCOME_SOURCE_FAULT,
    NotNetascii = TFTP_OUTCOME_NOT_NETASCII,
    Aborted = TFTP_OUTCOME_ABORTED
};

inline const char *text(Fault fault) noexcept { return tftp_strfault(static_cast<uint8_t>(fault)); }
inline const char *text(Outcome outcome) noexcept { return tftp_stroutcome(static_cast<uint8_t>(outcome)); }
// The code of the ERROR that answers a request which an opening has refused.
inline uint16_t error_of(Fault fault) noexcept { return tftp_error_of(static_cast<uint8_t>(fault)); }

// What a request asks, or how far a server goes: no option, no limit, five retries, until its fields say otherwise.
struct Options : tftp_options {
    Options() noexcept : tftp_options TFTP_OPTIONS_INIT {}
};

// What containers of single bytes have: a call counts bytes, and a wider element would be several of them.
template <class Bytes> using Data = decltype(std::declval<Bytes &>().data());
template <class Bytes> using OnlyBytes = std::enable_if_t<sizeof(*std::declval<Data<Bytes>>()) == 1>;

// Bytes that a call reads.
struct View {
    const uint8_t *data = nullptr;
    size_t size = 0;
    View() noexcept = default;
    View(const uint8_t *bytes, size_t count) noexcept : data(bytes), size(count) {}
    View(std::string_view text) noexcept : data(reinterpret_cast<const uint8_t *>(text.data())), size(text.size()) {}
    View(const char *text) noexcept : View(std::string_view(text)) {}
    template <class Bytes, class = OnlyBytes<const Bytes>>
    View(const Bytes &bytes) noexcept : data(reinterpret_cast<const uint8_t *>(bytes.data())), size(bytes.size()) {}
};

// A buffer that a call writes to.
struct Room {
    uint8_t *data = nullptr;
    size_t size = 0;
    Room() noexcept = default;
    Room(uint8_t *bytes, size_t count) noexcept : data(bytes), size(count) {}
    template <size_t N> Room(uint8_t (&bytes)[N]) noexcept : data(bytes), size(N) {}
    template <class Bytes, class = std::enable_if_t<std::is_convertible_v<Data<Bytes>, uint8_t *>>>
    Room(Bytes &bytes) noexcept : data(bytes.data()), size(bytes.size()) {}
};

// One end of a transfer. It moves, and is closed once, when it goes out of scope or another opens in its place.
class End {
public:
    End() noexcept = default;
    End(End &&other) noexcept : end_(std::exchange(other.end_, {})), event_(other.event_) {}
    End &operator=(End &&other) noexcept {
        if (this != &other) {
            tftp_close(&end_);
            end_ = std::exchange(other.end_, {});
            event_ = other.event_;
        }
        return *this;
    }
    End(const End &) = delete;
    End &operator=(const End &) = delete;
    ~End() { tftp_close(&end_); }

    // What the last call without a fault did, and the state after it.
    const Event &event() const noexcept { return event_; }
    Outcome outcome() const noexcept { return static_cast<Outcome>(event_.outcome); }
    bool is_open() const noexcept { return end_.is_open; }
    // Whether there is more to come: it is open, and has no outcome yet.
    explicit operator bool() const noexcept { return end_.is_open && outcome() == Outcome::Open; }
    // Closes it, as a caller does that need not dally after its last block.
    void close() noexcept { tftp_close(&end_); }

    [[nodiscard]] Fault get(const Endpoint &server, View name, const Options &options, Room request) noexcept {
        return fault(tftp_get(&end_, &server, name.data, name.size, &options, request.data, request.size, &event_));
    }
    [[nodiscard]] Fault put(const Endpoint &server, View name, uint64_t length, const Options &options,
                            Room request) noexcept {
        return fault(tftp_put(&end_, &server, name.data, name.size, length, &options, request.data, request.size, &event_));
    }
    [[nodiscard]] Fault serve_get(const Endpoint &client, View request, uint64_t length, View next, const Options &options,
                                  Room reply) noexcept {
        return fault(tftp_serve_get(&end_, &client, request.data, request.size, length, next.data, next.size, &options,
                                    reply.data, reply.size, &event_));
    }
    [[nodiscard]] Fault serve_put(const Endpoint &client, View request, const Options &options, Room reply) noexcept {
        return fault(tftp_serve_put(&end_, &client, request.data, request.size, &options, reply.data, reply.size, &event_));
    }
    [[nodiscard]] Fault receive(const Endpoint &from, View datagram, Room file, Room reply) noexcept {
        return fault(tftp_receive(&end_, &from, datagram.data, datagram.size, file.data, file.size, reply.data, reply.size,
                                  &event_));
    }
    [[nodiscard]] Fault send(const Endpoint &from, View datagram, View next, Room reply) noexcept {
        return fault(tftp_send(&end_, &from, datagram.data, datagram.size, next.data, next.size, reply.data, reply.size,
                               &event_));
    }
    [[nodiscard]] Fault timeout(Room reply) noexcept {
        return fault(tftp_timeout(&end_, reply.data, reply.size, &event_));
    }
    [[nodiscard]] Fault abort(uint16_t code, View why, Room reply) noexcept {
        return fault(tftp_abort(&end_, code, why.data, why.size, reply.data, reply.size, &event_));
    }
    // What the end and its peer have agreed, if it is open.
    std::optional<Info> info() const noexcept {
        Info info = TFTP_INFO_INIT;
        if (tftp_end_info(&end_, &info) != TFTP_OK) return std::nullopt;
        return info;
    }

private:
    static Fault fault(uint8_t number) noexcept { return static_cast<Fault>(number); }
    tftp_end end_{};
    Event event_{};
};

// A request port, and a table of transfers over the caller's files.
class Server {
public:
    Server() noexcept = default;
    Server(Server &&other) noexcept : server_(std::exchange(other.server_, {})) {}
    Server &operator=(Server &&other) noexcept {
        if (this != &other) {
            tftp_server_close(&server_);
            server_ = std::exchange(other.server_, {});
        }
        return *this;
    }
    Server(const Server &) = delete;
    Server &operator=(const Server &) = delete;
    ~Server() { tftp_server_close(&server_); }

    [[nodiscard]] Fault open(const Options &options, uint8_t transfers) noexcept {
        return fault(tftp_server_open(&server_, &options, transfers));
    }
    [[nodiscard]] Fault request(const Endpoint &from, View datagram, Room path, Room reply,
                                Question &question) const noexcept {
        return fault(tftp_server_request(&server_, &from, datagram.data, datagram.size, path.data, path.size, reply.data,
                                         reply.size, &question));
    }
    [[nodiscard]] Fault get(uint16_t tid, const Endpoint &from, View request, uint64_t length, View next, Room reply,
                            Event &event) noexcept {
        return fault(tftp_server_get(&server_, tid, &from, request.data, request.size, length, next.data, next.size,
                                     reply.data, reply.size, &event));
    }
    [[nodiscard]] Fault put(uint16_t tid, const Endpoint &from, View request, Room reply, Event &event) noexcept {
        return fault(tftp_server_put(&server_, tid, &from, request.data, request.size, reply.data, reply.size, &event));
    }
    [[nodiscard]] Fault receive(uint16_t tid, const Endpoint &from, View datagram, Room file, Room reply,
                                Event &event) noexcept {
        return fault(tftp_server_receive(&server_, tid, &from, datagram.data, datagram.size, file.data, file.size,
                                         reply.data, reply.size, &event));
    }
    [[nodiscard]] Fault send(uint16_t tid, const Endpoint &from, View datagram, View next, Room reply,
                             Event &event) noexcept {
        return fault(tftp_server_send(&server_, tid, &from, datagram.data, datagram.size, next.data, next.size, reply.data,
                                      reply.size, &event));
    }
    [[nodiscard]] Fault timeout(uint16_t tid, Room reply, Event &event) noexcept {
        return fault(tftp_server_timeout(&server_, tid, reply.data, reply.size, &event));
    }
    [[nodiscard]] Fault abort(uint16_t tid, uint16_t code, View why, Room reply, Event &event) noexcept {
        return fault(tftp_server_abort(&server_, tid, code, why.data, why.size, reply.data, reply.size, &event));
    }
    // What the transfer of this number and its peer have agreed, if there is one.
    std::optional<Info> info(uint16_t tid) const noexcept {
        Info info = TFTP_INFO_INIT;
        if (tftp_server_info(&server_, tid, &info) != TFTP_OK) return std::nullopt;
        return info;
    }
    bool give_up(uint16_t tid) noexcept { return tftp_server_give_up(&server_, tid); }

private:
    static Fault fault(uint8_t number) noexcept { return static_cast<Fault>(number); }
    tftp_server server_{};
};

} // namespace tftp
#endif

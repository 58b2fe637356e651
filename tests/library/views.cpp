// What tftp.hpp takes for bytes, at compile time: containers of single bytes, and none whose elements are wider, whose
// number is not that of the bytes.
#include "tftp.hpp"
#include <array>
#include <string>
#include <vector>

static_assert(std::is_constructible_v<tftp::View, const std::vector<uint8_t> &>);
static_assert(std::is_constructible_v<tftp::View, const std::array<std::byte, 4> &>);
static_assert(std::is_constructible_v<tftp::View, const std::string &>);
static_assert(std::is_constructible_v<tftp::View, const char *>);
static_assert(!std::is_constructible_v<tftp::View, const std::vector<uint16_t> &>);
static_assert(!std::is_constructible_v<tftp::View, const std::u16string &>);
static_assert(std::is_constructible_v<tftp::Room, std::vector<uint8_t> &>);
static_assert(!std::is_constructible_v<tftp::Room, std::vector<int> &>);
static_assert(!std::is_constructible_v<tftp::Room, const std::vector<uint8_t> &>);
// an outcome is no fault
static_assert(!std::is_convertible_v<tftp::Outcome, tftp::Fault>);

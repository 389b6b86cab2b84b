// The C++ header's calls, over octets with answers by hand.
#include <jilgomt.hpp>

#include <cstdio>
#include <cstdlib>

#define WANT(condition) \
    do { \
        if (!(condition)) { \
            std::printf("calls.cpp: line %d: %s\n", __LINE__, #condition); \
            std::exit(1); \
        } \
    } while (0)

using octet_vector = std::vector<std::uint8_t>;

int main() {
    const octet_vector sequence{0x80, 0xff, 0x02, 0x06, 0xc0, 0x01, 0xff, 0x01, 0xff};
    auto made = jilgomt::canonicalise("seq1", jilgomt::mode::oer, sequence);
    WANT((made.octets == octet_vector{0, 0xff}) && made.consumed == 9);
    made = jilgomt::convert("seq2", "seq1", jilgomt::mode::coer, sequence);
    WANT((made.octets == octet_vector{0, 0xff}) && made.consumed == 9);
    auto checked = jilgomt::check("seq2", jilgomt::mode::coer, sequence);
    WANT(checked.consumed == 9 && checked.canonical_size == 9 && checked.is_canonical);

    octet_vector many{0x82, 0x03, 0xe8};
    many.resize(1003, 7);
    WANT(jilgomt::canonicalise("octets", jilgomt::mode::oer, many).octets == many);
    WANT(jilgomt::canonicalise("empty", jilgomt::mode::coer, {nullptr, 0}).octets.empty());
    try {
        jilgomt::check("bool", jilgomt::mode::coer, {nullptr, 0});
        WANT(false);
    } catch (const jilgomt::refused &e) {
        WANT(e.answer.kind == JILGOMT_INCOMPLETE && e.answer.size == 1 && std::string(e.what()) == "Incomplete");
    }
    try {
        jilgomt::check("nosuch", jilgomt::mode::coer, sequence);
        WANT(false);
    } catch (const jilgomt::refused &e) {
        WANT(e.answer.status == JILGOMT_NO_TYPE);
    }
    std::puts("calls.cpp: all as wanted");
}

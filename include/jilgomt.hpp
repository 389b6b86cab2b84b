// Jilgomt for C++17: the calls of jilgomt.h over spans, with what they write in vectors, and what they refuse as exceptions.
// Null spans of no octets are taken care of.
#ifndef JILGOMT_HPP
#define JILGOMT_HPP

#include <jilgomt.h>

#include <cstddef>
#include <cstdint>
#include <stdexcept>
#include <string>
#include <string_view>
#include <utility>
#include <vector>

namespace jilgomt {

enum class mode : std::uint32_t { oer = JILGOMT_OER, coer = JILGOMT_COER };

// Octets that the caller owns. A std::span or a std::vector makes one by its data() and size().
struct octets {
    const std::uint8_t *data;
    std::size_t size;

    octets(const std::uint8_t *data, std::size_t size) : data(size ? data : reinterpret_cast<const std::uint8_t *>("")), size(size) {}

    template <class Container, class = decltype(std::declval<const Container &>().data())>
    octets(const Container &from) : octets(from.data(), from.size()) {}
};

// The name of the kind of a refusal, as "Incomplete"; "" if the answer is none.
inline std::string kind_name(const jilgomt_answer &answer) {
    std::string name(64, '\0');
    name.resize(jilgomt_kind_name(answer.status, answer.kind, reinterpret_cast<std::uint8_t *>(&name[0]), name.size()));
    return name;
}

// Octets that were refused, or words and numbers that name no type and no options.
class refused : public std::runtime_error {
    static std::string text(const jilgomt_answer &answer) {
        switch (answer.status) {
        case JILGOMT_NO_TYPE: return "no such type";
        case JILGOMT_NO_OPTIONS: return "no such mode, or too many levels";
        default: return kind_name(answer);
        }
    }

public:
    // The answer, with the fields of its kind.
    jilgomt_answer answer;

    explicit refused(const jilgomt_answer &answer) : std::runtime_error(text(answer)), answer(answer) {}
};

// Canonical octets, and how many octets of the input they stand for.
struct canonical {
    std::vector<std::uint8_t> octets;
    std::size_t consumed;
};

// What octets at the front of an input are.
struct checked {
    std::size_t consumed;
    std::size_t canonical_size;
    bool is_canonical;
};

namespace detail {

inline const std::uint8_t *at(std::string_view text) { return reinterpret_cast<const std::uint8_t *>(text.empty() ? "" : text.data()); }

// Calls with room for what came and some more, and where that is too little with as much as is needed.
template <class Call>
canonical with_room(octets in, Call call) {
    canonical made{std::vector<std::uint8_t>(in.size + 16), 0};
    jilgomt_answer answer{};
    while (call(made.octets.data(), made.octets.size(), &answer) == JILGOMT_NO_ROOM) made.octets.resize(answer.written);
    if (answer.status != JILGOMT_DONE) throw refused(answer);
    made.octets.resize(answer.written);
    made.consumed = answer.consumed;
    return made;
}

} // namespace detail

// The canonical octets of the value whose encoding begins the input. Throws refused.
inline canonical canonicalise(std::string_view word, mode how, octets in, std::size_t levels = JILGOMT_LEVELS) {
    return detail::with_room(in, [&](std::uint8_t *out, std::size_t room, jilgomt_answer *answer) {
        return jilgomt_canonicalise(detail::at(word), word.size(), std::uint32_t(how), levels, in.data, in.size, out, room, answer);
    });
}

// Whether the encoding that begins the input is canonical. Throws refused.
inline checked check(std::string_view word, mode how, octets in, std::size_t levels = JILGOMT_LEVELS) {
    jilgomt_answer answer{};
    if (jilgomt_check(detail::at(word), word.size(), std::uint32_t(how), levels, in.data, in.size, &answer) != JILGOMT_DONE) throw refused(answer);
    return {answer.consumed, answer.written, answer.flag == 1};
}

// The canonical octets, as another version of the type, of the value whose encoding begins the input. Throws refused.
inline canonical convert(std::string_view from, std::string_view to, mode how, octets in, std::size_t levels = JILGOMT_LEVELS) {
    return detail::with_room(in, [&](std::uint8_t *out, std::size_t room, jilgomt_answer *answer) {
        return jilgomt_convert(detail::at(from), from.size(), detail::at(to), to.size(), std::uint32_t(how), levels, in.data, in.size, out, room, answer);
    });
}

} // namespace jilgomt
#endif

// Interned texts for C++17: one header over string_cache.h.
//
// An Interner owns a table. A Symbol is one holder of a text in it: a copy is one holder more, and the destructor gives its own back, so that a
// text goes with its last symbol. Symbols of one interner are equal exactly if their texts are, and comparing them reads two numbers.
//
// What is refused is thrown: std::bad_alloc if there is no memory, std::invalid_argument if bytes aren't UTF-8, and string_cache::Refused,
// which has the status, for the rest. A call that throws has changed nothing, but that an interner may keep room (see reserve). What is never refused is
// noexcept.
//
// No symbol may be used after its interner has ended. What is const only reads the table, and threads may call it side by side: text, holders, contains,
// size, empty, text_bytes, memory and for_each. All else that takes an interner writes it, and so do the copy, the assignment and the end of a symbol:
// while a thread does one of these, no other uses the interner or any of its symbols. So if one thread may write, all hold a lock. To move-construct,
// to compare and to hash a symbol reads no table. A move assignment gives back the holder of the text that was there before, so it writes.
#ifndef STRING_CACHE_HPP
#define STRING_CACHE_HPP

#include <cstddef>
#include <cstdint>
#include <functional>
#include <iterator>
#include <memory>
#include <new>
#include <optional>
#include <ostream>
#include <stdexcept>
#include <string>
#include <string_view>
#include <utility>

#include "string_cache.h"

namespace string_cache {

// A refusal other than want of memory and of UTF-8.
class Refused : public std::runtime_error {
public:
    explicit Refused(sc_status status) : std::runtime_error(sc_strerror(status)), status_(status) {}

    sc_status status() const noexcept { return status_; }

    // The former name of status.
    [[deprecated("it is status() now")]] sc_status number() const noexcept { return status_; }

private:
    sc_status status_;
};

namespace detail {

inline void throw_unless_ok(sc_status status) {
    switch (status) {
    case SC_OK:
        return;
    case SC_NO_MEMORY:
        throw std::bad_alloc();
    case SC_NOT_UTF8:
        throw std::invalid_argument(sc_strerror(status));
    default:
        throw Refused(status);
    }
}

// The text of a word that is held. What most texts have room for comes by one call, and the rest by two.
inline std::string text_of(const sc_table *table, std::uint64_t word) {
    std::string text(32, '\0');
    std::size_t length = 0;
    sc_status status = sc_text(table, word, text.data(), text.size(), &length);
    if (status == SC_TOO_SMALL) {
        text.resize(length);
        status = sc_text(table, word, text.data(), text.size(), &length);
    }
    throw_unless_ok(status);
    text.resize(length);
    return text;
}

} // namespace detail

class Interner;

// One holder of a text. One that was moved from holds nothing and is false, its word is 0, which is that of no text, and its text is refused.
class Symbol {
public:
    Symbol(const Symbol &other) : table_(other.table_), word_(other.word_) { hold(); }
    Symbol(Symbol &&other) noexcept : table_(std::exchange(other.table_, nullptr)), word_(std::exchange(other.word_, 0)) {}
    Symbol &operator=(Symbol other) noexcept {
        std::swap(table_, other.table_);
        std::swap(word_, other.word_);
        return *this;
    }
    ~Symbol() {
        if (table_ != nullptr) {
            sc_give(table_, word_);
        }
    }

    // Whether it holds a text: it was not moved from.
    explicit operator bool() const noexcept { return table_ != nullptr; }

    // std::logic_error if it was moved from.
    std::string text() const {
        if (table_ == nullptr) {
            throw std::logic_error("string_cache::Symbol::text: the symbol was moved from");
        }
        return detail::text_of(table_, word_);
    }

    // How many holders the text has; none is told of one of at most 7 bytes.
    std::optional<std::uint64_t> holders() const noexcept {
        std::uint64_t holders = 0;
        return sc_holders(table_, word_, &holders) == SC_OK ? std::optional<std::uint64_t>(holders) : std::nullopt;
    }

    // The number that stands for the text in this interner.
    std::uint64_t word() const noexcept { return word_; }

    friend bool operator==(const Symbol &one, const Symbol &other) noexcept { return one.word_ == other.word_; }
    friend bool operator!=(const Symbol &one, const Symbol &other) noexcept { return one.word_ != other.word_; }
    // An order for maps: that of the words, and not of the texts.
    friend bool operator<(const Symbol &one, const Symbol &other) noexcept { return one.word_ < other.word_; }
    friend bool operator>(const Symbol &one, const Symbol &other) noexcept { return other < one; }
    friend bool operator<=(const Symbol &one, const Symbol &other) noexcept { return !(other < one); }
    friend bool operator>=(const Symbol &one, const Symbol &other) noexcept { return !(one < other); }
    friend std::ostream &operator<<(std::ostream &out, const Symbol &symbol) { return out << symbol.text(); }

private:
    friend class Interner;

    // Takes over a holder that the word has already.
    Symbol(sc_table *table, std::uint64_t word) noexcept : table_(table), word_(word) {}

    void hold() const {
        if (table_ != nullptr) {
            detail::throw_unless_ok(sc_clone(table_, word_));
        }
    }

    sc_table *table_;
    std::uint64_t word_;
};

// Interned texts. One that was moved from may only be assigned to or end.
class Interner {
public:
    Interner() : table_(new sc_table SC_CLOSED_TABLE) { detail::throw_unless_ok(sc_open(table_.get())); }

    // With limits, and 2 to the power of bucket_bits buckets: see sc_open_with.
    Interner(std::uint64_t holders, std::uint64_t tickets, std::uint8_t bucket_bits) : table_(new sc_table SC_CLOSED_TABLE) {
        detail::throw_unless_ok(sc_open_with(table_.get(), holders, tickets, bucket_bits));
    }

    // The same under a given key, for runs that take the same steps each time: see sc_open_keyed.
    Interner(std::uint64_t holders, std::uint64_t tickets, std::uint8_t bucket_bits, sc_key key) : table_(new sc_table SC_CLOSED_TABLE) {
        detail::throw_unless_ok(sc_open_keyed(table_.get(), holders, tickets, bucket_bits, key));
    }

    // The symbol of a text.
    Symbol intern(std::string_view text) {
        std::uint64_t word = 0;
        detail::throw_unless_ok(sc_intern(table_.get(), text.data(), text.size(), &word));
        return Symbol(table_.get(), word);
    }

    // The symbol of a text, if it has one: texts of at most 7 bytes always do.
    std::optional<Symbol> get(std::string_view text) {
        std::uint64_t word = 0;
        const sc_status status = sc_get(table_.get(), text.data(), text.size(), &word);
        if (status == SC_NOT_HELD) {
            return std::nullopt;
        }
        detail::throw_unless_ok(status);
        return held(word);
    }

    // Whether a text has a symbol: texts of at most 7 bytes always do.
    bool contains(std::string_view text) const {
        std::uint64_t word = 0;
        const sc_status status = sc_get(table_.get(), text.data(), text.size(), &word);
        if (status == SC_NOT_HELD) {
            return false;
        }
        detail::throw_unless_ok(status);
        return true;
    }

    // Makes room for so many texts more. If it throws std::bad_alloc, or intern does while the table grows, all texts are as they were, and room that
    // was got before may stay: memory() may tell more then.
    void reserve(std::size_t more) { detail::throw_unless_ok(sc_reserve(table_.get(), more)); }

    // How many texts of more than 7 bytes are held, and how many bytes they have.
    std::size_t size() const noexcept { return sc_entries(table_.get()); }
    bool empty() const noexcept { return size() == 0; }
    std::uint64_t text_bytes() const noexcept { return sc_text_bytes(table_.get()); }

    // How many bytes of memory the table has asked for and still holds: see sc_memory.
    std::uint64_t memory() const noexcept { return sc_memory(table_.get()); }

    // The symbol and the number of holders at a place of the order, which is that in which texts came until one goes: then the last one comes
    // in its place. The symbol that is given is one more holder. std::out_of_range from size() on.
    std::pair<Symbol, std::uint64_t> at(std::size_t place) {
        std::uint64_t word = 0;
        std::uint64_t holders = 0;
        if (sc_entry(table_.get(), place, &word, &holders) != SC_OK) {
            throw std::out_of_range("string_cache::Interner::at");
        }
        return {held(word), holders};
    }

    // Calls with each text that is held, in order. The interner isn't to be changed meanwhile.
    template <typename Visit> void for_each(Visit visit) const {
        std::uint64_t word = 0;
        std::uint64_t holders = 0;
        for (std::size_t place = 0; sc_entry(table_.get(), place, &word, &holders) == SC_OK; ++place) {
            visit(detail::text_of(table_.get(), word), holders);
        }
    }

private:
    struct Close {
        void operator()(sc_table *table) const noexcept {
            sc_close(table);
            delete table;
        }
    };

    // A symbol of a word that is held.
    Symbol held(std::uint64_t word) {
        detail::throw_unless_ok(sc_clone(table_.get(), word));
        return Symbol(table_.get(), word);
    }

    std::unique_ptr<sc_table, Close> table_;
};

} // namespace string_cache

template <> struct std::hash<string_cache::Symbol> {
    std::size_t operator()(const string_cache::Symbol &symbol) const noexcept { return std::hash<std::uint64_t>()(symbol.word()); }
};

#endif

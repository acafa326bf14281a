// Interned texts for many threads, in C++17: tables of string_cache.h, each behind a std::mutex, and each text in the table that its hash chooses.
//
// Any number of threads may call with one SharedInterner, and with its symbols, at the same time. A SharedSymbol is one holder of a text and knows
// its interner: a copy is one holder more, and the destructor gives its own back, under the lock of the text's shard. Symbols of one interner are
// equal exactly if their texts are, and comparing them takes no lock. A text of at most 7 bytes lies in its symbol, and takes none either.
//
// What is refused is thrown, as by string_cache.hpp. A single SharedSymbol is not to be assigned to by one thread while another uses it, and no
// symbol may be used after its interner has ended.
#ifndef STRING_CACHE_SHARED_HPP
#define STRING_CACHE_SHARED_HPP

#include <mutex>

#include "string_cache.hpp"

namespace string_cache {

namespace detail {

constexpr std::uint64_t most_holders = (std::uint64_t(1) << 63) - 1;
constexpr std::uint64_t most_tickets = (std::uint64_t(1) << 48) - 1;
constexpr std::size_t most_inline = 7; // bytes of a text that lies in its word
constexpr unsigned tag_bits = 2;       // of a word: those of a ticket are zero
constexpr unsigned most_bits = 14;     // of shard and bucket together

// A table and its lock, in a line of the cache of its own.
struct alignas(64) Shard {
    Shard() = default;
    Shard(const Shard &) = delete;
    Shard &operator=(const Shard &) = delete;
    ~Shard() { sc_close(&table); }

    std::mutex lock;
    sc_table table = SC_CLOSED_TABLE;
};

// The shards of an interner, and which one a text or a word has. A ticket is serial * 2^16 + bucket * 4 with 14 bits for the bucket; the
// shard's number stands in the upper ones, which are zero in a table with fewer buckets.
class Shards {
public:
    Shards(std::uint8_t shard_bits, std::uint64_t holders, std::uint64_t tickets, std::uint8_t bucket_bits) {
        if (shard_bits > most_bits || bucket_bits > most_bits - shard_bits) {
            throw Refused(SC_NOT_LIMITS);
        }
        count_ = std::size_t(1) << shard_bits;
        shift_ = tag_bits + bucket_bits;
        list_ = std::make_unique<Shard[]>(count_);
        for (std::size_t at = 0; at < count_; ++at) {
            throw_unless_ok(sc_open_with(&list_[at].table, holders, tickets, bucket_bits));
        }
    }

    static bool is_ticket(std::uint64_t word) noexcept { return word >> tag_bits << tag_bits == word; }

    // Calls with the table of a text of more than 7 bytes, under its lock: sc_intern or sc_get. Makes the word that is answered one of all shards.
    template <typename Call> sc_status with_text(Call call, std::string_view text, std::uint64_t &word) const {
        sc_hashes hashes{};
        sc_status status = sc_hash(text.data(), text.size(), 0, &hashes);
        if (status != SC_OK) {
            return status;
        }
        const std::uint64_t own = hashes.g & (count_ - 1);
        Shard &shard = list_[own];
        const std::lock_guard<std::mutex> inside(shard.lock);
        status = call(&shard.table, text.data(), text.size(), &word);
        word |= status == SC_OK ? own << shift_ : 0;
        return status;
    }

    // Calls with the table of a ticket, under its lock, and with the ticket as that table knows it.
    template <typename Call> auto with_ticket(Call call, std::uint64_t word) const {
        Shard &shard = list_[word >> shift_ & (count_ - 1)];
        const std::lock_guard<std::mutex> inside(shard.lock);
        return call(&shard.table, word & ~(std::uint64_t(count_ - 1) << shift_));
    }

    // Adds up what each table tells, under its lock.
    template <typename Call> std::uint64_t sum_of(Call call) const {
        std::uint64_t sum = 0;
        for (std::size_t at = 0; at < count_; ++at) {
            const std::lock_guard<std::mutex> inside(list_[at].lock);
            sum += call(&list_[at].table);
        }
        return sum;
    }

    std::uint64_t bytes() const noexcept { return sizeof(Shard) * count_; }

private:
    std::unique_ptr<Shard[]> list_;
    std::size_t count_ = 0; // a power of two
    unsigned shift_ = 0;    // how many bits of a word stand below its shard
};

} // namespace detail

// One holder of a text that threads share. One that was moved from holds nothing and is false: it may be assigned to, compared or end, and has no
// text.
class SharedSymbol {
public:
    SharedSymbol(const SharedSymbol &other) : shards_(other.shards_), word_(other.word_) {
        if (is_counted()) {
            detail::throw_unless_ok(shards_->with_ticket([](sc_table *table, std::uint64_t word) { return sc_clone(table, word); }, word_));
        }
    }
    SharedSymbol(SharedSymbol &&other) noexcept : shards_(std::exchange(other.shards_, nullptr)), word_(std::exchange(other.word_, 0)) {}
    SharedSymbol &operator=(SharedSymbol other) noexcept {
        std::swap(shards_, other.shards_);
        std::swap(word_, other.word_);
        return *this;
    }
    ~SharedSymbol() {
        if (is_counted()) {
            shards_->with_ticket([](sc_table *table, std::uint64_t word) { return sc_give(table, word); }, word_);
        }
    }

    // Whether it holds a text: it was not moved from.
    explicit operator bool() const noexcept { return shards_ != nullptr; }

    // The text, as a copy. std::logic_error if the symbol was moved from.
    std::string text() const {
        if (shards_ == nullptr) {
            throw std::logic_error("string_cache::SharedSymbol was moved from");
        }
        if (is_counted()) {
            return shards_->with_ticket([](sc_table *table, std::uint64_t word) { return detail::text_of(table, word); }, word_);
        }
        char room[detail::most_inline];
        std::size_t length = 0;
        detail::throw_unless_ok(sc_unpack(word_, room, sizeof room, &length));
        return std::string(room, length);
    }

    // How many holders the text has at this moment; none is told of one of at most 7 bytes.
    std::optional<std::uint64_t> holders() const {
        if (!is_counted()) {
            return std::nullopt;
        }
        std::uint64_t holders = 0;
        const auto ask = [&](sc_table *table, std::uint64_t word) { return sc_holders(table, word, &holders); };
        detail::throw_unless_ok(shards_->with_ticket(ask, word_));
        return holders;
    }

    // The number that stands for the text in this interner; 0 if the symbol was moved from.
    std::uint64_t word() const noexcept { return word_; }

    friend bool operator==(const SharedSymbol &one, const SharedSymbol &other) noexcept { return one.word_ == other.word_; }
    friend bool operator!=(const SharedSymbol &one, const SharedSymbol &other) noexcept { return one.word_ != other.word_; }
    // An order for maps: that of the words, and not of the texts.
    friend bool operator<(const SharedSymbol &one, const SharedSymbol &other) noexcept { return one.word_ < other.word_; }
    friend bool operator>(const SharedSymbol &one, const SharedSymbol &other) noexcept { return other < one; }
    friend bool operator<=(const SharedSymbol &one, const SharedSymbol &other) noexcept { return !(other < one); }
    friend bool operator>=(const SharedSymbol &one, const SharedSymbol &other) noexcept { return !(one < other); }
    friend std::ostream &operator<<(std::ostream &out, const SharedSymbol &symbol) { return out << symbol.text(); }

private:
    friend class SharedInterner;

    // Takes over a holder that the word has already.
    SharedSymbol(const detail::Shards *shards, std::uint64_t word) noexcept : shards_(shards), word_(word) {}

    // Whether a table counts it as a holder: one of at most 7 bytes is none.
    bool is_counted() const noexcept { return shards_ != nullptr && detail::Shards::is_ticket(word_); }

    const detail::Shards *shards_;
    std::uint64_t word_;
};

// The interned texts of many threads. One that was moved from may only be assigned to or end.
class SharedInterner {
public:
    // With 64 shards of 64 buckets each, and the greatest limits.
    SharedInterner() : SharedInterner(6, detail::most_holders, detail::most_tickets, 6) {}

    // With 2 to the power of shard_bits shards, whose tables have the limits and buckets of sc_open_with. The numbers of bits have a sum of at
    // most 14.
    SharedInterner(std::uint8_t shard_bits, std::uint64_t holders, std::uint64_t tickets, std::uint8_t bucket_bits)
        : shards_(std::make_unique<detail::Shards>(shard_bits, holders, tickets, bucket_bits)) {}

    // The symbol of a text.
    SharedSymbol intern(std::string_view text) {
        std::uint64_t word = 0;
        if (text.size() <= detail::most_inline) {
            detail::throw_unless_ok(sc_pack(text.data(), text.size(), &word));
        } else {
            const auto call = [](sc_table *table, const char *bytes, std::size_t length, std::uint64_t *found) {
                return sc_intern(table, bytes, length, found);
            };
            detail::throw_unless_ok(shards_->with_text(call, text, word));
        }
        return SharedSymbol(shards_.get(), word);
    }

    // The symbol of a text, if it has one: texts of at most 7 bytes always do.
    std::optional<SharedSymbol> get(std::string_view text) const {
        if (text.size() <= detail::most_inline) {
            std::uint64_t packed = 0;
            detail::throw_unless_ok(sc_pack(text.data(), text.size(), &packed));
            return SharedSymbol(shards_.get(), packed);
        }
        // The symbol is one holder more, and gets it under the same lock, before another thread takes the text away.
        const auto call = [](sc_table *table, const char *bytes, std::size_t length, std::uint64_t *found) {
            const sc_status status = sc_get(table, bytes, length, found);
            return status == SC_OK ? sc_clone(table, *found) : status;
        };
        std::uint64_t word = 0;
        const sc_status status = shards_->with_text(call, text, word);
        if (status == SC_NOT_HELD) {
            return std::nullopt;
        }
        detail::throw_unless_ok(status);
        return SharedSymbol(shards_.get(), word);
    }

    // How many texts of more than 7 bytes are held, and how many bytes they have, shard by shard: other threads may change one meanwhile.
    std::size_t size() const {
        return shards_->sum_of([](sc_table *table) { return sc_entries(table); });
    }
    bool empty() const { return size() == 0; }
    std::uint64_t text_bytes() const {
        return shards_->sum_of([](sc_table *table) { return sc_text_bytes(table); });
    }

    // How many bytes of memory the tables have asked for and still hold, with those of the shards: see sc_memory.
    std::uint64_t memory() const {
        return shards_->bytes() + shards_->sum_of([](sc_table *table) { return sc_memory(table); });
    }

private:
    std::unique_ptr<detail::Shards> shards_;
};

} // namespace string_cache

template <> struct std::hash<string_cache::SharedSymbol> {
    std::size_t operator()(const string_cache::SharedSymbol &symbol) const noexcept { return std::hash<std::uint64_t>()(symbol.word()); }
};

#endif

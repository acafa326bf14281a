// What the header for many threads promises, as a program of tests.
#include <algorithm>
#include <atomic>
#include <cstdlib>
#include <iostream>
#include <set>
#include <sstream>
#include <thread>
#include <unordered_map>
#include <vector>

#include "string_cache_shared.hpp"

using string_cache::Refused;
using string_cache::SharedInterner;
using string_cache::SharedSymbol;

extern "C" {
void *__real_malloc(std::size_t size);
void *__real_realloc(void *block, std::size_t size);
void __real_free(void *block);
void *__wrap_malloc(std::size_t size);
void *__wrap_realloc(void *block, std::size_t size);
void __wrap_free(void *block);
}

namespace {

std::size_t failures = 0;

// Only the first failures are printed, and only by the thread of the tests.
void check(bool holds, const char *what, int line) {
    if (!holds && failures++ < 20) {
        std::cout << __FILE__ << ":" << line << ": " << what << "\n";
    }
}

#define CHECK(condition) check((condition), #condition, __LINE__)

// Whether a call throws this.
template <typename Thrown, typename Call> bool throws(Call call) {
    try {
        call();
    } catch (const Thrown &) {
        return true;
    }
    return false;
}

std::string numbered(std::size_t number) {
    return "text number " + std::to_string(number);
}

// How many requests for memory the language still grants before it refuses one: it refuses none below 0. And how many blocks it has given.
std::atomic<long> before_refusal{-1};
std::atomic<long> blocks{0};

void *given(std::size_t size, std::size_t alignment) {
    if (before_refusal >= 0 && before_refusal-- == 0) {
        throw std::bad_alloc();
    }
    void *block = std::aligned_alloc(alignment, (size + alignment - 1) / alignment * alignment);
    if (block == nullptr) {
        throw std::bad_alloc();
    }
    ++blocks;
    return block;
}

void taken_back(void *block) noexcept {
    blocks -= block != nullptr;
    __real_free(block);
}

// Requests by the tables, likewise: linked with --wrap of these three.
std::atomic<long> before_table_refusal{-1};
std::atomic<long> table_blocks{0};

bool is_refused() {
    return before_table_refusal >= 0 && before_table_refusal-- == 0;
}

} // namespace

void *__wrap_malloc(std::size_t size) {
    if (is_refused()) {
        return nullptr;
    }
    ++table_blocks;
    return __real_malloc(size);
}

void *__wrap_realloc(void *block, std::size_t size) {
    if (is_refused()) {
        return nullptr;
    }
    table_blocks += block == nullptr;
    return __real_realloc(block, size);
}

void __wrap_free(void *block) {
    table_blocks -= block != nullptr;
    __real_free(block);
}

namespace {

void equal_texts_are_equal_symbols() {
    SharedInterner names;
    const SharedSymbol first = names.intern("a longer name");
    CHECK(first == names.intern(std::string("a longer ") + "name") && first != names.intern("another long name"));
    CHECK(names.intern("short") == names.intern("short") && names.intern("").text().empty());
    CHECK(first.text() == "a longer name" && names.intern("1234567").text() == "1234567");
    CHECK(names.intern(std::string(5000, 'x')).text() == std::string(5000, 'x'));
    CHECK(names.intern(std::string_view("a\0b\0c\0d\0e", 9)).text().size() == 9);
    CHECK(names.get("a longer name") == first && !names.get("an unknown name").has_value() && names.get("short")->text() == "short");
}

void a_text_goes_with_its_last_symbol() {
    SharedInterner names;
    {
        const SharedSymbol first = names.intern("a longer name");
        const SharedSymbol copy = first;
        SharedSymbol moved = names.intern("another long name");
        const SharedSymbol taken = std::move(moved);
        CHECK(names.size() == 2 && names.text_bytes() == 30 && first.holders() == 2U && taken.holders() == 1U);
        CHECK(moved.word() == 0 && moved != first && throws<std::logic_error>([&] { moved.text(); }));
        CHECK(!moved && taken && names.intern(""));
        moved = copy;
        CHECK(first.holders() == 3U && moved == first && !names.intern("short").holders().has_value());
        CHECK(names.get("a longer name")->holders() == 4U);
        CHECK(first.holders() == 3U);
    }
    CHECK(names.empty() && names.text_bytes() == 0 && !names.get("a longer name").has_value());
}

void a_move_assignment_gives_the_old_holder_back() {
    SharedInterner names;
    SharedSymbol name = names.intern("the first name"), other = names.intern("the second name"), last = names.intern("the third name");
    const SharedSymbol copy = name;
    name = std::move(other);
    CHECK(copy.holders() == 1U && name.holders() == 1U && name.text() == "the second name" && other.word() == 0 && names.size() == 3);
    name = std::move(last);
    CHECK(names.size() == 2 && !names.get("the second name").has_value() && name.text() == "the third name" && last.word() == 0);
}

void a_symbol_prints_as_its_text() {
    SharedInterner names;
    std::ostringstream out;
    out << names.intern("a longer name") << '|' << names.intern("\xc3\xa9") << '|' << names.intern("");
    CHECK(out.str() == "a longer name|\xc3\xa9|");
}

// As the tests of the shared interner for C and Rust have them.
void words_are_those_of_each_language() {
    SharedInterner names;
    const SharedSymbol first = names.intern("a longer name"), second = names.intern("another long name");
    CHECK(first.word() == 0x122cc && second.word() == 0x13130);
    CHECK(names.intern("\xe6\x97\xa5\xe6\x9c\xac\xe8\xaa\x9e\xe3\x81\xae\xe9\x95\xb7\xe3\x81\x84\xe5\x90\x8d\xe5\x89\x8d").word() == 0x10ea4);
}

void two_texts_never_share_a_symbol() {
    for (std::uint8_t shard_bits = 0; shard_bits <= 14; shard_bits += 2) {
        SharedInterner names(shard_bits, 9, 9999, static_cast<std::uint8_t>(14 - shard_bits));
        std::vector<SharedSymbol> held;
        std::set<std::uint64_t> words;
        for (std::size_t at = 0; at < 3000; ++at) {
            held.push_back(names.intern(numbered(at)));
            words.insert(held.back().word());
        }
        CHECK(words.size() == 3000 && names.size() == 3000);
        for (std::size_t at = 0; at < 3000; ++at) {
            CHECK(held[at].text() == numbered(at));
        }
    }
}

// Symbols are compared as their words are.
bool agree(const SharedSymbol &one, const SharedSymbol &other) {
    const std::uint64_t left = one.word(), right = other.word();
    const bool are_in_order = (one < other) == (left < right) && (one > other) == (left > right) && (one <= other) == (left <= right);
    return (one == other) == (left == right) && (one != other) == (left != right) && are_in_order && (one >= other) == (left >= right);
}

// Words of short texts that differ in one byte of eight, and of long ones that differ in the serial alone, also only in its bits from the 17th on.
void all_bits_of_symbols_are_compared() {
    SharedInterner names(0, 9, std::uint64_t(1) << 40, 0);
    std::vector<SharedSymbol> symbols{names.intern("aaaaaaa"), names.intern("aaaaaa")};
    for (std::size_t at = 0; at < 7; ++at) {
        std::string text = "aaaaaaa";
        text[at] = 'b';
        symbols.push_back(names.intern(text));
    }
    symbols.push_back(names.intern("a longer name"));
    symbols.push_back(names.intern("another long name"));
    for (std::size_t at = 2; at < 65536; ++at) {
        names.intern("a name that goes again");
    }
    symbols.push_back(names.intern("a name that comes late"));
    CHECK(symbols.back().word() - symbols[9].word() == std::uint64_t(1) << 32);
    CHECK(std::set<SharedSymbol>(symbols.begin(), symbols.end()).size() == symbols.size());
    for (const SharedSymbol &one : symbols) {
        CHECK(std::all_of(symbols.begin(), symbols.end(), [&one](const SharedSymbol &other) { return agree(one, other); }));
    }
}

// All of it is in the shards, so twice as many have twice as much.
void memory_has_its_shards() {
    const std::uint64_t table = string_cache::Interner(9, 9, 0).memory();
    for (std::uint8_t shard_bits = 0; shard_bits < 8; ++shard_bits) {
        const SharedInterner names(shard_bits, 9, 9, 0), twice(static_cast<std::uint8_t>(shard_bits + 1), 9, 9, 0);
        CHECK(names.memory() >= (table + 64) << shard_bits && twice.memory() == 2 * names.memory());
    }
    SharedInterner names(3, 9, 9, 0);
    const std::uint64_t empty = names.memory();
    for (std::size_t at = 0; at < 40; ++at) {
        const SharedSymbol name = names.intern(numbered(at));
        CHECK(names.memory() >= empty + name.text().size() && names.text_bytes() == name.text().size() && names.size() == 1);
    }
}

void refusals_are_thrown() {
    SharedInterner names(0, 2, 2, 0);
    const SharedSymbol name = names.intern("a longer name");
    CHECK(throws<std::invalid_argument>([&] { names.get("\xff"); }));
    CHECK(throws<std::invalid_argument>([&] { names.intern("\xff\xfe"); }) && throws<std::invalid_argument>([&] { names.get("not UTF-8 \xff"); }));
    const SharedSymbol copy = name;
    CHECK(throws<Refused>([&] { const SharedSymbol third = name; }) && throws<Refused>([&] { names.get("a longer name"); }));
    const SharedSymbol second = names.intern("the second name");
    CHECK(throws<Refused>([&] { names.intern("the third name"); }));
    CHECK(throws<Refused>([] { SharedInterner none(15, 1, 1, 0); }) && throws<Refused>([] { SharedInterner none(7, 1, 1, 8); }));
    CHECK(throws<Refused>([] { SharedInterner none(2, 0, 1, 0); }));
    CHECK(names.size() == 2 && name.text() == "a longer name");
}

void an_interner_is_moved() {
    SharedInterner taken, names;
    const SharedSymbol name = names.intern("a longer name");
    taken = std::move(names);
    CHECK(taken.intern("a longer name") == name && name.text() == "a longer name" && taken.memory() > 64 * 64);
    names = SharedInterner();
    CHECK(names.empty() && taken.size() == 1);
}

// The interner asks the language for two blocks; each of them refused leaves nothing.
void each_request_is_refused() {
    for (long at = 0; at < 2; ++at) {
        const long before = blocks;
        before_refusal = at;
        CHECK(throws<std::bad_alloc>([] { SharedInterner names(3, 9, 9, 0); }));
        before_refusal = -1;
        CHECK(blocks == before);
    }
}

// How many texts are held where each call that is refused is made again. How often one was is counted.
std::size_t interned_again(std::size_t texts, long &refused) {
    std::unique_ptr<SharedInterner> names;
    std::vector<SharedSymbol> held;
    const auto again = [&refused](auto call) {
        try {
            call();
        } catch (const std::bad_alloc &) {
            ++refused;
            call();
        }
    };
    again([&] { names = std::make_unique<SharedInterner>(2, 9, 999, 0); });
    for (std::size_t at = 0; at < texts; ++at) {
        again([&] { held.push_back(names->intern(numbered(at))); });
        CHECK(held.size() == at + 1 && held.back().text() == numbered(at));
    }
    return names->size();
}

void each_request_of_the_tables_is_refused() {
    long at = 0, refused = 0;
    for (long before = -1; before != refused; ++at) {
        before = refused;
        before_table_refusal = at;
        CHECK(interned_again(30, refused) == 30 && table_blocks == 0);
    }
    before_table_refusal = -1;
    // Two blocks of each table, and the bytes of each text.
    CHECK(refused > 4 * 2 + 30);
}

// What one thread does: it holds, copies, reads and gives the symbols of many texts. Whether all was as it should be.
bool work(SharedInterner &names, std::size_t seed) {
    constexpr std::size_t texts = 100;
    std::unordered_map<std::size_t, std::vector<SharedSymbol>> held;
    bool right = true;
    for (std::size_t step = 0; step < 1500; ++step) {
        const std::size_t number = (step * 31 + seed * 17) % texts;
        std::vector<SharedSymbol> &own = held[number];
        const std::string text = number % 8 == 0 ? std::to_string(number) : numbered(number);
        if (own.empty() || step % 4 == 0) {
            own.push_back(names.intern(text));
            right = right && own.front() == own.back();
        } else if (step % 4 == 1) {
            const SharedSymbol copy = own.front();
            own.push_back(copy);
        } else if (step % 4 == 2) {
            own.pop_back();
        } else {
            right = right && own.front().text() == text && names.get(text) == own.front();
            right = right && (number % 8 == 0 || own.front().holders() >= own.size());
        }
    }
    return right && names.size() <= texts;
}

void threads_share(std::size_t count, std::uint8_t shard_bits) {
    SharedInterner names(shard_bits, std::uint64_t(1) << 62, std::uint64_t(1) << 47, 2);
    std::atomic<std::size_t> right{0};
    std::vector<std::thread> threads;
    for (std::size_t at = 0; at < count; ++at) {
        threads.emplace_back([&names, &right, at] { right += work(names, at); });
    }
    std::for_each(threads.begin(), threads.end(), [](std::thread &thread) { thread.join(); });
    CHECK(right == count && names.empty() && names.text_bytes() == 0);
}

void two_threads_share() {
    threads_share(2, 0);
    threads_share(2, 6);
}

void eight_threads_share() {
    threads_share(8, 1);
    threads_share(8, 6);
}

void sixty_four_threads_share() {
    threads_share(64, 0);
    threads_share(64, 6);
}

struct Test {
    const char *name;
    void (*run)();
};

const Test tests[] = {
    {"equal_texts_are_equal_symbols", equal_texts_are_equal_symbols},
    {"a_text_goes_with_its_last_symbol", a_text_goes_with_its_last_symbol},
    {"a_move_assignment_gives_the_old_holder_back", a_move_assignment_gives_the_old_holder_back},
    {"a_symbol_prints_as_its_text", a_symbol_prints_as_its_text},
    {"words_are_those_of_each_language", words_are_those_of_each_language},
    {"two_texts_never_share_a_symbol", two_texts_never_share_a_symbol},
    {"all_bits_of_symbols_are_compared", all_bits_of_symbols_are_compared},
    {"memory_has_its_shards", memory_has_its_shards},
    {"refusals_are_thrown", refusals_are_thrown},
    {"an_interner_is_moved", an_interner_is_moved},
    {"each_request_is_refused", each_request_is_refused},
    {"each_request_of_the_tables_is_refused", each_request_of_the_tables_is_refused},
    {"two_threads_share", two_threads_share},
    {"eight_threads_share", eight_threads_share},
    {"sixty_four_threads_share", sixty_four_threads_share},
};

} // namespace

void *operator new(std::size_t size) {
    return given(size, alignof(std::max_align_t));
}
void *operator new(std::size_t size, std::align_val_t alignment) {
    return given(size, static_cast<std::size_t>(alignment));
}
// The sanitizers have these of their own, which don't call the ones above.
void *operator new[](std::size_t size, std::align_val_t alignment) {
    return given(size, static_cast<std::size_t>(alignment));
}
void operator delete[](void *block, std::align_val_t) noexcept {
    taken_back(block);
}
void operator delete[](void *block, std::size_t, std::align_val_t) noexcept {
    taken_back(block);
}
void operator delete(void *block) noexcept {
    taken_back(block);
}
void operator delete(void *block, std::size_t) noexcept {
    taken_back(block);
}
void operator delete(void *block, std::align_val_t) noexcept {
    taken_back(block);
}
void operator delete(void *block, std::size_t, std::align_val_t) noexcept {
    taken_back(block);
}

int main() {
    bool failed = false;
    for (const Test &test : tests) {
        failures = 0;
        test.run();
        std::cout << "test " << test.name << " ... " << (failures == 0 ? "ok" : "FAILED") << std::endl;
        failed = failed || failures != 0;
    }
    return failed;
}

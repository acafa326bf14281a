// What the header promises, as a program of tests.
#include <algorithm>
#include <atomic>
#include <iostream>
#include <map>
#include <sstream>
#include <thread>
#include <unordered_map>
#include <vector>

#include "string_cache.hpp"

using string_cache::Interner;
using string_cache::Refused;
using string_cache::Symbol;

namespace {

std::size_t failures = 0;

void check(bool holds, const char *what, int line) {
    if (!holds && failures++ < 20) {
        std::cout << __FILE__ << ":" << line << ": " << what << "\n";
    }
}

#define CHECK(condition) check((condition), #condition, __LINE__)

// Whether a call throws this.
template <typename Thrown, typename Call> bool throws(Call call) {
    try {
        call();
    } catch (const Thrown &) {
        return true;
    }
    return false;
}

// How many holders a place has, before the one that is answered.
std::uint64_t holders_at(Interner &names, std::size_t place) {
    return names.at(place).second;
}

void equal_texts_are_equal_symbols() {
    Interner names;
    const Symbol first = names.intern("a longer name");
    CHECK(first == names.intern(std::string("a longer ") + "name"));
    CHECK(first != names.intern("another long name"));
    CHECK(names.intern("short") == names.intern("short"));
    CHECK(first.text() == "a longer name" && names.intern("").text().empty());
    CHECK(names.intern(std::string(5000, 'x')).text() == std::string(5000, 'x'));
    CHECK(names.intern(std::string_view("a\0b\0c\0d\0e", 9)).text().size() == 9);
}

void a_text_goes_with_its_last_symbol() {
    Interner names;
    {
        const Symbol first = names.intern("a longer name");
        const Symbol copy = first;
        Symbol moved = names.intern("another long name");
        const Symbol taken = std::move(moved);
        CHECK(names.size() == 2 && holders_at(names, 0) == 2 && holders_at(names, 1) == 1);
        moved = copy;
        CHECK(holders_at(names, 0) == 3 && moved == first && taken.text() == "another long name");
        CHECK(first.holders() == 3U && taken.holders() == 1U && !names.intern("short").holders().has_value());
    }
    CHECK(names.empty() && names.text_bytes() == 0 && !names.get("a longer name").has_value());
}

void a_symbol_is_assigned() {
    Interner names;
    Symbol name = names.intern("the first name");
    const Symbol other = names.intern("the second name");
    name = other;
    CHECK(names.size() == 1 && name == other);
    Symbol &same = name;
    name = same;
    CHECK(name.text() == "the second name" && holders_at(names, 0) == 2);
}

// The text that was there before has a holder less at once, and not only when the symbol that was moved from ends.
void a_move_assignment_gives_the_old_holder_back() {
    Interner names;
    Symbol name = names.intern("the first name"), other = names.intern("the second name"), last = names.intern("the third name");
    const Symbol copy = name;
    name = std::move(other);
    CHECK(copy.holders() == 1U && name.holders() == 1U && name.text() == "the second name" && !other && names.size() == 3);
    name = std::move(last);
    CHECK(names.size() == 2 && !names.contains("the second name") && name.text() == "the third name" && !last);
    last = std::move(name);
    CHECK(last.holders() == 1U && last.text() == "the third name" && !name && names.size() == 2);
}

void a_name_is_looked_up() {
    Interner names;
    CHECK(!names.get("a longer name").has_value() && names.get("short").has_value());
    CHECK(!names.contains("a longer name") && names.contains("short"));
    const Symbol name = names.intern("a longer name");
    CHECK(names.get("a longer name") == name && names.contains("a longer name"));
    CHECK(holders_at(names, 0) == 1);
}

void a_symbol_that_was_moved_from_says_so() {
    Interner names;
    Symbol name = names.intern("a longer name");
    CHECK(static_cast<bool>(name));
    const Symbol taken = std::move(name);
    CHECK(!name && name.word() == 0 && name != taken && taken && !name.holders().has_value());
    CHECK(throws<std::logic_error>([&] { name.text(); }));
    CHECK(throws<std::logic_error>([&] { std::cout << name; }));
    const Symbol copy = name;
    CHECK(!copy && copy == name);
    name = taken;
    CHECK(name && name.text() == "a longer name" && names.size() == 1);
}

// What is const is called by threads at a time, with no lock.
void threads_read_one_interner() {
    Interner names;
    std::vector<Symbol> held;
    std::uint64_t bytes = 0;
    for (int at = 0; at < 500; ++at) {
        held.push_back(names.intern("name number " + std::to_string(at)));
        bytes += held.back().text().size();
    }
    const Interner &shared = names;
    std::atomic<int> wrong{0};
    std::vector<std::thread> readers;
    for (int reader = 0; reader < 4; ++reader) {
        readers.emplace_back([&] {
            for (int at = 0; at < 500; ++at) {
                const std::string text = "name number " + std::to_string(at);
                wrong += held[at].text() != text || !shared.contains(text) || shared.contains(text + "!") || shared.size() != 500;
            }
            std::uint64_t found = 0;
            shared.for_each([&](const std::string &text, std::uint64_t holders) { found += text.size() * holders; });
            wrong += found != bytes || shared.text_bytes() != bytes || shared.memory() < bytes || shared.empty();
        });
    }
    for (std::thread &reader : readers) {
        reader.join();
    }
    CHECK(wrong == 0);
}

void names_stand_in_order() {
    Interner names;
    std::vector<Symbol> held;
    for (int at = 0; at < 1000; ++at) {
        held.push_back(names.intern("name number " + std::to_string(at)));
    }
    int at = 0;
    names.for_each(
        [&](const std::string &text, std::uint64_t holders) { CHECK(text == "name number " + std::to_string(at++) && holders == 1); });
    CHECK(at == 1000 && names.size() == 1000);
    held.erase(held.begin());
    CHECK(names.at(0).first.text() == "name number 999" && names.size() == 999);
    CHECK(throws<std::out_of_range>([&] { names.at(999); }));
}

// Symbols are compared as their words are.
bool agree(const Symbol &one, const Symbol &other) {
    const std::uint64_t left = one.word(), right = other.word();
    const bool are_in_order = (one < other) == (left < right) && (one > other) == (left > right) && (one <= other) == (left <= right);
    return (one == other) == (left == right) && (one != other) == (left != right) && are_in_order && (one >= other) == (left >= right);
}

// Words of short texts that differ in one byte of eight, also in the upper half alone, and of long ones.
void all_bits_of_symbols_are_compared() {
    Interner names(9, 9, 0);
    std::vector<Symbol> symbols{names.intern("aaaaaaa"), names.intern("aaaaaa"), names.intern("a longer name"), names.intern("another long name")};
    for (std::size_t at = 0; at < 7; ++at) {
        std::string text = "aaaaaaa";
        text[at] = 'b';
        symbols.push_back(names.intern(text));
    }
    for (const Symbol &one : symbols) {
        CHECK(std::all_of(symbols.begin(), symbols.end(), [&one](const Symbol &other) { return agree(one, other); }));
    }
}

void a_symbol_prints_as_its_text() {
    Interner names;
    std::ostringstream out;
    out << names.intern("a longer name") << '|' << names.intern("\xc3\xa9") << '|' << names.intern("");
    CHECK(out.str() == "a longer name|\xc3\xa9|");
}

void each_text_comes_with_its_holders() {
    Interner names;
    const Symbol first = names.intern("a longer name"), copy = first, second = names.intern("another long name");
    std::vector<std::uint64_t> found;
    names.for_each([&found](const std::string &, std::uint64_t holders) { found.push_back(holders); });
    CHECK((found == std::vector<std::uint64_t>{2, 1}));
}

// Each limit is the one that it is for, also under a key.
void limits_are_kept(Interner names) {
    const Symbol name = names.intern("a longer name"), copy = name;
    CHECK(throws<Refused>([&] { const Symbol third = name; }) && throws<Refused>([&] { names.get("a longer name"); }));
    CHECK(throws<Refused>([&] { names.intern("another long name"); }));
}

void each_limit_is_its_own() {
    limits_are_kept(Interner(2, 1, 0));
    limits_are_kept(Interner(2, 1, 0, sc_key{1, 2}));
}

// By how much the memory grows if 1000 texts go and come again: that depends on the key (tests/counted.c of the C library).
std::uint64_t growth_under(sc_key key) {
    Interner names(9, 99, 12, key);
    std::vector<std::optional<Symbol>> held;
    for (int at = 0; at < 1000; ++at) {
        held.push_back(names.intern("text number " + std::to_string(at)));
    }
    const std::uint64_t full = names.memory();
    for (int at = 0; at < 1000; ++at) {
        held[at * 7 % 1000].reset();
    }
    for (int at = 0; at < 1000; ++at) {
        held[at] = names.intern("text number " + std::to_string(at));
    }
    return names.memory() - full;
}

void a_given_key_is_the_interners() {
    CHECK(growth_under(sc_key{1, 2}) == 0 && growth_under(sc_key{1, 30}) == 128 * 496 && growth_under(sc_key{1, 47}) == 128 * 496);
}

void symbols_are_keys() {
    Interner names;
    std::unordered_map<Symbol, int> counts;
    std::map<Symbol, int> ordered;
    for (const char *word : {"interned", "another one", "interned", "short", "interned", "short"}) {
        ++counts[names.intern(word)];
        ++ordered[names.intern(word)];
    }
    CHECK(counts.size() == 3 && counts.at(names.intern("interned")) == 3 && counts.at(names.intern("short")) == 2);
    CHECK(ordered.size() == 3 && ordered.at(names.intern("another one")) == 1);
}

void refusals_are_thrown() {
    Interner names(2, 2, 0);
    const Symbol name = names.intern("a longer name");
    CHECK(throws<std::invalid_argument>([&] { names.intern("\xff\xfe"); }));
    CHECK(throws<std::invalid_argument>([&] { names.get("\xff\xfe"); }));
    CHECK(throws<std::invalid_argument>([&] { (void)names.contains("\xff\xfe"); }));
    const Symbol copy = name;
    CHECK(throws<Refused>([&] { const Symbol third = name; }));
    CHECK(throws<Refused>([&] { names.intern("a longer name"); }));
    const Symbol second = names.intern("the second name");
    try {
        names.intern("the third name");
        CHECK(false);
    } catch (const Refused &refused) {
        CHECK(refused.status() == SC_TICKETS_SPENT && refused.what() == std::string(sc_strerror(SC_TICKETS_SPENT)));
    }
    CHECK(throws<Refused>([] { Interner none(0, 1, 0); }));
    CHECK(throws<std::bad_alloc>([&] { names.reserve(SIZE_MAX / 2); }));
    CHECK(names.size() == 2 && name.text() == "a longer name");
}

// With one bucket, a second text in the first group of places takes its own bytes and no more.
void memory_is_told() {
    Interner names(9, 9, 0);
    const std::uint64_t empty = names.memory();
    const Symbol first = names.intern("a longer name");
    const std::uint64_t one = names.memory();
    const Symbol copy = first, inline_name = names.intern("short");
    CHECK(empty > 8 && one == empty + 13 + 496 + 208 + 1 && names.memory() == one);
    {
        const Symbol second = names.intern("another long name");
        CHECK(names.memory() == one + 17);
    }
    CHECK(names.memory() == one);
    names.reserve(1000);
    CHECK(names.memory() > one + 64 * 1000);
}

void an_interner_is_moved() {
    Interner taken, names;
    const Symbol name = names.intern("a longer name");
    taken = std::move(names);
    CHECK(taken.intern("a longer name") == name && name.text() == "a longer name");
    names = Interner();
    CHECK(names.empty() && taken.size() == 1);
}

void a_given_key_changes_no_word() {
    Interner drawn, given(9, 9, 12, sc_key{1, 2}), other(9, 9, 12, sc_key{UINT64_MAX, 3});
    for (const std::string text : {"a longer name", "ein längerer Name", ""}) {
        const std::uint64_t word = drawn.intern(text).word();
        CHECK(given.intern(text).word() == word && other.intern(text).word() == word);
    }
    bool refused = false;
    try {
        const Interner none(9, 9, 15, sc_key{1, 2});
    } catch (const string_cache::Refused &fault) {
        refused = fault.status() == SC_NOT_LIMITS;
    }
    CHECK(refused);
}

#if defined(__GNUC__)
#pragma GCC diagnostic push
#pragma GCC diagnostic ignored "-Wdeprecated-declarations"
#endif
void former_names_answer_the_same() {
    const Refused refused(SC_TICKETS_SPENT);
    CHECK(refused.number() == SC_TICKETS_SPENT);
}
#if defined(__GNUC__)
#pragma GCC diagnostic pop
#endif

struct Test {
    const char *name;
    void (*run)();
};

const Test tests[] = {
    {"equal_texts_are_equal_symbols", equal_texts_are_equal_symbols},
    {"a_text_goes_with_its_last_symbol", a_text_goes_with_its_last_symbol},
    {"a_symbol_is_assigned", a_symbol_is_assigned},
    {"a_move_assignment_gives_the_old_holder_back", a_move_assignment_gives_the_old_holder_back},
    {"a_name_is_looked_up", a_name_is_looked_up},
    {"a_symbol_that_was_moved_from_says_so", a_symbol_that_was_moved_from_says_so},
    {"threads_read_one_interner", threads_read_one_interner},
    {"names_stand_in_order", names_stand_in_order},
    {"all_bits_of_symbols_are_compared", all_bits_of_symbols_are_compared},
    {"a_symbol_prints_as_its_text", a_symbol_prints_as_its_text},
    {"each_text_comes_with_its_holders", each_text_comes_with_its_holders},
    {"each_limit_is_its_own", each_limit_is_its_own},
    {"a_given_key_is_the_interners", a_given_key_is_the_interners},
    {"symbols_are_keys", symbols_are_keys},
    {"refusals_are_thrown", refusals_are_thrown},
    {"memory_is_told", memory_is_told},
    {"an_interner_is_moved", an_interner_is_moved},
    {"a_given_key_changes_no_word", a_given_key_changes_no_word},
    {"former_names_answer_the_same", former_names_answer_the_same},
};

} // namespace

int main() {
    bool failed = false;
    for (const Test &test : tests) {
        failures = 0;
        test.run();
        std::cout << "test " << test.name << " ... " << (failures == 0 ? "ok" : "FAILED") << std::endl;
        failed = failed || failures != 0;
    }
    return failed;
}

// The line language over std::map, for comparison with the line program. docs/FORMAT.md describes the language.
//
//     lines plain     reads with std::getline and writes to std::cout
//     lines tuned     reads pieces of 64 KiB with fread, and writes numbers with std::to_chars into a buffer
//
// The replies are those of the line program, with two exceptions: both row counts are 0, because a std::map has no rows, and `audit` always
// answers 0.
#include <charconv>
#include <cstdint>
#include <cstdio>
#include <cstring>
#include <iostream>
#include <map>
#include <optional>
#include <string>
#include <string_view>
#include <vector>

static constexpr size_t capacity = 4096;

struct Stream {
    void room(size_t) {}
    void put(char c) { std::cout << c; }
    void put(std::string_view s) { std::cout << s; }
    void number(uint64_t n) { std::cout << n; }
};

struct Buffer {
    char bytes[1 << 17];
    size_t used = 0;

    ~Buffer() { flush(); }
    void flush() { fwrite(bytes, 1, used, stdout), used = 0; }
    void room(size_t n)
    {
        if (sizeof bytes - used < n)
            flush();
    }
    void put(char c) { bytes[used++] = c; }
    void put(std::string_view s) { memcpy(bytes + used, s.data(), s.size()), used += s.size(); }
    void number(uint64_t n) { used = std::to_chars(bytes + used, bytes + sizeof bytes, n).ptr - bytes; }
};

template <class Out> struct Session {
    std::map<uint32_t, uint32_t> map; // from a word to its serial
    uint32_t width = 0;
    uint64_t line = 0;
    Out out;

    void field(std::optional<uint32_t> number)
    {
        if (number)
            out.number(*number);
        else
            out.put('-');
    }

    void reply(unsigned answer, std::optional<uint32_t> key = {}, std::optional<uint32_t> serial = {})
    {
        out.room(80);
        out.number(line);
        out.put('\t');
        out.number(answer);
        out.put('\t');
        field(key);
        out.put("\t0\t0\t");
        field(serial);
        out.put('\n');
    }

    // "A number is 1 to 10 digits, no leading zero but for 0 itself, at most 4,294,967,295."
    static bool read(std::string_view digits, uint32_t &number)
    {
        if (digits.empty() || digits.size() > 10 || (digits[0] == '0' && digits.size() > 1) || digits[0] == '-')
            return false;
        auto [end, error] = std::from_chars(digits.begin(), digits.end(), number);
        return error == std::errc{} && end == digits.end();
    }

    void answer(std::string_view text)
    {
        line++;
        size_t tab = text.find('\t');
        std::string_view word = text.substr(0, tab);
        if (text.size() > 64)
            return reply(9);
        if (tab == std::string_view::npos)
            return alone(word);
        text.remove_prefix(tab + 1);
        uint32_t k, serial;
        if (word == "add") {
            tab = text.find('\t');
            if (tab == std::string_view::npos || !read(text.substr(0, tab), k) || !read(text.substr(tab + 1), serial))
                return reply(9);
            return add(k, serial);
        }
        if (!read(text, k))
            return reply(9);
        numbered(word, k);
    }

    void alone(std::string_view word)
    {
        bool first = word == "first", last = word == "last", list = word == "list", audit = word == "audit";
        if (!first && !last && !list && !audit)
            return reply(9);
        if (width == 0)
            return reply(2);
        if (audit)
            return reply(0);
        if (list) {
            reply(0);
            for (auto &[k, serial] : map) {
                out.room(64);
                out.put("key\t");
                out.number(k);
                out.put('\n');
            }
            return;
        }
        if (map.empty())
            return reply(8);
        reply(0, first ? map.begin()->first : map.rbegin()->first);
    }

    // judges a word by the width; a word that may not be asked for is answered here
    bool refused(uint32_t k)
    {
        if (width == 0)
            return reply(2), true;
        if (uint64_t(k) >> width != 0)
            return reply(3), true;
        return false;
    }

    // document 02 §1: "An `add` of a word already there still answers 7, but now stores the new serial."
    void add(uint32_t k, uint32_t serial)
    {
        if (refused(k))
            return;
        if (map.size() == capacity && map.count(k) == 0)
            return reply(5);
        reply(map.insert_or_assign(k, serial).second ? 0 : 7);
    }

    void numbered(std::string_view word, uint32_t k)
    {
        if (word == "new") {
            if (k == 0 || k > 32)
                return reply(1);
            map.clear();
            width = k;
            return reply(0);
        }
        bool has = word == "has", del = word == "del", next = word == "next", prev = word == "prev", gap = word == "gap";
        if (!has && !del && !next && !prev && !gap)
            return reply(9);
        if (refused(k))
            return;
        if (has) {
            auto i = map.find(k);
            return i == map.end() ? reply(8) : reply(0, {}, i->second);
        }
        if (del)
            return reply(map.erase(k) != 0 ? 0 : 8);
        if (next) {
            auto i = map.upper_bound(k);
            return i == map.end() ? reply(8) : reply(0, i->first);
        }
        auto i = map.lower_bound(k);
        bool some_above = i != map.end(), some_below = i != map.begin();
        if (prev)
            return some_below ? reply(0, (--i)->first) : reply(8);
        if (!some_above && !some_below)
            return reply(8);
        uint32_t distance = some_above ? i->first - k : UINT32_MAX;
        if (some_below && distance != 0) {
            uint32_t below = k - (--i)->first;
            if (below < distance)
                distance = below;
        }
        reply(0, distance);
    }
};

static void plain()
{
    std::ios::sync_with_stdio(false);
    Session<Stream> session;
    std::string line;
    while (std::getline(std::cin, line))
        session.answer(line);
}

static void tuned()
{
    static Session<Buffer> session;
    std::vector<char> bytes(1 << 16);
    size_t held = 0;
    for (size_t got; (got = fread(bytes.data() + held, 1, bytes.size() - held, stdin)) != 0;) {
        char *at = bytes.data(), *end = at + held + got;
        while (char *stop = static_cast<char *>(memchr(at, '\n', end - at))) {
            session.answer({at, size_t(stop - at)});
            at = stop + 1;
        }
        held = end - at;
        memmove(bytes.data(), at, held);
        if (held == bytes.size())
            bytes.resize(2 * held);
    }
    if (held != 0)
        session.answer({bytes.data(), held});
}

int main(int n, char **arguments)
{
    std::string_view mode = n == 2 ? arguments[1] : "";
    if (mode == "plain")
        plain();
    else if (mode == "tuned")
        tuned();
    else
        return fprintf(stderr, "lines: plain or tuned\n"), 2;
}

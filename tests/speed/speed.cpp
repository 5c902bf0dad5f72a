// Runs the same calls on the proved library, on the C version without checks and on other ordered sets, in one process.
//
//     speed check            compares all sets on random calls; a difference ends it with status 1
//     speed time N ROUNDS    writes a line for each call and set: call, set, N, calls, rows read, picoseconds a call
//     speed count N          the same without times, for callgrind: makes a dump named "call set" for each line
//
// The sets take turns, one round each. A round's time is the median of its slices of at most 1,024 calls. The time written is that of the best
// round; a first round is not counted. So other work on the machine has little effect.
//
// Words are 32 bits wide, except in `check`. Every set gets the same words and the same calls, and all must give the same answers.
#include "calls.h"

#include <algorithm>
#include <chrono>
#include <cmath>
#include <cstdio>
#include <cstdlib>
#include <cstring>
#include <map>
#include <random>
#include <string>
#include <tuple>
#include <unordered_set>
#include <vector>

#ifdef HAVE_ABSL
#include <absl/container/btree_map.h>
#endif
#ifdef HAVE_JUDY
#include <Judy.h>
#endif
#ifdef HAVE_VALGRIND
#include <valgrind/callgrind.h>
#else
#define CALLGRIND_TOGGLE_COLLECT
#define CALLGRIND_ZERO_STATS
#define CALLGRIND_DUMP_STATS_AT(label) (void)(label)
#endif

using Words = std::vector<uint32_t>;

[[noreturn]] static void differ(const std::string &what)
{
    fprintf(stderr, "speed: DIFFERENCE: %s\n", what.c_str());
    exit(1);
}

// ---- The sets ----

// The value is the key, for `has` the serial, and 0 where there is none.
struct Answer {
    uint32_t number, value;
    bool operator==(const Answer &other) const { return number == other.number && value == other.value; }
};

struct Proved {
    static constexpr const char *name = "library";
    static constexpr auto has = words_has, next = words_next, prev = words_prev, gap = words_gap;
    static constexpr auto first = words_first, last = words_last, audit = words_audit;
    static constexpr auto add = words_add, del = words_del, renew = words_new;
    static constexpr auto list = words_list;
};

struct Plain {
    static constexpr const char *name = "C";
    static constexpr auto has = plain_has, next = plain_next, prev = plain_prev, gap = plain_gap;
    static constexpr auto first = plain_first, last = plain_last, audit = plain_audit;
    static constexpr auto add = plain_add, del = plain_del, renew = plain_new;
    static constexpr auto list = plain_list;
};

// A PreTree in a table.
template <class Calls> struct Table {
    static constexpr const char *name = Calls::name;
    static constexpr bool is_table = true;
    Words table;
    Reply reply{};

    Answer told() const { return {reply.answer, reply.key}; }
    Answer told_serial() const { return {reply.answer, reply.serial}; }
    void renew(uint32_t width) { Calls::renew(reply.width, reply.count, table.data(), table.size(), width, &reply); }
    void build(const Words &words, size_t capacity, uint32_t width = 32)
    {
        table.assign(ROW * capacity, 1);
        renew(width);
        for (size_t i = 0; i < words.size(); i++)
            add(words[i], i);
    }
    Answer has(uint32_t k) { return Calls::has(reply.width, reply.count, table.data(), table.size(), k, &reply), told_serial(); }
    Answer next(uint32_t k) { return Calls::next(reply.width, reply.count, table.data(), table.size(), k, &reply), told(); }
    Answer prev(uint32_t k) { return Calls::prev(reply.width, reply.count, table.data(), table.size(), k, &reply), told(); }
    Answer gap(uint32_t k) { return Calls::gap(reply.width, reply.count, table.data(), table.size(), k, &reply), told(); }
    Answer add(uint32_t k, uint32_t serial)
    {
        return Calls::add(reply.width, reply.count, table.data(), table.size(), k, serial, &reply), told();
    }
    Answer del(uint32_t k) { return Calls::del(reply.width, reply.count, table.data(), table.size(), k, &reply), told(); }
    Answer first() { return Calls::first(reply.width, reply.count, table.data(), table.size(), &reply), told(); }
    Answer last() { return Calls::last(reply.width, reply.count, table.data(), table.size(), &reply), told(); }
    Answer audit() { return Calls::audit(reply.width, reply.count, table.data(), table.size(), &reply), told(); }
    size_t list(Words &to)
    {
        Calls::list(reply.width, reply.count, table.data(), table.size(), to.data(), to.size(), &reply);
        return reply.count;
    }
};

// The distance to the nearer neighbour. Either neighbour, or both, may be missing.
static Answer nearer(bool some_below, uint32_t below, bool some_above, uint32_t above, uint32_t k)
{
    if (!some_below && !some_above)
        return {NO_SUCH_WORD, 0};
    if (!some_below)
        return {DONE, above - k};
    if (!some_above)
        return {DONE, k - below};
    return {DONE, std::min(k - below, above - k)};
}

// std::map and absl::btree_map, from a word to its serial
template <class Map> struct Ordered {
    static constexpr bool is_table = false;
    Map map;

    void build(const Words &words, size_t, uint32_t = 32)
    {
        map.clear();
        for (size_t i = 0; i < words.size(); i++)
            add(words[i], i);
    }
    Answer at(typename Map::iterator i) { return i == map.end() ? Answer{NO_SUCH_WORD, 0} : Answer{DONE, i->first}; }
    Answer has(uint32_t k)
    {
        auto i = map.find(k);
        return i == map.end() ? Answer{NO_SUCH_WORD, 0} : Answer{DONE, i->second};
    }
    Answer next(uint32_t k) { return at(map.upper_bound(k)); }
    Answer prev(uint32_t k)
    {
        auto i = map.lower_bound(k);
        return i == map.begin() ? Answer{NO_SUCH_WORD, 0} : Answer{DONE, (--i)->first};
    }
    Answer gap(uint32_t k)
    {
        auto above = map.lower_bound(k);
        if (above != map.end() && above->first == k)
            return {DONE, 0};
        bool some_above = above != map.end(), some_below = above != map.begin();
        uint32_t upper = some_above ? above->first : 0, lower = some_below ? (--above)->first : 0;
        return nearer(some_below, lower, some_above, upper, k);
    }
    Answer first() { return at(map.begin()); }
    Answer last() { return map.empty() ? Answer{NO_SUCH_WORD, 0} : Answer{DONE, map.rbegin()->first}; }
    Answer add(uint32_t k, uint32_t serial) { return {map.insert_or_assign(k, serial).second ? DONE : ALREADY_THERE, 0}; }
    Answer del(uint32_t k) { return {map.erase(k) != 0 ? DONE : NO_SUCH_WORD, 0}; }
    size_t list(Words &to)
    {
        size_t n = 0;
        for (auto &[word, serial] : map)
            to[n++] = word;
        return n;
    }
};

struct StdMap : Ordered<std::map<uint32_t, uint32_t>> {
    static constexpr const char *name = "std::map";
};

#ifdef HAVE_ABSL
struct BtreeMap : Ordered<absl::btree_map<uint32_t, uint32_t>> {
    static constexpr const char *name = "absl::btree_map";
};
#endif

#ifdef HAVE_JUDY
// The value of a word is its serial plus 1: JudyL gives a new word the value 0, and so a new word is told from one already there.
struct Judy {
    static constexpr const char *name = "JudyL";
    static constexpr bool is_table = false;
    Pvoid_t map = nullptr;

    ~Judy() { JudyLFreeArray(&map, PJE0); }
    void build(const Words &words, size_t, uint32_t = 32)
    {
        JudyLFreeArray(&map, PJE0);
        for (size_t i = 0; i < words.size(); i++)
            add(words[i], i);
    }
    static Answer at(PPvoid_t found, Word_t k) { return found != nullptr ? Answer{DONE, uint32_t(k)} : Answer{NO_SUCH_WORD, 0}; }
    Answer has(uint32_t k)
    {
        auto value = reinterpret_cast<Word_t *>(JudyLGet(map, k, PJE0));
        return value == nullptr ? Answer{NO_SUCH_WORD, 0} : Answer{DONE, uint32_t(*value - 1)};
    }
    Answer next(uint32_t word)
    {
        Word_t k = word;
        auto found = JudyLNext(map, &k, PJE0);
        return at(found, k);
    }
    Answer prev(uint32_t word)
    {
        Word_t k = word;
        auto found = JudyLPrev(map, &k, PJE0);
        return at(found, k);
    }
    Answer gap(uint32_t word)
    {
        Word_t above = word, below = word;
        bool some_above = JudyLFirst(map, &above, PJE0) != nullptr;
        if (some_above && above == word)
            return {DONE, 0};
        bool some_below = JudyLPrev(map, &below, PJE0) != nullptr;
        return nearer(some_below, below, some_above, above, word);
    }
    Answer first()
    {
        Word_t k = 0;
        auto found = JudyLFirst(map, &k, PJE0);
        return at(found, k);
    }
    Answer last()
    {
        Word_t k = -1;
        auto found = JudyLLast(map, &k, PJE0);
        return at(found, k);
    }
    Answer add(uint32_t k, uint32_t serial)
    {
        auto value = reinterpret_cast<Word_t *>(JudyLIns(&map, k, PJE0));
        bool fresh = *value == 0;
        *value = Word_t(serial) + 1;
        return {fresh ? DONE : ALREADY_THERE, 0};
    }
    Answer del(uint32_t k) { return {JudyLDel(&map, k, PJE0) ? DONE : NO_SUCH_WORD, 0}; }
    size_t list(Words &to)
    {
        size_t n = 0;
        Word_t k = 0;
        for (auto found = JudyLFirst(map, &k, PJE0); found != nullptr; found = JudyLNext(map, &k, PJE0))
            to[n++] = uint32_t(k);
        return n;
    }
};
#endif

struct Sorted {
    static constexpr const char *name = "sorted array";
    static constexpr bool is_table = false;
    struct Pair {
        uint32_t word, serial;
    };
    using Pairs = std::vector<Pair>;
    Pairs pairs;

    void build(const Words &words, size_t capacity, uint32_t = 32)
    {
        pairs.clear();
        pairs.reserve(capacity);
        for (size_t i = 0; i < words.size(); i++)
            pairs.push_back({words[i], uint32_t(i)});
        std::sort(pairs.begin(), pairs.end(), [](const Pair &a, const Pair &b) { return a.word < b.word; });
    }
    Pairs::iterator from(uint32_t k)
    {
        return std::lower_bound(pairs.begin(), pairs.end(), k, [](const Pair &pair, uint32_t k) { return pair.word < k; });
    }
    bool holds(Pairs::iterator i, uint32_t k) { return i != pairs.end() && i->word == k; }
    Answer has(uint32_t k)
    {
        auto i = from(k);
        return holds(i, k) ? Answer{DONE, i->serial} : Answer{NO_SUCH_WORD, 0};
    }
    Answer next(uint32_t k)
    {
        auto i = std::upper_bound(pairs.begin(), pairs.end(), k, [](uint32_t k, const Pair &pair) { return k < pair.word; });
        return i == pairs.end() ? Answer{NO_SUCH_WORD, 0} : Answer{DONE, i->word};
    }
    Answer prev(uint32_t k)
    {
        auto i = from(k);
        return i == pairs.begin() ? Answer{NO_SUCH_WORD, 0} : Answer{DONE, i[-1].word};
    }
    Answer gap(uint32_t k)
    {
        auto i = from(k);
        if (holds(i, k))
            return {DONE, 0};
        bool some_above = i != pairs.end(), some_below = i != pairs.begin();
        return nearer(some_below, some_below ? i[-1].word : 0, some_above, some_above ? i->word : 0, k);
    }
    Answer first() { return pairs.empty() ? Answer{NO_SUCH_WORD, 0} : Answer{DONE, pairs.front().word}; }
    Answer last() { return pairs.empty() ? Answer{NO_SUCH_WORD, 0} : Answer{DONE, pairs.back().word}; }
    Answer add(uint32_t k, uint32_t serial)
    {
        auto i = from(k);
        if (holds(i, k)) {
            i->serial = serial;
            return {ALREADY_THERE, 0};
        }
        pairs.insert(i, {k, serial});
        return {DONE, 0};
    }
    Answer del(uint32_t k)
    {
        auto i = from(k);
        if (!holds(i, k))
            return {NO_SUCH_WORD, 0};
        pairs.erase(i);
        return {DONE, 0};
    }
    size_t list(Words &to)
    {
        size_t n = 0;
        for (const Pair &pair : pairs)
            to[n++] = pair.word;
        return n;
    }
};

using Sets = std::tuple<Table<Proved>, Table<Plain>, StdMap
#ifdef HAVE_ABSL
    , BtreeMap
#endif
#ifdef HAVE_JUDY
    , Judy
#endif
    , Sorted>;

template <class F> static void each(Sets &sets, F f)
{
    std::apply([&](auto &...set) { (f(set), ...); }, sets);
}

// ---- The calls ----

#define CALL(Type, call) \
    struct Type { \
        static constexpr const char *name = #call; \
        template <class Set> static Answer of(Set &set, uint32_t k, uint32_t) { return set.call(k); } \
    }
#define CALL_ALONE(Type, call) \
    struct Type { \
        static constexpr const char *name = #call; \
        template <class Set> static Answer of(Set &set, uint32_t, uint32_t) { return set.call(); } \
    }
CALL(Has, has);
CALL(Next, next);
CALL(Prev, prev);
CALL(Gap, gap);
CALL(Del, del);
CALL_ALONE(First, first);
CALL_ALONE(Last, last);
CALL_ALONE(Audit, audit);

struct Add {
    static constexpr const char *name = "add";
    template <class Set> static Answer of(Set &set, uint32_t k, uint32_t serial) { return set.add(k, serial); }
};

struct New {
    static constexpr const char *name = "new";
    template <class Set> static Answer of(Set &set, uint32_t, uint32_t) { return set.renew(32), set.told(); }
};

struct List {
    static constexpr const char *name = "list";
    static inline Words to = Words(65535);
    template <class Set> static Answer of(Set &set, uint32_t, uint32_t) { return {DONE, uint32_t(set.list(to))}; }
};

// ---- The meter ----

// How many calls are timed together. It is one for calls that go through the whole table.
template <class Call> constexpr size_t slice = 1024;
template <> constexpr size_t slice<List> = 1;
template <> constexpr size_t slice<Audit> = 1;
template <> constexpr size_t slice<New> = 1;

// Measures times, or lets callgrind count instructions. `answers` is a sum over all answers; it must be the same for every set.
struct Meter {
    bool counts = false;
    uint64_t calls = 0, rows = 0, answers = 0;
    std::vector<double> slices; // nanoseconds a call

    double median()
    {
        std::sort(slices.begin(), slices.end());
        return slices[(slices.size() - 1) / 2];
    }

    template <class Call, class Set> __attribute__((noinline)) void made(Set &set, const uint32_t *words, size_t n)
    {
        uint64_t sum = 0;
        for (size_t i = 0; i < n; i++) {
            Answer a = Call::of(set, words[i], i);
            sum += a.number * 1000003u + a.value;
            asm volatile("" ::: "memory"); // keeps the compiler from leaving out a call whose answer it could reuse
        }
        answers += sum;
    }
    // `n` calls, measured; call i gets words[i] and, where it is `add`, a serial
    template <class Call, class Set> void metered(Set &set, const uint32_t *words, size_t n)
    {
        calls += n;
        if (counts) {
            CALLGRIND_TOGGLE_COLLECT;
            made<Call>(set, words, n);
            CALLGRIND_TOGGLE_COLLECT;
            return;
        }
        for (size_t from = 0; from < n; from += slice<Call>) {
            size_t some = std::min(slice<Call>, n - from);
            auto began = std::chrono::steady_clock::now();
            made<Call>(set, words + from, some);
            std::chrono::duration<double, std::nano> took = std::chrono::steady_clock::now() - began;
            slices.push_back(took.count() / some);
        }
    }
    // the same, not measured: to change the set, or to sum the rows
    template <class Call, class Set> void unmetered(Set &set, const uint32_t *words, size_t n)
    {
        for (size_t i = 0; i < n; i++) {
            Call::of(set, words[i], i);
            if constexpr (Set::is_table)
                rows += set.reply.rows + set.reply.moved;
        }
    }
};

// ---- What is run ----

// The words of a set, the words of the reading calls, and batches for `add` and `del`. A batch is added and as many words are then deleted, so
// the set is then as large as before.
struct Plan {
    size_t n;
    Words words, asked, base;
    std::vector<std::pair<Words, Words>> batches;

    Plan(size_t n, size_t calls) : n(n)
    {
        std::mt19937 random(n);
        std::unordered_set<uint32_t> seen;
        auto fresh = [&] {
            uint32_t word;
            do
                word = random();
            while (!seen.insert(word).second);
            return word;
        };
        while (words.size() < n)
            words.push_back(fresh());
        while (asked.size() < calls) {
            uint32_t word = random();
            asked.push_back(random() % 2 != 0 ? word : words[word % n]);
        }
        size_t batch = n / 8;
        base.assign(words.begin(), words.end() - batch);
        Words members = base;
        for (size_t made = 0; made + batch <= calls; made += batch) {
            Words adds, dels;
            for (size_t i = 0; i < batch; i++)
                members.push_back(adds.emplace_back(fresh()));
            for (size_t i = 0; i < batch; i++) {
                std::swap(members[random() % members.size()], members.back());
                dels.push_back(members.back());
                members.pop_back();
            }
            batches.emplace_back(adds, dels);
        }
    }
};

struct Runner {
    Plan plan;
    bool counts;
    int rounds;
    Sets sets;

    Runner(size_t n, size_t calls, bool counts, int rounds) : plan(n, calls), counts(counts), rounds(rounds) {}

    // Runs `work(set, meter)` on every set in turn, and writes a line for each set. A first round is not counted when times are measured.
    template <class Accepts, class Work> void row(const char *call, Accepts accepts, Work work)
    {
        struct Result {
            std::string name;
            uint64_t calls = 0, rows = 0, answers = 0;
            double best = HUGE_VAL;
        };
        std::vector<Result> results;
        for (int round = counts ? 1 : 0; round <= rounds; round++) {
            size_t at = 0;
            each(sets, [&](auto &set) {
                if constexpr (decltype(accepts(set))::value) {
                    Meter meter;
                    meter.counts = counts;
                    CALLGRIND_ZERO_STATS;
                    work(set, meter);
                    if (counts) {
                        std::string label = std::string(call) + " " + set.name;
                        CALLGRIND_DUMP_STATS_AT(label.c_str());
                    }
                    if (at == results.size())
                        results.push_back({set.name, meter.calls, meter.rows, meter.answers});
                    Result &result = results[at++];
                    if (meter.answers != results[0].answers)
                        differ(std::string(call) + " of " + result.name + " at " + std::to_string(plan.n) + " words");
                    if (!counts && round > 0)
                        result.best = std::min(result.best, meter.median());
                }
            });
        }
        for (Result &result : results)
            printf("%s\t%s\t%zu\t%zu\t%zu\t%.0f\n", call, result.name.c_str(), plan.n, size_t(result.calls), size_t(result.rows),
                counts ? 0 : 1000 * result.best);
        fflush(stdout);
    }

    static constexpr auto all = [](auto &) { return std::true_type{}; };
    static constexpr auto tables = [](auto &set) { return std::bool_constant<std::decay_t<decltype(set)>::is_table>{}; };

    template <class Call, class Accepts> void reads(Accepts accepts, size_t calls)
    {
        row(Call::name, accepts, [&](auto &set, Meter &meter) {
            meter.unmetered<Call>(set, plan.asked.data(), calls);
            meter.metered<Call>(set, plan.asked.data(), calls);
        });
    }

    // `add` and `del` alternate; only `Call` is measured.
    template <class Call> void changes()
    {
        row(Call::name, all, [&](auto &set, Meter &meter) {
            set.build(plan.base, plan.n);
            for (auto &[adds, dels] : plan.batches) {
                Meter other;
                if constexpr (std::is_same_v<Call, Add>)
                    meter.metered<Add>(set, adds.data(), adds.size());
                else
                    other.unmetered<Add>(set, adds.data(), adds.size());
                if constexpr (std::is_same_v<Call, Del>)
                    meter.metered<Del>(set, dels.data(), dels.size());
                else
                    other.unmetered<Del>(set, dels.data(), dels.size());
            }
            if constexpr (std::decay_t<decltype(set)>::is_table) { // once more, to sum the rows
                set.build(plan.base, plan.n);
                for (auto &[adds, dels] : plan.batches) {
                    Meter other;
                    (std::is_same_v<Call, Add> ? meter : other).template unmetered<Add>(set, adds.data(), adds.size());
                    (std::is_same_v<Call, Del> ? meter : other).template unmetered<Del>(set, dels.data(), dels.size());
                }
            }
        });
    }

    void run()
    {
        each(sets, [&](auto &set) { set.build(plan.words, plan.n); });
        size_t calls = plan.asked.size(), whole = std::max<size_t>(2, calls / plan.n);
        reads<Has>(all, calls);
        reads<Next>(all, calls);
        reads<Prev>(all, calls);
        reads<Gap>(all, calls);
        reads<First>(all, calls);
        reads<Last>(all, calls);
        reads<List>(all, whole);
        reads<Audit>(tables, whole);
        changes<Add>();
        changes<Del>();
        reads<New>(tables, whole);
    }
};

// ---- Validation ----

static std::string said(const char *call, uint32_t k, uint32_t width, const char *name)
{
    return std::string(call) + " " + std::to_string(k) + " at width " + std::to_string(width) + ", " + name;
}

// Random calls on all sets at once, at one width and capacity.
static size_t compared(uint32_t width, size_t capacity, size_t calls, uint32_t seed)
{
    std::mt19937 random(seed);
    Sets sets;
    auto &proved = std::get<0>(sets);
    auto &plain = std::get<1>(sets);
    each(sets, [&](auto &set) { set.build({}, capacity, width); });
    uint32_t most = width == 32 ? UINT32_MAX : (1u << width) - 1;
    // draw from few different words, so that many are found
    Words words;
    while (words.size() < capacity * 2)
        words.push_back(random() & most);
    auto same = [&](auto call, uint32_t k) {
        using Call = decltype(call);
        uint32_t serial = random();
        Answer expected = Call::of(proved, k, serial);
        each(sets, [&](auto &set) {
            bool is_proved = static_cast<void *>(&set) == static_cast<void *>(&proved);
            if (!is_proved && !(Call::of(set, k, serial) == expected))
                differ(said(Call::name, k, width, set.name));
        });
        if (memcmp(&proved.reply, &plain.reply, sizeof(Reply)) != 0)
            differ(said(Call::name, k, width, "the replies of library and C"));
        if (proved.table != plain.table)
            differ(said(Call::name, k, width, "the tables of library and C"));
    };
    for (size_t i = 0; i < calls; i++) {
        uint32_t k = random() % 4 != 0 ? words[random() % words.size()] : random() & most;
        switch (random() % 12) {
        case 0: same(Has{}, k); break;
        case 1: same(Next{}, k); break;
        case 2: same(Prev{}, k); break;
        case 3: same(Gap{}, k); break;
        case 4: same(First{}, k); break;
        case 5: same(Last{}, k); break;
        case 6: case 7: case 8:
            if (proved.reply.count < capacity)
                same(Add{}, k);
            break;
        case 9: case 10: same(Del{}, k); break;
        default:
            if (!(proved.audit() == plain.audit()) || proved.reply.answer != DONE)
                differ(said("audit", 0, width, "library and C"));
            std::vector<Words> lists;
            each(sets, [&](auto &set) {
                List::to.assign(capacity, 0);
                List::to.resize(set.list(List::to));
                lists.push_back(List::to);
            });
            for (Words &list : lists)
                if (list != lists[0])
                    differ(said("list", 0, width, "a listing"));
            List::to.assign(65535, 0);
        }
    }
    return calls;
}

static void check()
{
    size_t calls = 0;
    for (uint32_t width : {1, 2, 3, 4, 5, 8, 13, 16, 24, 31, 32})
        for (size_t capacity : {1, 2, 3, 10, 100, 1000})
            calls += compared(width, capacity, capacity < 1000 ? 10000 : 4000, width * 1000 + capacity);
    printf("%zu calls compared\n", calls);
}

int main(int n, char **arguments)
{
    std::string mode = n > 1 ? arguments[1] : "";
    if (mode == "check" && n == 2)
        check();
    else if (mode == "time" && n == 4)
        Runner(atoi(arguments[2]), 65536, false, atoi(arguments[3])).run();
    else if (mode == "count" && n == 3)
        Runner(atoi(arguments[2]), 8192, true, 1).run();
    else
        return fprintf(stderr, "speed: check, time N ROUNDS or count N\n"), 2;
}

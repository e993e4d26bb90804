// Answers inputs mutated from good ones by the library and by the independent implementation, steered by what is new.
#include "comparison.hpp"
#include "mutations.hpp"
#include "steering.hpp"
#include "zompelgors.h"

#include <chrono>
#include <fstream>
#include <unistd.h>

namespace {

using steering::Kept;
using steering::Pool;
using steering::Seen;
using steering::Sizes;

// The jobs of the interface; behind them are the two programs.
constexpr unsigned functions = LEVELS;

// Seconds after which a call is taken not to come back; the longest takes some.
constexpr unsigned longest = 60;

// ---------------------------------------------------------------- good inputs

// Pyramids that are accepted, large ones apart since their calls take long.
struct Sources {
    std::vector<Pyramid> small, large;

    void add(const Pyramid& p) { (steering::is_large(p.darts) ? large : small).push_back(p); }

    // One of them, large ones seldom, more often for a job that makes no explicit level of them.
    const Pyramid& any(Random& r, job what) const
    {
        const bool climbs = std::strpbrk(case_forms[what], "TB") != nullptr;
        const auto& list = r.chance(climbs ? 1 : 5) ? large : small;
        return list[r.below(list.size())];
    }
};

// One that is accepted; now and then all that can go goes.
Pyramid small_pyramid(Random& r)
{
    const unsigned darts = r.chance(60) ? r.between(1, 24) : r.chance(80) ? r.between(16, 120) : r.between(100, 500);
    const unsigned h = random_height(r), percent = r.chance(15) ? 100 : r.between(3, h > 6 ? 15 : 60);
    return maps::random_pyramid(r, r.between(1, 4), darts, h, percent);
}

// With 4,096 darts, or 32 levels, or both.
void add_limits(Random& r, Sources& sources)
{
    for (unsigned n = 1; n <= 4; n++) {
        sources.add(maps::random_pyramid(r, n, 48, 32, 4));
        Pyramid p = maps::begin(maps::random_rows(r, n, 4096));
        maps::grow(r, p, n == 2 ? 32 : 3, n == 2 ? 2 : 20);
        sources.add(p);
    }
}

// The pyramid of a record, with its explicit levels.
bool add_record(const std::string& name, Sources& sources)
{
    std::ifstream in(name, std::ios::binary);
    const auto held = mutations::held_by(Bytes(std::istreambuf_iterator<char>(in), {}));
    if (!held)
        return false;
    Pyramid p{held->n, held->darts, held->h, held->rows, held->lambda, held->delta, {}};
    for (unsigned level = 0; level <= p.h; level++)
        if (const auto m = mutations::level_of(*held, level))
            p.levels.push_back(*m);
    sources.add(p);
    return p.levels.size() == p.h + 1;
}

// A good pyramid as a job is lent it; for one that takes a record, in one.
Case lent_to(Random& r, job what, const Pyramid& source)
{
    Case c = undamaged_case(r, what, source);
    if (what == TAKE) {
        std::vector<std::size_t> starts;
        c.bytes = record_of(c, false, starts);
        lend_for_record(r, c);
    }
    drop_the_rest(c);
    return c;
}

// The pyramid that a case lends or that its record holds, if its sizes and lengths are good.
std::optional<Pyramid> pyramid_of(const Case& c)
{
    const auto held = c.what == TAKE ? mutations::held_by(c.bytes) : std::optional<Case>(c);
    if (!held || !mutations::has_pyramid(*held))
        return {};
    return Pyramid{held->n, held->darts, held->h, held->rows, held->lambda, held->delta, {}};
}

// ---------------------------------------------------------------- the run

// What came of a job's inputs.
struct Count {
    unsigned long inputs = 0, classes = 0, met[numbers] = {};
};

// All that a run knows; the same seed makes the same run.
class Run {
public:
    explicit Run(std::uint64_t seed) : r(seed) {}

    // Makes the good inputs; false if a file isn't one.
    bool begin(int files, char** names)
    {
        for (int k = 0; k < files; k++)
            if (!add_record(names[k], sources)) {
                std::fprintf(stderr, "not the record of a pyramid that is accepted: %s\n", names[k]);
                return false;
            }
        add_limits(r, sources);
        while (sources.small.size() < 100)
            sources.add(small_pyramid(r));
        return true;
    }

    // One mutated input; false if the library answers otherwise.
    bool step()
    {
        if (inputs % 100 == 0) {
            sources.small[r.below(sources.small.size())] = small_pyramid(r);
            if (!same_version())
                return false;
        }
        const job what = job(r.below(functions));
        Kept* parent = nullptr;
        Case c = draw(what, parent);
        const Case nothing;
        mutations::change(r, c, pools[what].empty() ? nothing : pools[what].any(r));
        return answer(c, parent);
    }

    unsigned long calls() const { return versions + inputs * PLACES; }
    void print() const;

private:
    // A good input, one of the pool, or what one of another job's pool lends, asked for by this job.
    Case draw(job what, Kept*& parent)
    {
        Pool &own = pools[what], &others = pools[r.below(functions)];
        if (own.empty() || others.empty() || r.chance(40))
            return lent_to(r, what, sources.any(r, what));
        if (r.chance(80)) {
            parent = &own.choose(r);
            return parent->input;
        }
        const auto p = pyramid_of(others.any(r));
        return lent_to(r, what, p ? *p : sources.any(r, what));
    }

    // Both answers, the library's in each place.
    bool answer(const Case& c, Kept* parent)
    {
        current = &c;
        alarm(longest);
        Case after = c;
        const Answer a = answer_independently(after);
        bool agrees = true;
        for (unsigned k = 0; k < PLACES && agrees; k++) {
            call_place = place(k);
            agrees = library_agrees(c, after, a);
        }
        current = nullptr;
        inputs++;
        differences += !agrees;
        note(c, a, parent);
        return agrees;
    }

    // Counts the answer, and keeps the input if it is new.
    void note(const Case& c, const Answer& a, Kept* parent)
    {
        const Sizes s = steering::sizes_of(c);
        large += s.darts >= 1000 && s.darts <= 4096;
        largest += s.darts == 4096;
        highest += s.h == 32;
        Count& count = counts[c.what];
        count.inputs++;
        count.met[number_of(c, a)]++;
        const unsigned news = seen.add(c, a);
        count.classes += news;
        if (!news)
            return;
        if (parent)
            parent->brought++;
        if (a.refusal.number == 0 || a.refusal.number > 4)
            pools[c.what].keep(c);
    }

    bool same_version()
    {
        versions++;
        const bool same = zg_version() == ZG_VERSION;
        if (!same)
            std::printf("zg_version() is not ZG_VERSION\n");
        differences += !same;
        return same;
    }

    Random r;
    Sources sources;
    Pool pools[functions];
    Seen seen;
    Count counts[functions];
    unsigned long inputs = 0, versions = 0, differences = 0, large = 0, largest = 0, highest = 0;
};

// A job's line: how often it was asked, and each number that it gave.
void print_job(const char* name, const Count& count)
{
    std::printf("%-10s %8lu %8lu %6lu ", name, count.inputs, count.met[0], count.classes);
    for (unsigned x = 1; x < numbers; x++)
        if (count.met[x])
            std::printf(" %u:%lu", x, count.met[x]);
    std::printf("\n");
}

// Names the numbers that the header says a job can give and that never came.
unsigned long say_never_met(job what, const Count& count)
{
    unsigned long never = 0;
    for (const unsigned x : possible[what])
        if (!count.met[x]) {
            std::printf("never met: %s %u\n", job_names[what], x);
            never++;
        }
    return never;
}

void Run::print() const
{
    unsigned long classes = 0, never = 0;
    std::printf("%-10s %8s %8s %6s  refused, number:inputs\n", "job", "inputs", "accepted", "new");
    for (unsigned j = 0; j < functions; j++) {
        print_job(job_names[j], counts[j]);
        classes += counts[j].classes;
    }
    std::printf("%-10s %8lu calls\n", "version", versions);
    for (unsigned j = 0; j < functions; j++)
        never += say_never_met(job(j), counts[j]);
    std::printf("inputs with 1,000 darts or more: %lu, with 4,096: %lu, with 32 levels: %lu\n", large, largest,
                highest);
    std::printf("%lu inputs, %lu calls, %lu new answers, %lu numbers never met, %lu differences\n", inputs, calls(),
                classes, never, differences);
}

// Runs until the time is over or so many calls are made, or until an answer differs.
int mutate(unsigned long seconds, unsigned long most_calls, std::uint64_t seed, int files, char** names)
{
    using Clock = std::chrono::steady_clock;
    const auto end = Clock::now() + std::chrono::seconds(seconds);
    std::printf("seed %llu\n", (unsigned long long)seed);
    std::fflush(stdout);
    say_case_of_faults();
    Run run(seed);
    if (!run.begin(files, names))
        return 2;
    bool good = true;
    while (good && (most_calls ? run.calls() < most_calls : Clock::now() < end))
        good = run.step();
    run.print();
    return !good;
}

} // namespace

int main(int argc, char** argv)
{
    const bool seconds = argc >= 4 && !std::strcmp(argv[1], "--seconds");
    const bool calls = argc >= 4 && !std::strcmp(argv[1], "--calls");
    if (!seconds && !calls) {
        std::fprintf(stderr, "mutate --seconds SECONDS SEED RECORD.. | mutate --calls CALLS SEED RECORD..\n");
        return 2;
    }
    const unsigned long limit = std::strtoul(argv[2], nullptr, 10);
    return mutate(seconds ? limit : 0, calls ? limit : 0, std::strtoull(argv[3], nullptr, 10), argc - 4, argv + 4);
}

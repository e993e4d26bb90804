// Looks for dear inputs of every job, and holds each call to its bound and to the lines of the table: known inputs, random
// ones, then a climb from the dearest by small changes, for a given time. tests/call.c is compiled with counted.h, so that
// the plug-in edges.c counts each call.
#include "judge.hpp"
#include "grown.hpp"

#include <ctime>

int count_reading, count_writing;

namespace {

judge::Plan plan;

// Seconds of processor time of this program so far, and when what is run now has had its share.
double spent() { return double(std::clock()) / CLOCKS_PER_SEC; }
double share_ends = 0;

// ---------------------------------------------------------------- one call, and the facts that its bound is of

// Darts with Lambda below a level, 0 where Lambda hasn't its length.
unsigned gone(const Case& c, unsigned level)
{
    if (c.lambda.size() != c.darts)
        return 0;
    return unsigned(std::count_if(c.lambda.begin(), c.lambda.end(), [&](unsigned l) { return l < level; }));
}

// Darts that are gone above the last kernel, that of a mark row too; of a reading or unfolding those gone from its level.
std::size_t gone_at_last(const Case& c)
{
    const auto marked = [&](unsigned mark) { return mark != ZG_STAY; };
    if (c.what == READ || c.what == BY_LEVELS || c.what == UNFOLD)
        return gone(c, c.level);
    return gone(c, c.h) + (c.what == ADD ? std::count_if(c.marks.begin(), c.marks.end(), marked) : 0);
}

// The survivors of all levels together.
unsigned long all_survivors(const Case& c)
{
    unsigned long all = 0;
    for (unsigned level = 0; level <= c.h && c.h <= 32; level++)
        all += c.darts - gone(c, level);
    return all;
}

// Base entries that the walks read: the count that is returned, or where they are refused the most that is proved.
double reads(const Case& c, const Answer& a)
{
    const double most = 1.0 + 2.0 * c.darts;
    const bool refused = a.refusal.number != 0;
    switch (c.what) {
    case READ:
    case BY_LEVELS: return refused ? most : a.found[1];
    case UNFOLD: return refused ? (c.n + 1.0) * c.darts * most : a.found[0];
    default: return 0;
    }
}

// A record tells n, h, N and Lambda itself, as far as it goes.
void read_record(Case& c)
{
    const bool header = c.bytes.size() >= 7;
    c.n = header ? c.bytes[3] : 0;
    c.h = header ? c.bytes[4] : 0;
    c.darts = header ? c.bytes[5] + 256u * c.bytes[6] : 0;
    const std::size_t at = 7 + (c.n + 1) * (3 + std::size_t(2) * c.darts) + 3;
    c.lambda.clear();
    if (at + c.darts <= c.bytes.size())
        c.lambda.assign(c.bytes.begin() + long(at), c.bytes.begin() + long(at + c.darts));
}

// Is it a call of an accepted pyramid that answers 0? An unfolding may answer 0 on tables that no check accepts.
bool accepted(const Case& c, const Answer& a)
{
    if (a.refusal.number || c.what != UNFOLD)
        return !a.refusal.number;
    Entries table(c.rows.size());
    return !plain_check(std::uint8_t(c.n), std::uint16_t(c.darts), std::uint8_t(c.h), c.rows.data(), c.rows.size(),
                        c.lambda.data(), c.lambda.size(), c.delta.data(), c.delta.size(), table.data(), table.size())
                .number;
}

// A call, held to its bound and to the lines; none any more where the share of time is used up.
judge::Kept run(const char* group, const Case& c)
{
    if (spent() > share_ends)
        return {};
    Case asked = c, lent = c;
    if (c.what == TAKE)
        read_record(asked);
    const Answer a = answer_by_library(lent);
    const judge::Facts f{double(asked.n),     double(asked.darts), double(asked.h),          double(asked.level),
                         double(gone_at_last(asked)), reads(asked, a),     double(all_survivors(asked))};
    return judge::hold(plan, job_names[c.what], group, f, accepted(c, a) ? 0 : std::max(a.refusal.number, 1u));
}

// What begins now, and the processor time that it may take.
void begin(const char* what, double seconds)
{
    share_ends = spent() + seconds;
    std::fprintf(stderr, "search: %s, after %.0f s, for %.0f s at most\n", what, spent(), seconds);
}

void run_version()
{
    if (zg_version() == ZG_VERSION)
        judge::hold(plan, "version", "bench", {}, 0);
}

// ---------------------------------------------------------------- every job on one pyramid

const job whole_pyramid[] = {CHECK_BASE, CHECK,      MARKS,  UNFOLD,  ROW,  SURVIVORS, TAKE,
                             WRITE,      DECIMATION, CENSUS, REGIONS, JOIN, REBASE, UNFOLD_ALL};

// Whether a reading, of a dart on the level, goes through another that is gone.
bool passes(const Pyramid& p, const Case& asked)
{
    const unsigned met = p.rows[asked.involution * p.darts + asked.dart];
    return p.lambda[asked.dart] >= asked.level && p.lambda[met] < asked.level;
}

// At most six readings by each involution: of darts whose walk passes a dart, and of some others.
void ask_readings(const char* group, job what, const Pyramid& p, unsigned level)
{
    Case c = dear::lend(what, p, level);
    for (c.involution = 0; c.involution <= p.n; c.involution++) {
        unsigned asked = 0;
        for (c.dart = 0; c.dart < p.darts && asked < 6; c.dart++)
            if (passes(p, c) || c.dart % (p.darts / 2 + 1) == 0) {
                run(group, c);
                asked++;
            }
    }
}

void run_levels(const char* group, job what, const Pyramid& p)
{
    const bool asked = std::strchr(case_forms[what], 'l') != nullptr;
    for (const unsigned level : {p.h, (p.h + 1) / 2, 0u}) {
        run(group, dear::lend(what, p, level));
        if (!asked)
            return;
    }
}

// A census of many levels is some fifty times as dear as a check: of large pyramids only some are asked for one.
bool short_census(const Pyramid& p) { return (p.h + 1) * p.darts < 20000 || (p.n == 4 && p.lambda[0] == p.h); }

void run_all(const char* group, const Pyramid& p)
{
    for (const job what : whole_pyramid)
        if (what != CENSUS || short_census(p))
            run_levels(group, what, p);
    run(group, dear::lend_add(p));
    for (const unsigned level : {(p.h + 1) / 2, p.h}) {
        ask_readings(group, READ, p, level);
        ask_readings(group, BY_LEVELS, p, level);
        for (unsigned dimension = 0; dimension < p.n; dimension++)
            run(group, dear::lend_level(p, level, dimension));
    }
}

// ---------------------------------------------------------------- refusals at the last place

void spoil_each(const Case& good)
{
    for (int what = 0; what < dear::LASTS; what++)
        if (dear::can_spoil(good, dear::Last(what))) {
            Case c = good;
            dear::spoil_last(c, dear::Last(what));
            run("last", c);
        }
}

// The record of a pyramid that is spoiled.
void spoil_record(const Pyramid& p, dear::Last what)
{
    Case c = dear::lend(CHECK, p, 0);
    if (!dear::can_spoil(c, what))
        return;
    dear::spoil_last(c, what);
    Pyramid spoiled = p;
    spoiled.rows = c.rows, spoiled.lambda = c.lambda, spoiled.delta = c.delta;
    run("last", dear::lend(TAKE, spoiled, 0));
}

void spoil_all(const Pyramid& p)
{
    for (const job what : whole_pyramid)
        spoil_each(dear::lend(what, p, p.h ? p.h - 1 : 0));
    spoil_each(dear::lend_add(p));
    spoil_each(dear::lend_level(p, 0, p.n - 1));
    for (int what = 0; what < dear::LASTS; what++)
        spoil_record(p, dear::Last(what));
}

// The partner's rows with a last entry that is too large, or that another dart has; a base whose last darts are named
// the other way round.
void spoil_partner(unsigned m)
{
    for (const unsigned entry : {m, m - 1, 0u}) {
        Case edges = dear::lend_import(m), vertices = edges;
        edges.edges.back() = vertices.vertices.back() = std::uint16_t(entry);
        run("last", edges);
        run("last", vertices);
    }
    Case c = dear::lend_export(m);
    spoil_each(c);
    for (auto& entry : c.rows)
        entry = entry / 2 == m - 1 ? entry ^ 1 : entry;
    for (std::size_t end = 2 * m; end <= c.rows.size(); end += 2 * m)
        std::swap(c.rows[end - 1], c.rows[end - 2]);
    run("last", c);
}

// ---------------------------------------------------------------- known inputs, and random ones

void run_bench(const char* group, std::initializer_list<const char*> names)
{
    for (const char* name : names) {
        const Pyramid p = dear::of_bench(name);
        run_all(group, p);
        spoil_all(p);
    }
}

void run_adversarial(const Pyramid& p)
{
    run_all("adversarial", p);
    if (p.darts < dear::most_darts)
        spoil_all(p);
}

void run_rings(unsigned n, unsigned darts)
{
    const unsigned marks[] = {n - 1, independent::contracted + 1};
    for (const Pyramid& p : {dear::ring(n, darts), dear::alone(n, darts)}) {
        run_adversarial(p);
        run_adversarial(dear::empty_kernels(p));
        for (const unsigned mark : marks)
            for (const auto which : {dear::ALL, dear::ALL_BUT_ONE, dear::EVERY_OTHER})
                if (darts < dear::most_darts || which == dear::ALL_BUT_ONE)
                    run_adversarial(dear::taken_out(p, mark, which));
    }
}

void run_paths(unsigned darts)
{
    for (const bool falling : {false, true})
        run_adversarial(dear::path_by_kernels(darts, falling));
    for (const auto which : {dear::ALL_BUT_ONE, dear::EVERY_OTHER})
        run_adversarial(dear::taken_out(dear::path(darts), 0, which));
    run_adversarial(dear::contracted_last(darts));
    const Pyramid way = dear::shared_way(darts);
    spoil_each(dear::lend(UNFOLD, way, 1));
    run("adversarial", dear::lend(UNFOLD, way, 1));
    ask_readings("adversarial", READ, way, 1);
    ask_readings("adversarial", BY_LEVELS, way, 1);
}

void run_partner(unsigned m)
{
    run("bench", dear::lend_import(m));
    run("bench", dear::lend_export(m));
    spoil_partner(m);
}

void run_witnesses()
{
    for (const dear::Witness& w : dear::witnesses())
        run_all(w.name, w.pyramid);
}

// Jobs are drawn alike. The programs among them are left out: what they do is in the jobs that they call.
void run_random(Random& r, unsigned long cases_a_job)
{
    constexpr unsigned cases_a_source = 24;
    Pyramid source;
    for (unsigned long done = 0; done < cases_a_job * JOBS && spent() < share_ends; done++) {
        if (done % cases_a_source == 0)
            source = random_source(r);
        const Case c = random_case(r, source);
        if (c.what != LEVELS && c.what != CENSUS_PROGRAM)
            run("random", c);
    }
}

void run_known()
{
    run_version();
    for (const unsigned m : {1u, 2u, 31u, 61u, 256u, dear::most_darts / 2})
        run_partner(m);
    run_witnesses();
    run_bench("bench", {"grid2", "grid3", "path32", "grid4", "strip", "voxels", "cycle", "vertex"});
    run_bench("contraction", {"both1", "both2", "both3", "both4"});
    for (const unsigned darts : {2u, 64u, dear::most_darts}) {
        for (unsigned n = darts < dear::most_darts ? 1 : 4; n <= 4; n++)
            run_rings(n, darts);
        run_paths(darts);
    }
}

// ---------------------------------------------------------------- the climb

// An input that a job was asked, and how dear it was.
struct Tried {
    double worth = 0;
    grown::Input input;
};

// What is sought: calls near their bound, and calls that take most.
enum Aim { NEAR, MUCH, AIMS };

// The best inputs of a job by each aim, and the time that was spent on it.
struct Climb {
    job what;
    std::vector<Tried> best[AIMS];
    double seconds = 0;
};

constexpr std::size_t kept_inputs = 8;

Case case_of(job what, const grown::Input& in)
{
    const Pyramid p = grown::assembled(in);
    const unsigned level = p.h - std::min(p.h, in.level);
    if (what == ADD)
        return dear::lend_add(p);
    if (what == MARK)
        return dear::lend_level(p, level, in.involution % p.n);
    Case c = dear::lend(what, p, level);
    c.involution = in.involution % (p.n + 1);
    c.dart = in.dart % p.darts;
    return c;
}

void keep_best(std::vector<Tried>& best, double worth, const grown::Input& in)
{
    if (best.size() == kept_inputs && best.back().worth >= worth)
        return;
    if (best.size() == kept_inputs)
        best.pop_back();
    const auto at = std::find_if(best.begin(), best.end(), [&](const Tried& t) { return t.worth < worth; });
    best.insert(at, Tried{worth, in});
}

// One input of a job. A level can be marked only where a pyramid is good.
void try_input(Climb& climb, const grown::Input& in)
{
    const double start = spent();
    try {
        const judge::Kept found = run("climb", case_of(climb.what, in));
        keep_best(climb.best[NEAR], found.part(), in);
        keep_best(climb.best[MUCH], found.count, in);
    } catch (const std::logic_error&) {
    }
    climb.seconds += spent() - start;
}

void take_step(Random& r, Climb& climb)
{
    const auto& best = climb.best[r.below(AIMS)];
    if (best.empty() || r.chance(15)) {
        try_input(climb, grown::drawn(r));
        return;
    }
    grown::Input in = best[r.below(best.size())].input;
    for (unsigned times = r.between(1, 3); times; times--)
        grown::change(r, in);
    if (grown::darts_of(in) <= dear::most_darts)
        try_input(climb, in);
}

// Until the share of time is used up; always a step of the job that had the least of it.
void run_climbs(Random& r)
{
    std::vector<Climb> climbs;
    for (const job what : whole_pyramid)
        climbs.push_back({what, {}, 0});
    for (const job what : {ADD, READ, BY_LEVELS, MARK})
        climbs.push_back({what, {}, 0});
    const auto known = dear::witnesses();
    for (std::size_t k = 0; k < 5; k++)
        for (Climb& climb : climbs)
            if (climb.what != CENSUS)
                try_input(climb, {{{known[k].pyramid, 1}}, false, 0, 0, 0, 0});
    while (spent() < share_ends) {
        const auto least = [](const Climb& x, const Climb& y) { return x.seconds < y.seconds; };
        take_step(r, *std::min_element(climbs.begin(), climbs.end(), least));
    }
}

} // namespace

int main(int argc, char** argv)
{
    int ends[2];
    if (argc != 5 || pipe(ends)) {
        std::fprintf(stderr, "search PLAN SEED CASES SECONDS\n");
        return 2;
    }
    count_reading = ends[0], count_writing = ends[1];
    plan = judge::read_plan(argv[1]);
    Random r(std::strtoull(argv[2], nullptr, 10));
    const double seconds = std::strtod(argv[4], nullptr);
    begin("known inputs", 0.5 * seconds);
    run_known();
    begin("random inputs", 0.2 * seconds);
    run_random(r, std::strtoul(argv[3], nullptr, 10));
    begin("climb", seconds - spent());
    run_climbs(r);
    return judge::print_found(plan) ? 0 : 1;
}

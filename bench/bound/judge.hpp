// Holds each counted call to its bound and to every line of the table, and keeps the nearest and the dearest of each job.
//
// The plan is what bound.py prints: the edges of the graph, and for each job its bounds and the lines that its calls are
// held to. What the plug-in counted of a call comes back by a pipe.
#ifndef JUDGE_HPP
#define JUDGE_HPP

#include "dear.hpp"
#include "counted.h"

#include <fstream>
#include <map>
#include <set>
#include <unistd.h>

namespace judge {

// ---------------------------------------------------------------- what bounds are made of

// The facts of a call; N is M for an import.
struct Facts {
    double n = 0, N = 0, h = 0, level = 0, gone = 0, reads = 0, survivors = 0;
};

struct Unit {
    const char* name;
    double (*of)(const Facts&);
};

// As UNITS in table.py.
const Unit units[] = {
    {"1", [](const Facts&) { return 1.0; }},
    {"h", [](const Facts& f) { return f.h; }},
    {"N", [](const Facts& f) { return f.N; }},
    {"(n+1)N", [](const Facts& f) { return (f.n + 1) * f.N; }},
    {"pN", [](const Facts& f) { return f.n * (f.n - 1) / 2 * f.N; }},
    {"g", [](const Facts& f) { return f.gone; }},
    {"(n+1)g", [](const Facts& f) { return (f.n + 1) * f.gone; }},
    {"reads", [](const Facts& f) { return f.reads; }},
    {"l", [](const Facts& f) { return f.level; }},
    {"(l+1)reads", [](const Facts& f) { return (f.level + 1) * f.reads; }},
    {"hh", [](const Facts& f) { return f.h * (f.h + 1) / 2; }},
    {"(h+1)(n+1)", [](const Facts& f) { return (f.h + 1) * (f.n + 1); }},
    {"(h+1)N", [](const Facts& f) { return (f.h + 1) * f.N; }},
    {"(h+1)(n+1)N", [](const Facts& f) { return (f.h + 1) * (f.n + 1) * f.N; }},
    {"s", [](const Facts& f) { return f.survivors; }},
    {"(n+1)s", [](const Facts& f) { return (f.n + 1) * f.survivors; }},
    {"n(n+1)s", [](const Facts& f) { return f.n * (f.n + 1) * f.survivors; }},
    {"(n+1)(n+1)s", [](const Facts& f) { return (f.n + 1) * (f.n + 1) * f.survivors; }},
};

// A sum of units, as the plan has it: UNIT=NUMBER ..
struct Sum {
    std::vector<std::pair<const Unit*, double>> parts;

    double of(const Facts& f) const
    {
        double sum = 0;
        for (const auto& [unit, times] : parts)
            sum += times * unit->of(f);
        return sum;
    }
};

[[noreturn]] inline void stop(const std::string& what)
{
    std::fprintf(stderr, "search: %s\n", what.c_str());
    std::exit(2);
}

inline void add_part(Sum& sum, const std::string& word)
{
    const auto at = word.rfind('=');
    for (const Unit& unit : units)
        if (word.substr(0, at) == unit.name) {
            sum.parts.push_back({&unit, std::strtod(word.c_str() + at + 1, nullptr)});
            return;
        }
    stop("no such unit: " + word);
}

// ---------------------------------------------------------------- the plan

// A line of the table: its number there, its limit, and the edges that it counts.
struct Line {
    unsigned number = 0;
    bool accepted = false; // of calls that are accepted alone
    Sum limit;
    std::vector<std::pair<std::uint32_t, double>> edges;
    double most = 0; // the largest part of its limit that a call came to
};

// A call that is kept: what it took, its bound, and what it was.
struct Kept {
    double count = 0, bound = 1;
    std::string what;

    double part() const { return count / bound; }
};

struct Job {
    std::string name;
    Sum any, accepted;
    std::vector<Line> lines;
    unsigned long calls = 0, refused = 0, over = 0, broken = 0;
    Kept nearest, nearest_refused, dearest;
    double most_library = 0; // instructions of the C library's functions, in one call
};

struct Plan {
    std::map<std::string, Job> jobs; // by the names of job_names
    std::set<std::uint32_t> edges;
    std::vector<std::string> order;
};

constexpr std::uint32_t blocks = 4096; // as in edges.c

inline std::uint32_t edge_number(const std::string& word)
{
    const auto at = word.find('-');
    return std::uint32_t(std::stoul(word.substr(0, at)) * blocks + std::stoul(word.substr(at + 1)));
}

inline Line read_line(std::istringstream& in, bool accepted)
{
    Line line;
    std::string word;
    line.accepted = accepted;
    in >> line.number;
    while (in >> word && word != ":")
        add_part(line.limit, word);
    while (in >> word) {
        const auto at = word.find('*');
        line.edges.push_back({edge_number(word.substr(at + 1)), std::stod(word.substr(0, at))});
    }
    return line;
}

inline Plan read_plan(const char* name)
{
    Plan plan;
    std::ifstream file(name);
    std::string text, verb, word;
    Job* job = nullptr;
    while (std::getline(file, text)) {
        std::istringstream in(text);
        in >> verb;
        if (verb == "edges")
            while (in >> word)
                plan.edges.insert(edge_number(word));
        else if (verb == "job") {
            in >> word;
            plan.order.push_back(word);
            job = &plan.jobs[word];
            in >> job->name;
        } else if (verb == "any" || verb == "accepted")
            while (in >> word)
                add_part(verb == "any" ? job->any : job->accepted, word);
        else if (verb == "line" || verb == "accepted-line")
            job->lines.push_back(read_line(in, verb == "accepted-line"));
        else
            stop("not a plan: " + text);
    }
    if (plan.jobs.empty())
        stop(std::string("no plan in ") + name);
    return plan;
}

// ---------------------------------------------------------------- what the plug-in counted

struct Counted {
    std::uint64_t own = 0, all = 0;
    std::map<std::uint32_t, std::uint32_t> edges;
};

inline void take_in(void* to, std::size_t bytes)
{
    for (char* at = static_cast<char*>(to); bytes;) {
        const ssize_t got = read(count_reading, at, bytes);
        if (got <= 0)
            stop("nothing was counted: is the plug-in there?");
        at += got;
        bytes -= std::size_t(got);
    }
}

inline Counted counted()
{
    std::uint64_t head[3];
    take_in(head, sizeof head);
    std::vector<std::array<std::uint32_t, 2>> taken(head[2]);
    take_in(taken.data(), taken.size() * sizeof taken[0]);
    Counted c{head[0], head[1], {}};
    for (const auto& [edge, times] : taken)
        c.edges[edge] = times;
    return c;
}

// ---------------------------------------------------------------- one call

inline std::string told(const char* group, const Facts& f, unsigned number)
{
    char text[200];
    std::snprintf(text, sizeof text, "%s refused=%u n=%.0f N=%.0f h=%.0f l=%.0f g=%.0f reads=%.0f s=%.0f", group, number, f.n,
                  f.N, f.h, f.level, f.gone, f.reads, f.survivors);
    return text;
}

inline void keep(Kept& kept, bool better, const Kept& now)
{
    if (better)
        kept = now;
}

// Says what is wrong with a call: an edge that the graph hasn't, a line that doesn't hold, a bound exceeded.
inline void hold_to_lines(Plan& plan, Job& job, const Counted& c, const Facts& f, const Kept& now, bool accepted)
{
    for (const auto& [edge, times] : c.edges)
        if (!plan.edges.count(edge)) {
            job.broken++;
            std::printf("wrong %s takes an edge that the graph hasn't, %u-%u: %s\n", job.name.c_str(), edge / blocks,
                        edge % blocks, now.what.c_str());
        }
    for (Line& line : job.lines) {
        if (line.accepted && !accepted)
            continue;
        double have = 0;
        for (const auto& [edge, times] : line.edges)
            if (const auto at = c.edges.find(edge); at != c.edges.end())
                have += times * at->second;
        const double limit = line.limit.of(f);
        line.most = std::max(line.most, limit > 0 ? have / limit : have);
        if (have > limit) {
            job.broken++;
            std::printf("wrong %s breaks line %u of loops.table, %.0f of %.0f: %s\n", job.name.c_str(), line.number, have,
                        limit, now.what.c_str());
        }
    }
}

// How near the call comes to its bound, for a search to climb by.
inline Kept hold(Plan& plan, const char* name, const char* group, const Facts& f, unsigned number)
{
    const Counted c = counted();
    Job& job = plan.jobs.at(name);
    const bool accepted = number == 0;
    const Kept now{double(c.own), accepted ? job.accepted.of(f) : job.any.of(f), told(group, f, number)};
    job.calls++;
    job.refused += !accepted;
    hold_to_lines(plan, job, c, f, now, accepted);
    if (now.count > now.bound + 1e-6) {
        job.over++;
        std::printf("wrong %s takes %.0f of %.0f: %s\n", job.name.c_str(), now.count, now.bound, now.what.c_str());
    }
    Kept& nearest = accepted ? job.nearest : job.nearest_refused;
    keep(nearest, now.part() > nearest.part(), now);
    keep(job.dearest, accepted && now.count > job.dearest.count, now);
    job.most_library = std::max(job.most_library, double(c.all) - double(c.own));
    return now;
}

// ---------------------------------------------------------------- what was found

inline void print_kept(const char* word, const Job& job, const Kept& k)
{
    if (k.count > 0)
        std::printf("%s %s count=%.0f bound=%.2f group=%s\n", word, job.name.c_str(), k.count, k.bound, k.what.c_str());
}

// Whether nothing was wrong.
inline bool print_found(const Plan& plan)
{
    bool right = true;
    for (const auto& name : plan.order) {
        const Job& job = plan.jobs.at(name);
        std::printf("calls %s calls=%lu refused=%lu over=%lu broken=%lu library=%.0f\n", job.name.c_str(), job.calls,
                    job.refused, job.over, job.broken, job.most_library);
        print_kept("nearest", job, job.nearest);
        print_kept("refused", job, job.nearest_refused);
        print_kept("dearest", job, job.dearest);
        for (const Line& line : job.lines)
            std::printf("line %s number=%u most=%.4f\n", job.name.c_str(), line.number, line.most);
        right = right && !job.over && !job.broken;
    }
    return right;
}

} // namespace judge

#endif

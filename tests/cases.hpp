// Cases and their answers: read, written, and answered by the independent implementation or through the interface.
#ifndef CASES_HPP
#define CASES_HPP

#include "call.h"
#include "independent.hpp"

#include <array>
#include <cstdio>
#include <cstdlib>
#include <iomanip>
#include <sstream>
#include <string>
#include <type_traits>

using independent::Bytes;
using independent::Counts;
using independent::Entries;
using independent::Refusal;
using independent::Sums;
using independent::Words;

// What is lent and asked, as in struct call; after an answer the buffers hold what was left in them.
struct Case {
    job what = CHECK_BASE;
    unsigned n = 0, darts = 0, h = 0, level = 0, involution = 0, dart = 0;
    Entries rows, table, cells, edges, vertices, names, old, tables;
    Bytes lambda, delta, marks, bytes, since;
    Words words;
    Sums sums;
    Counts counts;
};

inline bool same_lent(const Case& x, const Case& y)
{
    return x.rows == y.rows && x.table == y.table && x.lambda == y.lambda && x.delta == y.delta &&
           x.marks == y.marks && x.bytes == y.bytes && x.words == y.words && x.cells == y.cells && x.sums == y.sums &&
           x.edges == y.edges && x.vertices == y.vertices && x.names == y.names && x.old == y.old &&
           x.tables == y.tables && x.counts == y.counts && x.since == y.since;
}

struct Answer {
    Refusal refusal;
    std::array<unsigned, 3> found{};
    unsigned founds = 0;
    std::uint64_t factor = 0;
    std::string text;
};

inline bool same_answer(const Answer& x, const Answer& y)
{
    const Refusal &r = x.refusal, &s = y.refusal;
    return r.number == s.number && r.level == s.level && r.involution == s.involution && r.dart == s.dart &&
           x.founds == y.founds && x.found == y.found && x.factor == y.factor && x.text == y.text;
}

// ---------------------------------------------------------------- the vectors' format

// An entry as it is read and printed: a number, also where it is a byte.
template <class List>
using Printed = std::conditional_t<std::is_signed_v<typename List::value_type>, long long, unsigned long long>;

template <class List> void read_list(std::istream& in, List& list)
{
    std::size_t length = 0;
    in >> length;
    list.resize(length);
    for (auto& entry : list) {
        Printed<List> v = 0;
        in >> v;
        entry = static_cast<typename List::value_type>(v);
    }
}

template <class List> void write_list(std::ostream& out, const List& list)
{
    out << ' ' << list.size();
    for (const auto entry : list)
        out << ' ' << static_cast<Printed<List>>(entry);
}

inline void read_item(std::istream& in, Case& c, char item)
{
    switch (item) {
    case 'n': in >> c.n; break;
    case 'D': in >> c.darts; break;
    case 'h': in >> c.h; break;
    case 'l': in >> c.level; break;
    case 'i': in >> c.involution; break;
    case 'd': in >> c.dart; break;
    case 'R': read_list(in, c.rows); break;
    case 'T': read_list(in, c.table); break;
    case 'L': read_list(in, c.lambda); break;
    case 'E': read_list(in, c.delta); break;
    case 'M': read_list(in, c.marks); break;
    case 'B': read_list(in, c.bytes); break;
    case 'W': read_list(in, c.words); break;
    case 'C': read_list(in, c.cells); break;
    case 'S': read_list(in, c.sums); break;
    case 'P': read_list(in, c.edges); break;
    case 'V': read_list(in, c.vertices); break;
    case 'N': read_list(in, c.names); break;
    case 'O': read_list(in, c.old); break;
    case 'A': read_list(in, c.tables); break;
    case 'K': read_list(in, c.counts); break;
    case 'G': read_list(in, c.since); break;
    }
}

inline void write_item(std::ostream& out, const Case& c, char item)
{
    switch (item) {
    case 'n': out << ' ' << c.n; break;
    case 'D': out << ' ' << c.darts; break;
    case 'h': out << ' ' << c.h; break;
    case 'l': out << ' ' << c.level; break;
    case 'i': out << ' ' << c.involution; break;
    case 'd': out << ' ' << c.dart; break;
    case 'R': write_list(out, c.rows); break;
    case 'T': write_list(out, c.table); break;
    case 'L': write_list(out, c.lambda); break;
    case 'E': write_list(out, c.delta); break;
    case 'M': write_list(out, c.marks); break;
    case 'B': write_list(out, c.bytes); break;
    case 'W': write_list(out, c.words); break;
    case 'C': write_list(out, c.cells); break;
    case 'S': write_list(out, c.sums); break;
    case 'P': write_list(out, c.edges); break;
    case 'V': write_list(out, c.vertices); break;
    case 'N': write_list(out, c.names); break;
    case 'O': write_list(out, c.old); break;
    case 'A': write_list(out, c.tables); break;
    case 'K': write_list(out, c.counts); break;
    case 'G': write_list(out, c.since); break;
    }
}

inline Case read_case(const std::string& line)
{
    std::istringstream in(line);
    std::string name;
    in >> name;
    int which = 0;
    while (which < JOBS && name != job_names[which])
        which++;
    Case c;
    if (which < JOBS)
        c.what = job(which);
    for (const char* item = case_forms[c.what]; *item; item++)
        read_item(in, c, *item);
    if (which == JOBS || !in) {
        std::fprintf(stderr, "not a case: %.60s\n", line.c_str());
        std::exit(2);
    }
    return c;
}

inline std::string case_line(const Case& c)
{
    std::ostringstream out;
    out << job_names[c.what];
    for (const char* item = case_forms[c.what]; *item; item++)
        write_item(out, c, *item);
    return out.str();
}

inline std::string answer_line(const Case& after, const Answer& a)
{
    if (after.what == LEVELS || after.what == CENSUS_PROGRAM)
        return a.text;
    std::ostringstream out;
    const Refusal& r = a.refusal;
    out << r.number << ' ' << r.level << ' ' << r.involution << ' ' << r.dart;
    for (unsigned k = 0; k < a.founds; k++)
        out << ' ' << a.found[k];
    for (const char* item = answer_forms[after.what]; *item; item++)
        if (*item == 'F')
            out << ' ' << std::hex << std::setw(16) << std::setfill('0') << a.factor << std::dec;
        else
            write_item(out, after, *item);
    return out.str();
}

// ---------------------------------------------------------------- the independent answer

inline void found(Answer& a, unsigned x, unsigned y = 0, unsigned z = 0) { a.found = {x, y, z}; }

inline void answer_or_throw(Case& c, Answer& a)
{
    namespace by = independent;
    switch (c.what) {
    case CHECK_BASE: by::check_base(c.n, c.darts, c.rows); break;
    case CHECK: by::check(c.n, c.darts, c.h, c.rows, c.lambda, c.delta, c.table); break;
    case ADD: found(a, by::add(c.n, c.darts, c.h, c.rows, c.lambda, c.delta, c.marks, c.table)); break;
    case MARKS: by::marks(c.n, c.darts, c.h, c.lambda, c.delta, c.level, c.marks); break;
    case READ: {
        const auto r = by::read(c.n, c.darts, c.h, c.rows, c.lambda, c.delta, c.level, c.involution, c.dart);
        found(a, r.neighbour, r.count, r.since);
        break;
    }
    case BY_LEVELS: {
        const auto r = by::read_by_levels(c.n, c.darts, c.h, c.rows, c.lambda, c.delta, c.level, c.involution, c.dart);
        found(a, r.neighbour, r.count);
        break;
    }
    case UNFOLD: {
        const auto r = by::unfold(c.n, c.darts, c.h, c.rows, c.lambda, c.delta, c.level, c.table);
        found(a, r.total, r.since);
        break;
    }
    case ROW: {
        const auto r = by::row(c.n, c.darts, c.h, c.rows, c.table, c.level, c.involution);
        found(a, r.unfolded, r.start, r.length);
        break;
    }
    case SURVIVORS: found(a, by::survivors(c.darts, c.h, c.lambda, c.level, c.words)); break;
    case MARK: by::mark(c.n, c.darts, c.table, c.involution, c.marks); break;
    case TAKE: {
        const auto r = by::take(c.bytes, c.rows, c.lambda, c.delta, c.table);
        found(a, r.n, r.h, r.darts);
        break;
    }
    case WRITE: found(a, by::write(c.n, c.darts, c.h, c.rows, c.lambda, c.delta, c.table, c.bytes)); break;
    case DECIMATION: {
        const auto r = by::decimation(c.n, c.darts, c.h, c.rows, c.lambda, c.delta, c.table, c.level);
        found(a, r.empty);
        a.factor = r.factor;
        break;
    }
    case IMPORT: by::import_map(c.darts, c.edges, c.vertices, c.rows); break;
    case EXPORT: by::export_map(c.n, c.darts, c.rows, c.edges, c.vertices); break;
    case REGIONS: by::regions(c.n, c.darts, c.h, c.rows, c.lambda, c.delta, c.table, c.level, c.names); break;
    case JOIN: found(a, by::join(c.n, c.darts, c.h, c.rows, c.lambda, c.delta, c.table, c.level)); break;
    case REBASE: {
        const auto r = by::rebase(c.n, c.darts, c.h, c.rows, c.lambda, c.delta, c.table, c.level, c.old);
        found(a, r.darts, r.h);
        break;
    }
    case UNFOLD_ALL: by::unfold_all(c.n, c.darts, c.h, c.rows, c.lambda, c.delta, c.tables, c.counts, c.since); break;
    case LEVELS: a.text = by::levels(c.bytes); break;
    case CENSUS: by::census(c.n, c.darts, c.h, c.rows, c.lambda, c.delta, c.table, c.cells, c.sums); break;
    case CENSUS_PROGRAM: a.text = by::census_program(c.bytes); break;
    case JOBS: break;
    }
}

inline Answer answer_independently(Case& c)
{
    static const unsigned founds[JOBS] = {0, 0, 1, 0, 3, 2, 2, 3, 1, 0, 3, 1, 1, 0, 0, 0, 0, 1, 2, 0, 0, 0};
    Answer a;
    a.founds = founds[c.what];
    if (c.what == ADD || c.what == JOIN)
        found(a, c.h); // the height as given, if refused
    if (c.what == REBASE)
        found(a, c.darts, c.h); // both as given, if refused
    try {
        answer_or_throw(c, a);
    } catch (const Refusal& r) {
        a.refusal = r;
    }
    return a;
}

// ---------------------------------------------------------------- the library's answer

inline Answer answer_by_library(Case& c)
{
    assert(c.n < 256 && c.h < 256 && c.level < 256 && c.involution < 256 && c.darts < 65536 && c.dart < 65536);
    call k{};
    k.job = c.what;
    k.n = c.n;
    k.darts = c.darts;
    k.h = c.h;
    k.level = c.level;
    k.involution = c.involution;
    k.dart = c.dart;
    k.rows = c.rows.data();
    k.rows_len = c.rows.size();
    k.table = c.table.data();
    k.table_len = c.table.size();
    k.lambda = c.lambda.data();
    k.lambda_len = c.lambda.size();
    k.delta = c.delta.data();
    k.delta_len = c.delta.size();
    k.marks = c.marks.data();
    k.marks_len = c.marks.size();
    k.bytes = c.bytes.data();
    k.bytes_len = c.bytes.size();
    k.words = c.words.data();
    k.words_len = c.words.size();
    k.cells = c.cells.data();
    k.cells_len = c.cells.size();
    k.sums = c.sums.data();
    k.sums_len = c.sums.size();
    k.edges = c.edges.data();
    k.edges_len = c.edges.size();
    k.vertices = c.vertices.data();
    k.vertices_len = c.vertices.size();
    k.names = c.names.data();
    k.names_len = c.names.size();
    k.old = c.old.data();
    k.old_len = c.old.size();
    k.tables = c.tables.data();
    k.tables_len = c.tables.size();
    k.counts = c.counts.data();
    k.counts_len = c.counts.size();
    k.since = c.since.data();
    k.since_len = c.since.size();
    call_job(&k);
    Answer a;
    if (c.what != LEVELS && c.what != CENSUS_PROGRAM)
        a.refusal = {k.refusal[0], k.refusal[1], k.refusal[2], k.refusal[3]};
    a.founds = k.founds;
    for (unsigned x = 0; x < k.founds; x++)
        a.found[x] = k.found[x];
    a.factor = k.factor;
    a.text = k.text;
    return a;
}

#endif

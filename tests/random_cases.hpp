// Random cases for all jobs: accepted pyramids, pyramids that aren't, and damage to them.
#ifndef RANDOM_CASES_HPP
#define RANDOM_CASES_HPP

#include "cases.hpp"
#include "maps.hpp"

#include <cstring>

using maps::Pyramid;
using maps::Random;

// ---------------------------------------------------------------- what the cases are made from

inline unsigned random_mark(Random& r, unsigned n, maps::Kinds kinds)
{
    const auto all = maps::all_marks(n, kinds);
    return all[r.below(all.size())];
}

// Puts on top a kernel of whole cells that don't all fit, and above it marks that mean nothing.
inline void spoil_top(Random& r, Pyramid& p)
{
    independent::Kernel kernel;
    const maps::Kinds kinds = maps::random_kinds(r);
    if (p.h >= 32 || !maps::bad_kernel(r, p.levels.back(), kinds, kernel))
        return;
    maps::put_on_top(p, kernel);
    const unsigned extra = r.below(std::min(4u, 33 - p.h));
    for (unsigned d = 0; d < p.darts; d++)
        if (p.lambda[d] == p.h) {
            p.lambda[d] = std::uint8_t(p.h + r.below(extra + 1));
            p.delta[d] = std::uint8_t(p.lambda[d] == p.h + extra ? p.n : random_mark(r, p.n, kinds));
        }
    p.h += extra;
}

// A valid base or rows that are any functions, with marks that are in range but no kernels: walks may go anywhere, most
// easily round and round where few kernels and dimensions are in the way.
inline Pyramid wild(Random& r, unsigned n, unsigned darts, unsigned h)
{
    Pyramid p;
    if (r.chance(50))
        p = maps::begin(maps::random_map(r, n, darts));
    else
        p = maps::begin(independent::Map(n, darts));
    const unsigned moved = p.levels[0].present(0) ? r.pick({0u, 2u, 5u}) : r.pick({30u, 60u, 100u});
    const unsigned kernels = h && r.chance(40) ? 1 : h, dimensions = r.chance(60) ? 1 : n;
    const unsigned removed = r.pick({50u, 70u, 90u});
    const maps::Kinds kinds = maps::random_kinds(r);
    for (unsigned k = 0; k < p.rows.size(); k++)
        if (r.chance(moved))
            p.rows[k] = std::uint16_t(r.below(p.darts));
        else if (p.rows[k] == independent::none)
            p.rows[k] = std::uint16_t(k % p.darts);
    for (unsigned d = 0; d < p.darts; d++) {
        const bool stays = h == 0 || !r.chance(removed);
        p.lambda[d] = std::uint8_t(stays ? h : r.below(kernels));
        p.delta[d] = std::uint8_t(stays ? n : random_mark(r, dimensions, kinds));
    }
    p.h = h;
    p.levels.clear();
    return p;
}

// The rows in the other order, with removals as contractions: the same walks.
inline void turn_over(Pyramid& p)
{
    for (unsigned i = 0; 2 * i < p.n; i++)
        std::swap_ranges(p.rows.begin() + i * p.darts, p.rows.begin() + (i + 1) * p.darts,
                         p.rows.begin() + (p.n - i) * p.darts);
    for (unsigned d = 0; d < p.darts; d++)
        if (const auto mark = independent::mark_of(p.n, p.delta[d]); mark.kind == independent::Kind::removal)
            p.delta[d] = std::uint8_t(independent::contracted + p.n - mark.dimension);
        else if (mark.kind == independent::Kind::contraction)
            p.delta[d] = std::uint8_t(p.n - mark.dimension);
}

// A walk that comes to one detour from two sides: from a dart y it leads back to y, from w to y too. By levels this is
// refused 14, but only after the detour's second time; with a long one the bound of number 15 is passed before.
inline Pyramid knot(Random& r, unsigned n, unsigned h)
{
    const unsigned way = r.below(6), detour = r.between(1, 4), darts = 3 + way + detour, i = r.below(n - 1);
    const unsigned y = 1 + way, w = 2 + way, z = 3 + way;
    independent::Map m(n, darts);
    for (auto& row : m.a)
        std::iota(row.begin(), row.end(), 0u);
    for (unsigned x = 0; x <= y; x++)
        m.a[i][x] = x + 1; // the start, the way, y, then w
    m.a[i + 1][y] = m.a[i + 1][w] = z;
    for (unsigned x = z; x < darts; x++)
        m.a[i + 1][x] = x + 1 < darts ? x + 1 : y;
    Pyramid p = maps::begin(m);
    p.h = std::max(h, 3u);
    const unsigned low = r.below(p.h - 2);
    for (unsigned x = 1; x < darts; x++) {
        p.lambda[x] = std::uint8_t(x < y ? r.below(p.h) : x >= z ? r.below(low + 1) : low + 1);
        p.delta[x] = std::uint8_t(x < z ? i : i + 1);
    }
    p.lambda[0] = std::uint8_t(p.h);
    p.lambda[r.chance(50) ? y : w]++;
    p.levels.clear();
    if (r.chance(50))
        turn_over(p);
    return p;
}

inline unsigned random_size(Random& r)
{
    const unsigned x = r.below(1000);
    if (x < 20)
        return r.pick({1u, 2u, 255u, 256u, 257u});
    if (x < 450)
        return r.between(1, 12);
    if (x < 820)
        return r.between(8, 64);
    if (x < 970)
        return r.between(48, 250);
    if (x < 992)
        return r.between(250, 700);
    return x < 995 ? 4096 : r.between(1000, 4096);
}

inline unsigned random_height(Random& r)
{
    const unsigned x = r.below(100);
    return x < 60 ? r.below(4) : x < 92 ? r.below(9) : r.below(33);
}

inline Pyramid random_source(Random& r)
{
    const unsigned n = r.between(1, 4), darts = random_size(r), h = random_height(r);
    if (n > 1 && r.chance(4))
        return knot(r, n, h);
    if (r.chance(15))
        return wild(r, n, r.chance(60) ? r.between(2, 12) : std::min(darts, 100u), h);
    const unsigned percent = r.chance(25) ? r.between(30, 60) : h > 6 ? r.between(1, 12) : r.between(3, 45);
    Pyramid p = maps::random_pyramid(r, n, darts, h, percent);
    if (r.chance(15))
        spoil_top(r, p);
    return p;
}

// ---------------------------------------------------------------- damage

// What a job may find in memory that it is lent to write.
template <class List> List junk(Random& r, std::size_t length)
{
    List list(length, typename List::value_type(r.pick({9u, 0u, 255u, 65535u})));
    for (std::size_t k = 0; k < length && k < 8; k++)
        list[r.below(length)] = typename List::value_type(r.bits());
    return list;
}

template <class List> void change_length(Random& r, List& list)
{
    const std::size_t size = list.size();
    switch (r.below(5)) {
    case 0: list.resize(0); break;
    case 1: list.resize(size + 1); break;
    case 2: list.resize(size ? size - 1 : 1); break;
    case 3: list.resize(size / 2); break;
    case 4: list.resize(size + 1 + r.below(size + 1)); break;
    }
}

// Links x and y by a row, and their old partners: the row stays an involution.
inline void link_others(Random& r, Entries& rows, unsigned darts)
{
    const std::size_t row = r.below(rows.size() / darts) * std::size_t(darts);
    const unsigned x = r.below(darts), y = r.below(darts);
    const unsigned to_x = rows[row + x], to_y = rows[row + y];
    if (to_x >= darts || to_y >= darts || to_x == y)
        return;
    rows[row + to_x] = std::uint16_t(to_y);
    rows[row + to_y] = std::uint16_t(to_x);
    rows[row + x] = std::uint16_t(y);
    rows[row + y] = std::uint16_t(x);
}

inline void damage_rows(Random& r, Entries& rows, unsigned darts)
{
    if (rows.empty() || !darts || rows.size() % darts)
        return;
    std::uint16_t& entry = rows[r.below(rows.size())];
    const unsigned d = r.below(darts);
    switch (r.below(12)) {
    case 0: entry = std::uint16_t(darts); break;
    case 1: entry = 65535; break;
    case 2: entry = std::uint16_t(r.bits()); break;
    case 3: rows[d] = r.pick({std::uint16_t(65534), std::uint16_t(65535)}); break;
    case 4: // a dart gone from all rows
        for (std::size_t k = d; k < rows.size(); k += darts)
            rows[k] = 65535;
        break;
    case 5: std::swap(entry, rows[r.below(rows.size())]); break;
    case 6: entry = std::uint16_t(d); break;
    default: link_others(r, rows, darts);
    }
}

// A byte of Delta or of a mark row, most of them marks; the others are the last and the first beside them.
inline std::uint8_t likely_mark(Random& r, unsigned n)
{
    if (r.chance(20))
        return std::uint8_t(r.pick({n, 8u, 9u, 8 + n, 9 + n}));
    return std::uint8_t(r.chance(50) ? r.below(n + 1) : independent::contracted + r.between(1, n + 1));
}

inline void damage_marks(Random& r, Case& c, Bytes& list)
{
    if (list.empty())
        return;
    const std::size_t d = r.below(list.size());
    const std::size_t e = r.below(std::min(c.lambda.size(), c.delta.size()) + 1);
    switch (r.below(8)) {
    case 0: list[d] = std::uint8_t(r.bits()); break;
    case 1: list[d] = std::uint8_t(r.pick({c.h, c.h + 1, c.n, c.n + 1, c.n - 1})); break;
    case 2: list[d] = r.pick({std::uint8_t(255), std::uint8_t(254), std::uint8_t(33)}); break;
    case 3: list[d] = likely_mark(r, c.n); break;
    case 4: list[d] = list[r.below(list.size())]; break;
    case 5: // a cell of which one dart is removed and another contracted
        if (list[d] != c.n && list[d] < 9 + c.n)
            list[d] = std::uint8_t(list[d] ^ independent::contracted);
        break;
    default: // the marks of one dart to another, both fitting each other
        if (d < c.lambda.size() && d < c.delta.size() && e < c.lambda.size() && e < c.delta.size()) {
            c.lambda[d] = c.lambda[e];
            c.delta[d] = r.chance(70) ? c.delta[e] : likely_mark(r, c.n);
        }
    }
}

// Gives the lists the lengths that n and N now ask for.
inline void fit_lengths(Case& c)
{
    const std::size_t rows = std::size_t(c.n + 1) * c.darts;
    for (const char* item = case_forms[c.what]; *item; item++)
        switch (*item) {
        case 'R': c.rows.resize(c.what == IMPORT ? std::size_t(6) * c.darts : rows); break;
        case 'P': c.edges.resize(c.what == IMPORT ? c.darts : c.darts / 2); break;
        case 'V': c.vertices.resize(c.what == IMPORT ? c.darts : c.darts / 2); break;
        case 'T': c.table.resize(rows); break;
        case 'L': c.lambda.resize(c.darts); break;
        case 'E': c.delta.resize(c.darts); break;
        case 'M': c.marks.resize(c.darts); break;
        case 'N': c.names.resize(c.darts); break;
        case 'O': c.old.resize(c.darts); break;
        }
}

inline void change_size(Random& r, Case& c, char item)
{
    if (item == 'n')
        c.n = r.pick({0u, 1u, 2u, 3u, 4u, 5u, 6u, 255u});
    else
        c.darts = r.pick({0u, 1u, (c.darts - 1) & 65535, (c.darts + 1) & 65535, 2048u, 2049u, 4096u, 4097u, 65535u});
    if (c.n <= 6 && c.darts <= 4097 && r.chance(c.darts < 300 ? 60 : 10))
        fit_lengths(c);
}

// An entry too large, one that another dart has, or another length.
inline void damage_partner(Random& r, const Case& c, Entries& row)
{
    if (row.empty() || r.chance(15))
        return change_length(r, row);
    std::uint16_t& entry = row[r.below(row.size())];
    switch (r.below(4)) {
    case 0: entry = r.pick({std::uint16_t(c.darts), std::uint16_t(65535), std::uint16_t(r.bits())}); break;
    case 1: std::swap(entry, row[r.below(row.size())]); break;
    default: entry = row[r.below(row.size())];
    }
}

inline void damage_item(Random& r, Case& c, char item)
{
    switch (item) {
    case 'n':
    case 'D': change_size(r, c, item); break;
    case 'h': c.h = r.pick({0u, (c.h - 1) & 255, (c.h + 1) & 255, 31u, 32u, 33u, 255u}); break;
    case 'l': c.level = r.pick({0u, c.h, (c.h + 1) & 255, 255u, r.below(256)}); break;
    case 'i': c.involution = r.pick({c.n, (c.n + 1) & 255, 255u, r.below(6), 8 + r.below(6)}); break;
    case 'd': c.dart = r.pick({c.darts, (c.darts - 1) & 65535, 65535u, r.below(c.darts + 1)}); break;
    case 'R': r.chance(15) ? change_length(r, c.rows) : damage_rows(r, c.rows, c.darts); break;
    case 'T': r.chance(c.what == MARK ? 15 : 80) ? change_length(r, c.table) : damage_rows(r, c.table, c.darts); break;
    case 'L': r.chance(15) ? change_length(r, c.lambda) : damage_marks(r, c, c.lambda); break;
    case 'E': r.chance(15) ? change_length(r, c.delta) : damage_marks(r, c, c.delta); break;
    case 'M': r.chance(15) ? change_length(r, c.marks) : damage_marks(r, c, c.marks); break;
    case 'B': change_length(r, c.bytes); break;
    case 'W': change_length(r, c.words); break;
    case 'C': change_length(r, c.cells); break;
    case 'S': change_length(r, c.sums); break;
    case 'P': damage_partner(r, c, c.edges); break;
    case 'V': damage_partner(r, c, c.vertices); break;
    case 'N': change_length(r, c.names); break;
    case 'O': change_length(r, c.old); break;
    case 'A': change_length(r, c.tables); break;
    case 'K': change_length(r, c.counts); break;
    case 'G': change_length(r, c.since); break;
    }
}

// How many places are damaged: several at once show the order of the tests.
inline unsigned how_many(Random& r) { return r.chance(40) ? 0 : r.chance(70) ? 1 : r.between(2, 4); }

inline void damage_many(Random& r, Case& c)
{
    for (unsigned times = r.between(1, c.darts / 3 + 1); times; times--) {
        const unsigned d = r.below(c.darts);
        switch (r.below(12)) {
        case 0: damage_rows(r, c.rows, c.darts); break;
        case 1:
            if (r.chance(30))
                damage_marks(r, c, r.chance(50) ? c.lambda : c.delta);
            break;
        case 2: c.rows[r.below(c.rows.size())] = std::uint16_t(r.below(c.darts)); break;
        case 3:
            c.delta[d] = std::uint8_t(c.lambda[d] < c.h ? random_mark(r, c.n, maps::Kinds::both) : c.n);
            break;
        default: link_others(r, c.rows, c.darts);
        }
    }
}

// Some darts of the other kind with the same dimension: a pass may come from a removed dart to a contracted one.
inline void change_kinds(Random& r, Case& c)
{
    const auto is_mark = [&](unsigned byte) { return bool(independent::mark_of(c.n, byte)); };
    for (std::size_t d = 0; d < c.delta.size(); d++) {
        const unsigned other = c.delta[d] ^ independent::contracted;
        if (c.lambda[d] < c.h && is_mark(c.delta[d]) && is_mark(other) && r.chance(25))
            c.delta[d] = std::uint8_t(other);
    }
}

// A reading looks at few entries. To be met by it, damage must be in many places, or in one that its walk comes to:
// then it may go round and round.
inline void damage_walks(Random& r, Case& c)
{
    if (r.chance(20))
        change_kinds(r, c);
    else if (r.chance(50))
        damage_many(r, c);
    else
        for (unsigned times = r.between(1, 2); times; times--)
            c.rows[r.below((std::max(c.involution, 1u) + 1) * c.darts)] = std::uint16_t(r.below(c.darts));
}

inline void damage(Random& r, Case& c)
{
    const char* form = case_forms[c.what];
    const char* lists = std::strpbrk(form, "RTLP");
    if ((c.what == READ || c.what == BY_LEVELS || c.what == UNFOLD) && r.chance(50))
        damage_walks(r, c);
    else
        for (unsigned times = how_many(r); times; times--) {
            const char* from = r.chance(35) ? form : lists;
            damage_item(r, c, from[r.below(std::strlen(from))]);
        }
}

// ---------------------------------------------------------------- records

inline void put_field(Bytes& record, std::vector<std::size_t>& starts, unsigned tag, const Bytes& body)
{
    starts.push_back(record.size());
    record.push_back(std::uint8_t(tag));
    record.push_back(std::uint8_t(body.size() & 255));
    record.push_back(std::uint8_t(body.size() >> 8));
    record.insert(record.end(), body.begin(), body.end());
}

// The record of a case's pyramid, and where its fields start. One byte an entry is a kind that isn't taken any more.
inline Bytes record_of(const Case& c, bool one_byte, std::vector<std::size_t>& starts)
{
    Bytes record;
    put_field(record, starts, 0x01,
              {std::uint8_t(c.n), std::uint8_t(c.h), std::uint8_t(c.darts & 255), std::uint8_t(c.darts >> 8)});
    for (unsigned i = 0; i <= c.n; i++) {
        Bytes body;
        for (std::size_t k = std::size_t(i) * c.darts; k < std::size_t(i + 1) * c.darts; k++) {
            body.push_back(std::uint8_t(c.rows[k] & 255));
            if (!one_byte)
                body.push_back(std::uint8_t(c.rows[k] >> 8));
        }
        put_field(record, starts, (one_byte ? 0x20 : 0x10) + i, body);
    }
    put_field(record, starts, 0x30, c.lambda);
    put_field(record, starts, 0x31, c.delta);
    starts.push_back(record.size());
    return record;
}

inline void damage_record(Random& r, Bytes& record, const std::vector<std::size_t>& starts)
{
    const std::uint8_t tags[] = {0x01, 0x10, 0x11, 0x14, 0x20, 0x21, 0x24, 0x30, 0x31, 0xFF};
    const std::size_t field = starts[r.below(starts.size())];
    const auto near = [&](std::size_t at) { return at < record.size() ? at : record.size() - 1; };
    if (record.empty())
        return;
    switch (r.below(9)) {
    case 0: record.resize(r.below(record.size() + 1)); break;
    case 1: record.resize(std::min(record.size(), field + r.below(4))); break;
    case 2: record.push_back(std::uint8_t(r.bits())); break;
    case 3: record.resize(record.size() + r.between(1, 40)); break;
    case 4: record[r.below(record.size())] = std::uint8_t(r.bits()); break;
    case 5: record[near(field)] = r.pick(tags); break;
    case 6: record[near(field)] ^= r.pick<std::uint8_t>({0x30, 0x01, 0x10, 0x80}); break;
    case 7: record[near(field + r.between(1, 2))] += r.pick<std::uint8_t>({1, 255, 2, 128}); break;
    case 8: record[near(3 + r.below(4))] = r.pick<std::uint8_t>({0, 1, 4, 5, 16, 17, 32, 33, 255}); break;
    }
}

// ---------------------------------------------------------------- cases

// A question; if one is found quickly, to a dart on the level whose neighbour in the base is not there any more.
inline void ask(Random& r, Case& c)
{
    c.level = r.chance(50) ? c.h : r.below(c.h + 1);
    c.involution = r.below(c.n + 1);
    c.dart = r.below(c.darts);
    for (unsigned tries = 0; tries < 20; tries++) {
        const unsigned d = r.below(c.darts), met = c.rows[std::size_t(c.involution) * c.darts + d];
        if (c.lambda[d] < c.level)
            continue;
        c.dart = d;
        if (met >= c.darts || c.lambda[met] < c.level)
            break;
    }
}

// The mark row of a level.
inline Bytes kernel_row(const Pyramid& p, unsigned level)
{
    Bytes row(p.darts, 255);
    for (unsigned d = 0; d < p.darts; d++)
        if (p.lambda[d] == level && level < p.h)
            row[d] = p.delta[d];
    return row;
}

// The source or its lower levels; an add is given the kernel that comes next.
inline void lend_pyramid(Random& r, Case& c, const Pyramid& source)
{
    const bool lowered = source.h > 0 && r.chance(c.what == ADD ? 85 : 30);
    const unsigned h = lowered ? r.below(source.h) : source.h;
    const Pyramid p = maps::lower(source, h);
    c.n = p.n;
    c.darts = p.darts;
    c.h = p.h;
    c.rows = p.rows;
    c.lambda = p.lambda;
    c.delta = p.delta;
    c.table = junk<Entries>(r, p.rows.size());
    c.marks = c.what == ADD ? kernel_row(source, h) : junk<Bytes>(r, p.darts);
    c.words = junk<Words>(r, 64);
    c.cells = junk<Entries>(r, 165);
    c.sums = junk<Sums>(r, 33);
    c.names = junk<Entries>(r, p.darts);
    c.old = junk<Entries>(r, p.darts);
    if (c.what == UNFOLD_ALL) {
        c.tables = junk<Entries>(r, (p.h + 1) * p.rows.size());
        c.counts = junk<Counts>(r, 33);
        c.since = junk<Bytes>(r, 33);
    }
}

inline void lend_level(Random& r, Case& c, const Pyramid& source)
{
    if (source.levels.empty())
        c.table = source.rows;
    else
        source.levels[r.below(source.levels.size())].write(c.table);
    c.involution = r.below(c.n);
}

// Memory for what a record holds, of its size or somewhat longer.
inline void lend_for_record(Random& r, Case& c)
{
    const unsigned more = r.chance(50) ? r.below(20) : 0;
    c.rows = junk<Entries>(r, c.rows.size() + more);
    c.lambda = junk<Bytes>(r, c.lambda.size() + more);
    c.delta = junk<Bytes>(r, c.delta.size() + r.below(more + 1));
    c.table = junk<Entries>(r, c.table.size() + r.below(more + 1));
}

inline void lend_record(Random& r, Case& c)
{
    if (r.chance(40))
        for (unsigned times = r.between(1, 3); times; times--)
            r.chance(50) ? damage_rows(r, c.rows, c.darts) : damage_marks(r, c, r.chance(50) ? c.lambda : c.delta);
    std::vector<std::size_t> starts;
    c.bytes = record_of(c, c.darts <= 256 && r.chance(10), starts);
    if (r.chance(c.what == TAKE ? 65 : 40))
        for (unsigned times = r.between(1, 2); times; times--)
            damage_record(r, c.bytes, starts);
    lend_for_record(r, c);
    if (r.chance(20))
        r.chance(50) ? change_length(r, r.chance(50) ? c.rows : c.table)
                     : change_length(r, r.chance(50) ? c.lambda : c.delta);
}

// A buffer for the record, from none to one that is longer.
inline void lend_buffer(Random& r, Case& c)
{
    const std::size_t record = 7 + (c.n + 1) * (3 + 2 * c.darts) + 2 * (3 + c.darts);
    const std::size_t lengths[] = {record, record + r.below(100), record - 1, r.below(record)};
    c.bytes = junk<Bytes>(r, lengths[r.chance(80) ? r.below(2) : 2 + r.below(2)]);
}

// A partner's map: pairs of darts, some alone, and a permutation.
inline void draw_partner(Random& r, unsigned m, Entries& edges, Entries& vertices)
{
    std::vector<std::uint16_t> order(m);
    std::iota(order.begin(), order.end(), std::uint16_t(0));
    vertices = order;
    r.shuffle(vertices);
    r.shuffle(order);
    edges.assign(m, 0);
    for (unsigned k = 0; k < m;) {
        const unsigned other = k + 1 < m && !r.chance(10) ? k + 1 : k;
        edges[order[k]] = order[other];
        edges[order[other]] = order[k];
        k = other + 1;
    }
}

// Two rows for the import; for the way back the base that they yield, sometimes with other numbers, or any base.
inline void lend_partner(Random& r, Case& c)
{
    const unsigned m = std::min(c.darts, 2048u);
    if (c.what == EXPORT && r.chance(25)) {
        c.edges = junk<Entries>(r, c.darts / 2);
        c.vertices = junk<Entries>(r, c.darts / 2);
        return;
    }
    draw_partner(r, m, c.edges, c.vertices);
    c.rows = junk<Entries>(r, std::size_t(6) * m);
    if (c.what == IMPORT) {
        c.darts = m;
        return;
    }
    independent::import_map(m, c.edges, c.vertices, c.rows);
    c.n = 2;
    c.darts = 2 * m;
    if (r.chance(20))
        maps::renumber(r, independent::Map(2, c.darts, c.rows)).write(c.rows);
    c.edges = junk<Entries>(r, m);
    c.vertices = junk<Entries>(r, m);
}

// A case lends only what its job takes: the rest is taken out again, so that its line holds the whole case.
inline void drop_the_rest(Case& c)
{
    const auto takes = [&](char item) { return std::strchr(case_forms[c.what], item) != nullptr; };
    if (!takes('R'))
        c.rows.clear();
    if (!takes('T'))
        c.table.clear();
    if (!takes('L'))
        c.lambda.clear();
    if (!takes('E'))
        c.delta.clear();
    if (!takes('M'))
        c.marks.clear();
    if (!takes('W'))
        c.words.clear();
    if (!takes('C'))
        c.cells.clear();
    if (!takes('S'))
        c.sums.clear();
    if (!takes('P'))
        c.edges.clear();
    if (!takes('V'))
        c.vertices.clear();
    if (!takes('N'))
        c.names.clear();
    if (!takes('O'))
        c.old.clear();
}

// What a job is lent and asked of a source; for a job that takes a record, the pyramid that it is to hold.
inline Case undamaged_case(Random& r, job what, const Pyramid& source)
{
    Case c;
    c.what = what;
    lend_pyramid(r, c, source);
    ask(r, c);
    if (c.what == MARK)
        lend_level(r, c, source);
    if (c.what == WRITE)
        lend_buffer(r, c);
    if (c.what == DECIMATION && c.h > 0 && r.chance(90))
        c.level = r.below(c.h);
    if (c.what == IMPORT || c.what == EXPORT)
        lend_partner(r, c);
    if (c.what == JOIN && c.h > 1 && r.chance(90))
        c.level = r.below(c.h - 1);
    return c;
}

inline Case random_case(Random& r, const Pyramid& source)
{
    Case c = undamaged_case(r, job(r.below(JOBS)), source);
    const bool record = c.what == TAKE || c.what == LEVELS || c.what == CENSUS_PROGRAM;
    if (record)
        lend_record(r, c);
    drop_the_rest(c);
    if (!record)
        damage(r, c);
    return c;
}

#endif

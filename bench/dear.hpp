// Inputs that cost a job much: large maps, long walks, cells of all darts, and damage that is found at the last place.
#ifndef DEAR_HPP
#define DEAR_HPP

#include "random_cases.hpp"

#include <stdexcept>

extern "C" {
#include "maps.h"
#include "plain.h"
}

namespace dear {

constexpr unsigned most_darts = 4096;

// ---------------------------------------------------------------- pyramids

inline Pyramid of_bench(const char* name)
{
    static pyramid p;
    if (!make_pyramid(&p, name))
        std::exit(2);
    const std::size_t entries = std::size_t(p.n + 1) * p.darts;
    return {p.n, p.darts, p.h, Entries(p.rows, p.rows + entries), Bytes(p.lambda, p.lambda + p.darts),
            Bytes(p.delta, p.delta + p.darts), {}};
}

// The last two rows lead round a ring of all darts, the others to the dart half a round on: one vertex for n of 2 or
// more.
inline Pyramid ring(unsigned n, unsigned darts)
{
    independent::Map m(n, darts);
    for (unsigned d = 0; d < darts; d++) {
        for (unsigned i = 0; i + 1 < n; i++)
            m.a[i][d] = (d + darts / 2) % darts;
        m.a[n - 1][d] = d ^ 1;
        m.a[n][d] = (d & 1 ? d + 1 : d + darts - 1) % darts;
    }
    return maps::begin(m);
}

// Every dart free in every row: as many cells of each dimension as darts.
inline Pyramid alone(unsigned n, unsigned darts)
{
    independent::Map m(n, darts);
    for (auto& row : m.a)
        std::iota(row.begin(), row.end(), 0u);
    return maps::begin(m);
}

// A path of edges {0,1}, {2,3}, ..
inline Pyramid path(unsigned darts)
{
    Pyramid p = alone(1, darts);
    for (unsigned d = 0; d < darts; d++) {
        p.rows[d] = std::uint16_t(d ^ 1);
        if (d > 0 && d + 1 < darts)
            p.rows[darts + d] = std::uint16_t(d & 1 ? d + 1 : d - 1);
    }
    return p;
}

// The cells of a dimension, numbered by their lowest darts: for each dart the number of its cell.
inline std::vector<unsigned> cell_numbers(const Pyramid& p, unsigned dimension)
{
    constexpr unsigned none = ~0u;
    std::vector<unsigned> number(p.darts, none), queue;
    unsigned cells = 0;
    for (unsigned d = 0; d < p.darts; d++) {
        if (number[d] != none)
            continue;
        number[d] = cells;
        for (queue.assign(1, d); !queue.empty();) {
            const unsigned e = queue.back();
            queue.pop_back();
            for (unsigned j = 0; j <= p.n; j++)
                if (const unsigned f = p.rows[j * p.darts + e]; j != dimension && number[f] == none) {
                    number[f] = cells;
                    queue.push_back(f);
                }
        }
        cells++;
    }
    return number;
}

// Which cells a kernel takes: all, all but the first, or every other one. Of the second walks are long, of the third
// there are many.
enum Taken { ALL, ALL_BUT_ONE, EVERY_OTHER };

// One kernel with cells of the mark's dimension.
inline Pyramid taken_out(Pyramid p, unsigned mark, Taken which)
{
    const std::vector<unsigned> number = cell_numbers(p, mark & 7);
    p.h = 1;
    for (unsigned d = 0; d < p.darts; d++) {
        const bool stays = which == ALL_BUT_ONE ? number[d] == 0 : which == EVERY_OTHER && number[d] % 2;
        p.lambda[d] = stays;
        p.delta[d] = std::uint8_t(stays ? p.n : mark);
    }
    return p;
}

// As many kernels as there may be, all of them empty: every dart is on every level.
inline Pyramid empty_kernels(Pyramid p)
{
    p.h = 32;
    std::fill(p.lambda.begin(), p.lambda.end(), std::uint8_t(p.h));
    return p;
}

// The inner vertices of a path go one after the other, in as many kernels as there may be: in rising order, or falling.
inline Pyramid path_by_kernels(unsigned darts, bool falling)
{
    Pyramid p = path(darts);
    p.h = 32;
    for (unsigned d = 0; d < darts; d++) {
        const bool stays = d == 0 || d + 1 >= darts;
        const unsigned vertex = (d + 1) / 2 % p.h;
        p.lambda[d] = std::uint8_t(stays ? p.h : falling ? p.h - 1 - vertex : vertex);
        p.delta[d] = std::uint8_t(stays ? p.n : 0);
    }
    return p;
}

// A path of which the last edge alone is contracted: the first contracted dart is the last but one.
inline Pyramid contracted_last(unsigned darts)
{
    Pyramid p = path(darts);
    p.h = 1;
    for (unsigned d = 0; d < darts; d++) {
        p.lambda[d] = d + 2 < darts;
        p.delta[d] = std::uint8_t(d + 2 < darts ? p.n : independent::contracted + 1);
    }
    return p;
}

// Tables that no check accepts: every walk by a_0 from the second half of the darts passes each dart of the first half
// twice. The first half is a way of an odd number of darts, walked once by rows 1, 0, 1, .. and then by 0, 1, 0, ..
inline Pyramid shared_way(unsigned darts)
{
    Pyramid p = alone(1, darts);
    const unsigned way = (darts / 2 - 1) | 1, last = way - 1;
    p.h = 1;
    for (unsigned d = 0; d < darts; d++) {
        p.lambda[d] = d > last;
        p.delta[d] = std::uint8_t(d > last ? p.n : 0);
        p.rows[d] = p.rows[darts + d] = std::uint16_t(d > last ? 0 : d + 1);
    }
    p.rows[darts + last] = 0;
    return p;
}

// A small pyramid, copied side by side as often as there is room.
inline Pyramid side_by_side(const Pyramid& p)
{
    const unsigned darts = most_darts / p.darts * p.darts;
    Pyramid all{p.n, darts, p.h, {}, {}, {}, {}};
    for (unsigned d = 0; d < (p.n + 1) * darts; d++) {
        const unsigned at = d % darts, first = at / p.darts * p.darts;
        all.rows.push_back(std::uint16_t(first + p.rows[d / darts * p.darts + at % p.darts]));
    }
    for (unsigned d = 0; d < darts; d++) {
        all.lambda.push_back(p.lambda[d % p.darts]);
        all.delta.push_back(p.delta[d % p.darts]);
    }
    return all;
}

inline void link(Pyramid& p, unsigned row, unsigned d, unsigned e)
{
    if (e >= p.darts)
        return;
    p.rows[row * p.darts + d] = std::uint16_t(e);
    p.rows[row * p.darts + e] = std::uint16_t(d);
}

// One survivor, then pairs of darts along row i, removed and contracted in turn by the kernel of a level, and at the end
// a fixed point: one walk passes every dart.
inline Pyramid chain(unsigned n, unsigned h, unsigned level, unsigned i)
{
    Pyramid p = alone(n, most_darts);
    p.h = h;
    std::fill(p.lambda.begin(), p.lambda.end(), std::uint8_t(level));
    p.lambda[0] = std::uint8_t(h);
    link(p, i, 0, 1);
    for (unsigned d = 1; d < p.darts; d += 2) {
        const bool removed = d / 2 % 2 == 0;
        p.delta[d] = std::uint8_t(removed ? i : independent::contracted + i);
        if (d + 1 < p.darts)
            p.delta[d + 1] = p.delta[d];
        link(p, removed ? i + 1 : i - 1, d, d + 1);
        link(p, i, d + 1, d + 2);
    }
    return p;
}

// The same pyramid with its darts numbered the other way round.
inline Pyramid reversed(Pyramid p)
{
    for (unsigned i = 0; i <= p.n; i++)
        std::reverse(p.rows.begin() + i * p.darts, p.rows.begin() + (i + 1) * p.darts);
    for (auto& entry : p.rows)
        entry = std::uint16_t(p.darts - 1 - entry);
    std::reverse(p.lambda.begin(), p.lambda.end());
    std::reverse(p.delta.begin(), p.delta.end());
    return p;
}

// ---------------------------------------------------------------- pyramids that are dear for their size

// The name is that of the group that the search tells.
struct Witness {
    const char* name;
    Pyramid pyramid;
};

inline std::vector<Witness> witnesses()
{
    const Pyramid pair{2, 2, 1, {0, 1, 0, 1, 1, 0}, {0, 1}, {10, 2}, {}};
    const Pyramid late_pair{2, 2, 2, {0, 1, 0, 1, 1, 0}, {2, 0}, {2, 10}, {}};
    const Pyramid square{1, 4, 2, {3, 2, 1, 0, 0, 1, 3, 2}, {0, 0, 2, 1}, {0, 0, 1, 9}, {}};
    std::vector<Witness> all = {{"chain", chain(4, 32, 0, 2)},
                                {"chain", chain(4, 32, 31, 2)},
                                {"pairs", side_by_side(pair)},
                                {"late-pairs", side_by_side(late_pair)},
                                {"squares", side_by_side(square)}};
    for (unsigned n = 2; n <= 4; n++)
        for (unsigned i = 1; i < n; i++)
            for (const unsigned h : {1u, 2u})
                all.push_back({"chain", chain(n, h, 0, i)});
    return all;
}

// ---------------------------------------------------------------- cases

// All that a job can be lent for a pyramid, nothing damaged.
inline Case lend(job what, const Pyramid& p, unsigned level)
{
    Case c;
    std::vector<std::size_t> starts;
    c.what = what;
    c.n = p.n, c.darts = p.darts, c.h = p.h, c.level = level;
    c.rows = p.rows, c.lambda = p.lambda, c.delta = p.delta;
    c.table.assign(p.rows.size(), 0);
    c.marks.assign(p.darts, 0);
    c.names = c.old = Entries(p.darts, 0);
    c.words.assign(64, 0);
    c.cells.assign(165, 0);
    c.sums.assign(33, 0);
    if (what == UNFOLD_ALL)
        c.tables.assign((p.h + 1) * p.rows.size(), 0);
    c.counts.assign(33, 0);
    c.since.assign(33, 0);
    c.bytes = record_of(c, false, starts); // to be taken, or written over
    return c;
}

// The pyramid without its top kernel, which is to be added.
inline Case lend_add(const Pyramid& p)
{
    const unsigned below = p.h ? p.h - 1 : 0;
    Case c = lend(ADD, maps::lower(p, below), 0);
    c.marks = kernel_row(p, below);
    return c;
}

// A level of a good pyramid, to be marked.
inline Case lend_level(const Pyramid& p, unsigned level, unsigned dimension)
{
    Case c = lend(MARK, p, 0);
    const zg_unfolding unfolded = plain_unfold(
        std::uint8_t(p.n), std::uint16_t(p.darts), std::uint8_t(p.h), p.rows.data(), p.rows.size(), p.lambda.data(),
        p.darts, p.delta.data(), p.darts, std::uint8_t(level), c.table.data(), c.table.size());
    if (unfolded.refusal.number)
        throw std::logic_error("a level of a good pyramid is refused");
    c.involution = dimension;
    return c;
}

inline Case lend_import(unsigned m)
{
    Random r(m);
    Case c;
    c.what = IMPORT;
    c.darts = m;
    draw_partner(r, m, c.edges, c.vertices);
    c.rows.assign(std::size_t(6) * m, 0);
    return c;
}

inline Case lend_export(unsigned m)
{
    Case c = lend_import(m);
    independent::import_map(m, c.edges, c.vertices, c.rows);
    c.what = EXPORT;
    c.n = 2;
    c.darts = 2 * m;
    return c;
}

// ---------------------------------------------------------------- damage found at the last place

// What is spoiled: the last entry of the rows or the last links of the last row, the last Lambda, Delta, mark or byte,
// or the last kernel.
enum Last { ENTRY, INVOLUTION, COMMUTING, LAMBDA, DELTA, KERNEL, MARK_ROW, LONGER, SHORTER, LASTS };

inline bool can_spoil(const Case& c, Last what)
{
    const auto lent = [&](char item) { return std::strchr(case_forms[c.what], item) != nullptr; };
    switch (what) {
    case MARK_ROW: return c.what == ADD;
    case LONGER: return c.what == TAKE;
    case SHORTER: return c.what == TAKE || c.what == WRITE;
    case LAMBDA: return c.what != TAKE && lent('L');
    case DELTA: return c.what != TAKE && lent('E');
    case KERNEL: return c.what != TAKE && lent('L') && lent('E') && c.h > 0;
    default: return c.what != TAKE && c.darts > 1 && (lent('R') || c.what == MARK);
    }
}

// A dart of the last kernel leaves it, which isn't whole cells then.
inline void open_last_kernel(Case& c)
{
    unsigned d = c.darts;
    while (d > 0 && c.lambda[d - 1] + 1u != c.h)
        d--;
    if (d > 0) {
        c.lambda[d - 1] = std::uint8_t(c.h);
        c.delta[d - 1] = std::uint8_t(c.n);
    }
}

// The last two darts change their neighbours in the last row.
inline void link_last(Entries& rows, unsigned darts)
{
    std::uint16_t* row = &rows[rows.size() - darts];
    const unsigned x = row[darts - 1], y = row[darts - 2];
    if (x >= darts || y >= darts)
        return;
    std::swap(row[x], row[y]);
    if (x < darts - 2 && y < darts - 2)
        std::swap(row[darts - 1], row[darts - 2]);
}

inline void spoil_last(Case& c, Last what)
{
    Entries& rows = c.what == MARK ? c.table : c.rows;
    switch (what) {
    case ENTRY: rows.back() = std::uint16_t(c.darts); break;
    case INVOLUTION: rows.back() = std::uint16_t(rows.back() ? 0 : 1); break;
    case COMMUTING: link_last(rows, c.darts); break;
    case LAMBDA: c.lambda.back() = std::uint8_t(c.h + 1); break;
    case DELTA: c.delta.back() = std::uint8_t(c.n + 1); break;
    case KERNEL: open_last_kernel(c); break;
    case MARK_ROW: c.marks.back() = std::uint8_t(c.n); break;
    case LONGER: c.bytes.push_back(0); break;
    case SHORTER: c.bytes.pop_back(); break;
    case LASTS: break;
    }
}

} // namespace dear

#endif

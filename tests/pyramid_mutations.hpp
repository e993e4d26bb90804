// Small random changes of rows, Lambda and Delta that keep part of what makes them a pyramid.
#ifndef PYRAMID_MUTATIONS_HPP
#define PYRAMID_MUTATIONS_HPP

#include "random_cases.hpp"

#include <optional>

namespace mutations {

using independent::Groups;
using independent::Map;
using independent::Mark;

// A place below a bound, the first and the last more often than others.
inline unsigned place_below(Random& r, std::size_t bound)
{
    return r.chance(20) ? (r.chance(50) ? 0 : unsigned(bound - 1)) : r.below(bound);
}

// A number of so many bits: one more or less, a bit changed, an edge, or anything.
inline unsigned changed(Random& r, unsigned value, unsigned bits)
{
    const unsigned all = (1u << bits) - 1;
    switch (r.below(7)) {
    case 0:
    case 1: return (value + 1) & all;
    case 2:
    case 3: return (value - 1) & all;
    case 4: return value ^ 1u << r.below(bits);
    case 5: return r.pick({0u, 1u, 4u, 5u, 31u, 32u, 33u, 255u, 2048u, 2049u, 4095u, 4096u, 4097u, 65535u}) & all;
    default: return unsigned(r.bits()) & all;
    }
}

// Whether sizes and lengths are good, so that what is lent can be changed as a pyramid.
inline bool has_pyramid(const Case& c)
{
    return c.n >= 1 && c.n <= 4 && c.darts >= 1 && c.darts <= 4096 && c.h <= 32 &&
           c.rows.size() == std::size_t(c.n + 1) * c.darts && c.lambda.size() == c.darts &&
           c.delta.size() == c.darts;
}

// An explicit level, if the kernels below it are good.
inline std::optional<Map> level_of(const Case& c, unsigned level)
{
    try {
        Entries table(c.rows.size());
        const Map base(c.n, c.darts, c.rows);
        independent::demand_base(base);
        independent::demand_folded(c.n, c.darts, c.h, c.lambda, c.delta, 0);
        return independent::climb_to_top(base, level, c.lambda, c.delta, table);
    } catch (const Refusal&) {
        return {};
    }
}

// Calls f with every dart of the i-cell of a dart.
template <class F> void for_cell(const Map& m, unsigned i, unsigned dart, F f)
{
    Groups cell = independent::cells(m, i);
    const unsigned own = cell.find(dart);
    for (unsigned d = 0; d < m.darts; d++)
        if (m.present(d) && cell.find(d) == own)
            f(d);
}

// Marks a whole cell of a level, whether it fits or not; for an add, most often in the mark row.
inline void mark_cell(Random& r, Case& c)
{
    const bool in_row = c.what == ADD && c.marks.size() == c.darts && r.chance(70);
    if (!in_row && !c.h)
        return;
    const unsigned level = in_row ? c.h : r.below(c.h), dart = place_below(r, c.darts);
    const auto m = level_of(c, level);
    if (!m || !m->present(dart))
        return;
    const auto mark = std::uint8_t(random_mark(r, c.n, maps::Kinds::both));
    for_cell(*m, independent::mark_of(c.n, mark).dimension, dart, [&](unsigned d) {
        (in_row ? c.marks : c.delta)[d] = mark;
        if (!in_row)
            c.lambda[d] = std::uint8_t(level);
    });
}

// Takes a marked cell out of its kernel, and most often into another.
inline void move_cell(Random& r, Case& c)
{
    const unsigned dart = place_below(r, c.darts), to = r.below(c.h + 1);
    const unsigned from = c.lambda[dart];
    const Mark mark = independent::mark_of(c.n, c.delta[dart]);
    const auto m = from < c.h && mark ? level_of(c, from) : std::nullopt;
    if (!m || !m->present(dart))
        return;
    const unsigned delta = to == c.h ? c.n : c.delta[dart];
    for_cell(*m, mark.dimension, dart, [&](unsigned d) {
        c.lambda[d] = std::uint8_t(to);
        c.delta[d] = std::uint8_t(delta);
    });
}

// Two kernels change places, one is joined to the next, or an empty one comes in.
inline void change_kernels(Random& r, Case& c)
{
    const unsigned k = r.below(c.h + 1), l = r.below(c.h + 1), how = r.below(3);
    const int rise = how == 1 && c.h ? -1 : how == 2 && c.h < 32 ? 1 : 0;
    for (auto& at : c.lambda)
        if (rise)
            at = std::uint8_t(at + (at > k || (rise > 0 && at == k) ? rise : 0));
        else if (at == k || at == l)
            at = std::uint8_t(k + l - at);
    c.h = unsigned(int(c.h) + rise);
}

// Swaps two entries, where the list has both.
inline void swap_two(Bytes& list, unsigned x, unsigned y)
{
    if (std::max(x, y) < list.size())
        std::swap(list[x], list[y]);
}

// Gives two darts each other's number: a good pyramid stays good, and the place of a refusal moves.
inline void swap_darts(Random& r, Case& c)
{
    const unsigned x = place_below(r, c.darts), y = r.below(c.darts);
    Entries& rows = c.what == MARK ? c.table : c.rows;
    const Entries before = rows;
    for (std::size_t k = 0; k < rows.size(); k++) {
        const std::size_t d = k % c.darts, from = d == x ? k - x + y : d == y ? k - y + x : k;
        const unsigned entry = before[from];
        rows[k] = std::uint16_t(entry == x ? y : entry == y ? x : entry);
    }
    swap_two(c.lambda, x, y);
    swap_two(c.delta, x, y);
    swap_two(c.marks, x, y);
}

// Makes a dart and its neighbour by one row both free: the row stays an involution.
inline void unlink(Random& r, Entries& rows, unsigned darts)
{
    const std::size_t row = r.below(rows.size() / darts) * std::size_t(darts);
    const unsigned x = place_below(r, darts), y = rows[row + x];
    rows[row + x] = std::uint16_t(x);
    if (y < darts)
        rows[row + y] = std::uint16_t(y);
}

// One dart more, free in every row and on every level, or the last one gone.
inline void change_darts(Random& r, Case& c)
{
    const bool more = c.darts == 1 || (c.darts < 4096 && r.chance(50));
    const unsigned darts = more ? c.darts + 1 : c.darts - 1;
    Entries rows(std::size_t(c.n + 1) * darts);
    for (std::size_t k = 0; k < rows.size(); k++) {
        const unsigned d = unsigned(k % darts), old = d < c.darts ? c.rows[k / darts * c.darts + d] : d;
        rows[k] = std::uint16_t(!more && old == darts ? d : old);
    }
    c.rows = rows;
    c.darts = darts;
    fit_lengths(c);
    if (!more)
        return;
    c.lambda.back() = std::uint8_t(c.h);
    c.delta.back() = std::uint8_t(c.n);
    if (!c.marks.empty())
        c.marks.back() = std::uint8_t(independent::stay);
}

// Changes an entry or a mark that the walk of the question comes to after some steps.
inline void change_on_walk(Random& r, Case& c)
{
    const bool any = c.what == UNFOLD;
    unsigned row = any ? r.below(c.n + 1) : c.involution, at = any ? r.below(c.darts) : c.dart;
    if (row > c.n || at >= c.darts)
        return;
    std::vector<unsigned> passed{at};
    for (unsigned steps = r.below(12); steps; steps--) {
        const unsigned met = c.rows[std::size_t(row) * c.darts + at];
        const Mark mark = met < c.darts ? independent::mark_of(c.n, c.delta[met]) : Mark{};
        if (!mark || c.lambda[met] >= c.level || (row != mark.dimension && row != mark.other_row()))
            break;
        row = row == mark.dimension ? mark.other_row() : mark.dimension;
        passed.push_back(at = met);
    }
    std::uint16_t& entry = c.rows[std::size_t(row) * c.darts + at];
    const unsigned met = entry < c.darts ? entry : 0;
    switch (r.below(5)) {
    case 0: entry = std::uint16_t(passed[r.below(passed.size())]); break; // the walk may go round and round
    case 1: entry = std::uint16_t(r.below(c.darts)); break;
    case 2: entry = std::uint16_t(changed(r, entry, 16)); break;
    case 3: c.delta[met] = likely_mark(r, c.n); break;
    default: c.lambda[met] = std::uint8_t(changed(r, c.lambda[met], 6));
    }
}

// A change to rows, Lambda and Delta that keeps part of what makes them a pyramid.
inline void change_pyramid(Random& r, Case& c)
{
    const bool walks = c.what == READ || c.what == BY_LEVELS || c.what == UNFOLD;
    const bool cheap = std::size_t(c.darts) * (c.h + 1) < 2000 || r.chance(5);
    if (walks && r.chance(40))
        return change_on_walk(r, c);
    switch (r.below(cheap ? 12 : 9)) {
    case 0: link_others(r, c.rows, c.darts); break;
    case 1: unlink(r, c.rows, c.darts); break;
    case 2: change_kinds(r, c); break;
    case 3: change_kernels(r, c); break;
    case 4: swap_darts(r, c); break;
    case 5: change_darts(r, c); break;
    case 6: damage_rows(r, c.rows, c.darts); break;
    case 7: damage_marks(r, c, c.lambda); break;
    case 8: damage_marks(r, c, c.what == ADD && !c.marks.empty() ? c.marks : c.delta); break;
    case 9: move_cell(r, c); break;
    default: mark_cell(r, c);
    }
}

} // namespace mutations

#endif

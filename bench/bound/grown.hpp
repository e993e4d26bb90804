// Pyramids put together from parts, and small changes to them: what the search climbs by.
#ifndef GROWN_HPP
#define GROWN_HPP

#include "dear.hpp"

namespace grown {

// A small pyramid, and how often it is copied.
struct Part {
    Pyramid pyramid;
    unsigned times = 1;
};

// Parts side by side, all of one dimension, and what is asked.
struct Input {
    std::vector<Part> parts;
    bool reversed = false;
    unsigned empty = 0;      // kernels without a dart, on top
    unsigned level = 0;      // asked, from the top down
    unsigned involution = 0; // or dimension
    unsigned dart = 0;

    unsigned n() const { return parts[0].pyramid.n; }
};

inline unsigned darts_of(const Input& in)
{
    unsigned all = 0;
    for (const Part& part : in.parts)
        all += part.times * part.pyramid.darts;
    return all;
}

// One copy, behind what there is: rows are kept apart until all darts are known.
inline void put_copy(const Pyramid& p, unsigned h, std::vector<Entries>& rows, Pyramid& all)
{
    for (unsigned i = 0; i <= p.n; i++)
        for (unsigned d = 0; d < p.darts; d++)
            rows[i].push_back(std::uint16_t(all.darts + p.rows[i * p.darts + d]));
    for (unsigned d = 0; d < p.darts; d++) {
        all.lambda.push_back(std::uint8_t(p.lambda[d] == p.h ? h : p.lambda[d])); // survivors rise to the top
        all.delta.push_back(p.delta[d]);
    }
    all.darts += p.darts;
}

inline Pyramid assembled(const Input& in)
{
    Pyramid all;
    all.n = in.n();
    for (const Part& part : in.parts)
        all.h = std::max(all.h, part.pyramid.h);
    all.h = std::min(32u, all.h + in.empty);
    std::vector<Entries> rows(all.n + 1);
    for (const Part& part : in.parts)
        for (unsigned k = 0; k < part.times; k++)
            put_copy(part.pyramid, all.h, rows, all);
    for (const Entries& row : rows)
        all.rows.insert(all.rows.end(), row.begin(), row.end());
    return in.reversed ? dear::reversed(all) : all;
}

// ---------------------------------------------------------------- parts

// One survivor, then pairs of darts along row i, removed or contracted as drawn, and at the end a fixed point: one walk
// passes all. That is the dearest way of the linear program, with its pattern left open.
inline Pyramid drawn_chain(Random& r, unsigned n, unsigned darts)
{
    Pyramid p = dear::alone(n, darts);
    const unsigned i = r.below(n + 1), mixed = r.pick({0u, 20u, 50u, 100u});
    p.h = r.pick({1u, 1u, 2u, 32u});
    const unsigned kernel = r.below(p.h);
    bool removed = i < n;
    std::fill(p.lambda.begin(), p.lambda.end(), std::uint8_t(p.h));
    dear::link(p, i, 0, 1);
    for (unsigned d = 1; d < darts; d += 2) {
        for (unsigned e = d; e < std::min(d + 2, darts); e++) {
            p.delta[e] = std::uint8_t(removed ? i : independent::contracted + i);
            p.lambda[e] = std::uint8_t(kernel);
        }
        dear::link(p, removed ? i + 1 : i - 1, d, d + 1);
        dear::link(p, i, d + 1, d + 2);
        if (i > 0 && i < n && r.chance(mixed))
            removed = !removed;
    }
    return p;
}

inline Pyramid drawn_part(Random& r, unsigned n, unsigned most)
{
    const unsigned darts = r.between(1, std::min(most, r.chance(80) ? 12u : 200u));
    if (r.chance(25) && darts > 1)
        return drawn_chain(r, n, darts);
    if (r.chance(10))
        return dear::alone(n, darts);
    return maps::random_pyramid(r, n, darts, r.pick({0u, 1u, 1u, 2u, 3u}), r.between(20, 90));
}

// ---------------------------------------------------------------- small changes

// Times changed so that there are at most so many darts, and most often just as many.
inline void fill_up(Random& r, Input& in, unsigned most)
{
    while (darts_of(in) > most && in.parts.size() > 1)
        in.parts.pop_back();
    Part& part = in.parts[r.below(in.parts.size())];
    const unsigned others = darts_of(in) - part.times * part.pyramid.darts;
    part.times = others < most ? std::max(1u, (most - others) / part.pyramid.darts) : 1;
    while (darts_of(in) > most && part.times > 1)
        part.times--;
}

inline void change_part(Random& r, Part& part)
{
    Pyramid& p = part.pyramid;
    const unsigned d = r.below(p.darts), e = r.below(p.darts);
    p.levels.clear();
    switch (r.below(5)) {
    case 0: link_others(r, p.rows, p.darts); break;
    case 1:
        p.lambda[d] = std::uint8_t(p.h ? r.below(p.h) : 0);
        p.delta[d] = std::uint8_t(random_mark(r, p.n, maps::Kinds::both));
        break;
    case 2: p.lambda[d] = p.lambda[e], p.delta[d] = p.delta[e]; break;
    case 3: // all kernels later
        if (p.h < 32) {
            for (auto& l : p.lambda)
                l++;
            p.h++;
        }
        break;
    default: // the other kind
        for (auto& mark : p.delta)
            if (mark == p.delta[d] && independent::mark_of(p.n, mark ^ independent::contracted))
                mark ^= independent::contracted;
    }
}

inline void change(Random& r, Input& in)
{
    const unsigned at = r.below(in.parts.size());
    switch (r.below(12)) {
    case 0: in.parts[at].pyramid = drawn_part(r, in.n(), dear::most_darts); break;
    case 1: in.parts.push_back({drawn_part(r, in.n(), 100), 1}); break;
    case 2:
        if (in.parts.size() > 1)
            in.parts.erase(in.parts.begin() + at);
        break;
    case 3: in.parts[at].times = r.between(1, 2 * in.parts[at].times); break;
    case 4: in.reversed = !in.reversed; break;
    case 5: in.empty = r.pick({0u, 1u, 2u, 30u, 31u, 32u}); break;
    case 6: in.level = r.below(4); break;
    case 7: in.involution = r.below(in.n() + 1); break;
    case 8: in.dart = r.below(dear::most_darts); break;
    case 9: in.parts.push_back({dear::alone(in.n(), r.between(1, 40)), 1}); break;
    default:
        if (in.parts[at].pyramid.darts < 300 || r.chance(30))
            change_part(r, in.parts[at]);
    }
    const unsigned most = r.chance(70) ? dear::most_darts : r.between(1, dear::most_darts);
    if (darts_of(in) > dear::most_darts || r.chance(50))
        fill_up(r, in, most);
}

inline Input drawn(Random& r)
{
    Input in;
    const unsigned n = r.between(1, 4);
    in.parts.push_back({drawn_part(r, n, r.chance(20) ? dear::most_darts : 16), 1});
    fill_up(r, in, r.chance(60) ? dear::most_darts : r.between(1, 64));
    return in;
}

} // namespace grown

#endif

// Compares the library with the independent implementation on random, large and damaged inputs.
#include "comparison.hpp"
#include "random_cases.hpp"

#include <fstream>
#include <iostream>

namespace {

// ---------------------------------------------------------------- what occurred

struct Tally {
    unsigned long seen[JOBS][numbers] = {};
    unsigned long large = 0, high = 0, contracting = 0, mixing = 0;
    unsigned most_darts = 0, most_height = 0;

    void count(const Case& c, const Answer& a, const Pyramid& source)
    {
        seen[c.what][number_of(c, a)]++;
        large += source.darts >= 1000;
        high += source.h > 8;
        const bool contracts = has(source, independent::Kind::contraction);
        contracting += contracts;
        mixing += contracts && has(source, independent::Kind::removal);
        most_darts = std::max(most_darts, source.darts);
        most_height = std::max(most_height, source.h);
    }

    void print() const
    {
        std::printf("%-14s", "number");
        for (unsigned x = 0; x < numbers; x++)
            std::printf(" %6u", x);
        for (unsigned j = 0; j < JOBS; j++) {
            std::printf("\n%-14s", job_names[j]);
            for (unsigned x = 0; x < numbers; x++)
                seen[j][x] ? std::printf(" %6lu", seen[j][x]) : std::printf("      .");
        }
        std::printf("\nfrom pyramids of 1,000 darts or more: %lu (largest %u); higher than 8: %lu (highest %u); with "
                    "contractions: %lu, %lu of them with removals too\n",
                    large, most_darts, high, most_height, contracting, mixing);
    }

    static bool has(const Pyramid& p, independent::Kind kind)
    {
        return std::any_of(p.delta.begin(), p.delta.end(),
                           [&](unsigned byte) { return independent::mark_of(p.n, byte).kind == kind; });
    }

    // Names the refusals that never occurred.
    bool complete() const
    {
        bool all = true;
        for (unsigned j = 0; j < JOBS; j++)
            for (const unsigned x : possible[j])
                if (!seen[j][x]) {
                    std::printf("never occurred: %s %u\n", job_names[j], x);
                    all = false;
                }
        return all;
    }
};

// ---------------------------------------------------------------- the comparison

int compare_random(std::uint64_t seed, unsigned long count)
{
    constexpr unsigned cases_a_source = 24;
    say_case_of_faults();
    Random r(seed);
    Tally tally;
    Pyramid source;
    unsigned long differences = 0, done = 0;
    for (; done < count && differences < 5; done++) {
        if (done % cases_a_source == 0)
            source = random_source(r);
        const Case c = random_case(r, source);
        current = &c;
        call_place = r.chance(75) ? BETWEEN_CANARIES : place(r.below(PLACES));
        Answer a;
        differences += !agree(c, a);
        tally.count(c, a, source);
        current = nullptr;
    }
    tally.print();
    const bool complete = count < 200000 || tally.complete();
    std::printf("%lu cases, seed %llu: %lu differences\n", done, (unsigned long long)seed, differences);
    return differences || !complete;
}

int answer_vectors(const char* name)
{
    std::ifstream in(name);
    std::string line;
    if (!in) {
        std::perror(name);
        return 2;
    }
    while (std::getline(in, line)) {
        Case c = read_case(line);
        const Answer a = answer_independently(c);
        std::cout << answer_line(c, a) << '\n';
    }
    return 0;
}

// ---------------------------------------------------------------- old records, for the program convert

// Records of random pyramids, most of them with one byte an entry and some damaged, as lines of vectors.
int print_old_records(std::uint64_t seed, unsigned long count)
{
    Random r(seed);
    for (; count; count--) {
        Pyramid source = random_source(r);
        Case c;
        std::vector<std::size_t> starts;
        lend_pyramid(r, c, source);
        if (r.chance(25))
            r.chance(50) ? damage_rows(r, c.rows, c.darts) : damage_marks(r, c, r.chance(50) ? c.lambda : c.delta);
        c.bytes = record_of(c, r.chance(c.darts <= 256 ? 75 : 5), starts);
        if (r.chance(50))
            damage_record(r, c.bytes, starts);
        std::cout << "convert";
        write_list(std::cout, c.bytes);
        std::cout << '\n';
    }
    return 0;
}

int answer_converting(const char* name)
{
    std::ifstream in(name);
    std::string word;
    if (!in) {
        std::perror(name);
        return 2;
    }
    while (in >> word) {
        Bytes record;
        read_list(in, record);
        std::cout << independent::convert(record) << '\n';
    }
    return 0;
}

} // namespace

int main(int argc, char** argv)
{
    if (argc == 3 && !std::strcmp(argv[1], "--vectors"))
        return answer_vectors(argv[2]);
    if (argc == 3 && !std::strcmp(argv[1], "--convert"))
        return answer_converting(argv[2]);
    if (argc == 4 && !std::strcmp(argv[1], "--old-records"))
        return print_old_records(std::strtoull(argv[2], nullptr, 10), std::strtoul(argv[3], nullptr, 10));
    if (argc == 4 && !std::strcmp(argv[1], "--random"))
        return compare_random(std::strtoull(argv[2], nullptr, 10), std::strtoul(argv[3], nullptr, 10));
    std::fprintf(stderr, "compare --vectors FILE.cases | --convert FILE.cases | --old-records SEED COUNT | --random SEED "
                         "COUNT\n");
    return 2;
}

// One case answered by the independent implementation and by the library, and what is said where they differ.
#ifndef COMPARISON_HPP
#define COMPARISON_HPP

#include "cases.hpp"

#include <csignal>

constexpr unsigned numbers = 24;

// The numbers that each job can give, 0 for accepted.
inline const std::vector<unsigned> possible[JOBS] = {
    {0, 1, 2, 4, 5, 6, 7},
    {0, 1, 2, 3, 4, 5, 6, 7, 8, 9, 10},
    {0, 1, 2, 3, 4, 5, 6, 7, 8, 9, 10, 20},
    {0, 1, 2, 3, 4, 8, 11},
    {0, 1, 2, 3, 4, 5, 8, 11, 12, 13, 14, 15},
    {0, 1, 2, 3, 4, 5, 8, 11, 12, 13, 14, 15},
    {0, 1, 2, 3, 4, 5, 8, 11, 14, 15},
    {0, 1, 2, 3, 4, 11, 13},
    {0, 2, 3, 4, 8, 11},
    {0, 1, 2, 4, 5, 6, 7, 13},
    {0, 1, 2, 3, 4, 5, 6, 7, 8, 9, 10, 16, 17, 18, 19},
    {0, 1, 2, 3, 4, 5, 6, 7, 8, 9, 10},
    {0, 1, 2, 3, 4, 5, 6, 7, 8, 9, 10, 11},
    {0, 2, 4, 5, 6, 21},
    {0, 1, 2, 4, 5, 6, 7, 22},
    {0, 1, 2, 3, 4, 5, 6, 7, 8, 9, 10},
    {0, 1, 2, 3, 4, 5, 6, 7, 8, 9, 10, 11, 23},
    {0, 1, 2, 3, 4, 5, 6, 7, 8, 9, 10, 11},
    {0, 1, 2, 3, 4, 5, 6, 7, 8, 9, 10, 11},
    {0, 1, 2, 3, 4, 5, 6, 7, 8, 9, 10},
    {0, 1, 2, 3, 5, 6, 7, 8, 9, 10, 16, 17, 18, 19},
    {0, 1, 2, 3, 5, 6, 7, 8, 9, 10, 16, 17, 18, 19},
};

// The number of an answer; the programs have it in their text.
inline unsigned number_of(const Case& c, const Answer& a)
{
    unsigned number = a.refusal.number;
    if (c.what == LEVELS || c.what == CENSUS_PROGRAM)
        std::sscanf(a.text.c_str(), "refused %u", &number);
    assert(number < numbers);
    return number;
}

// ---------------------------------------------------------------- memory touched where it isn't lent

// The case that is being answered, to be printed should the library not come back from it.
inline const Case* current = nullptr;

inline void print_current()
{
    if (current)
        std::fprintf(stderr, "case: %s\n", case_line(*current).c_str());
}

// Aligned here since an emulator may not have aligned the stack that it calls this on.
__attribute__((force_align_arg_pointer)) inline void on_signal(int signal)
{
    std::fprintf(stderr, "%s\n",
                 signal == SIGALRM ? "a call hasn't come back" : "memory outside the lent memory was touched");
    print_current();
    std::_Exit(2);
}

// Has the case printed when a guard is hit, or when the time of an alarm is over.
inline void say_case_of_faults()
{
    call_failed = print_current;
    std::signal(SIGSEGV, on_signal);
    std::signal(SIGALRM, on_signal);
}

// ---------------------------------------------------------------- the comparison

// Whether the library gives the answer and leaves in the lent memory what the independent implementation did.
inline bool library_agrees(const Case& c, const Case& after, const Answer& a)
{
    Case by_library = c;
    const Answer theirs = answer_by_library(by_library);
    if (same_answer(a, theirs) && same_lent(after, by_library))
        return true;
    std::printf("case:        %s\nindependent: %s\nlibrary:     %s\n", case_line(c).c_str(),
                answer_line(after, a).c_str(), answer_line(by_library, theirs).c_str());
    return false;
}

// The same with the independent answer made first, and handed back.
inline bool agree(const Case& c, Answer& a)
{
    Case after = c;
    a = answer_independently(after);
    return library_agrees(c, after, a);
}

#endif

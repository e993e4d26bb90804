/* Puts each call of the library between two marks of the plug-in bound/edges.c; tests/call.c is compiled with it. What was
 * counted comes back by a pipe. */
#ifndef COUNTED_H
#define COUNTED_H

#include "zompelgors.h"
#include "zompelgors_regions.h"

enum { COUNT_MARK = 0x7a67 }; /* no system call has this number */

/* The two ends of the pipe: the plug-in writes to one, the program reads from the other. */
#ifdef __cplusplus
extern "C" {
#endif
extern int count_reading, count_writing;
#ifdef __cplusplus
}
#endif

/* Written out, so that the C library's errno and its like aren't counted. */
static inline void count_mark(long begins)
{
    long number = COUNT_MARK;
    __asm__ volatile("syscall" : "+a"(number) : "D"(begins), "S"((long)count_writing) : "rcx", "r11", "memory");
}

#define COUNTED(call)                                                                                                  \
    __extension__({                                                                                                    \
        count_mark(1);                                                                                                 \
        __typeof__(call) counted_ = call;                                                                              \
        count_mark(0);                                                                                                 \
        counted_;                                                                                                      \
    })

#define zg_version() COUNTED(zg_version())
#define zg_check_base(...) COUNTED(zg_check_base(__VA_ARGS__))
#define zg_check(...) COUNTED(zg_check(__VA_ARGS__))
#define zg_add(...) COUNTED(zg_add(__VA_ARGS__))
#define zg_marks_of(...) COUNTED(zg_marks_of(__VA_ARGS__))
#define zg_read(...) COUNTED(zg_read(__VA_ARGS__))
#define zg_read_by_levels(...) COUNTED(zg_read_by_levels(__VA_ARGS__))
#define zg_unfold(...) COUNTED(zg_unfold(__VA_ARGS__))
#define zg_unfold_all(...) COUNTED(zg_unfold_all(__VA_ARGS__))
#define zg_row(...) COUNTED(zg_row(__VA_ARGS__))
#define zg_survivors(...) COUNTED(zg_survivors(__VA_ARGS__))
#define zg_mark_cells(...) COUNTED(zg_mark_cells(__VA_ARGS__))
#define zg_take(...) COUNTED(zg_take(__VA_ARGS__))
#define zg_write(...) COUNTED(zg_write(__VA_ARGS__))
#define zg_decimation(...) COUNTED(zg_decimation(__VA_ARGS__))
#define zg_census(...) COUNTED(zg_census(__VA_ARGS__))
#define zg_import(...) COUNTED(zg_import(__VA_ARGS__))
#define zg_export(...) COUNTED(zg_export(__VA_ARGS__))
#define zg_regions(...) COUNTED(zg_regions(__VA_ARGS__))
#define zg_join(...) COUNTED(zg_join(__VA_ARGS__))
#define zg_rebase(...) COUNTED(zg_rebase(__VA_ARGS__))

#endif

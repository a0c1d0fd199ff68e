// A clock for source_main.ml: nanoseconds.
#include <caml/mlvalues.h>
#include <time.h>

value bench_clock(value unit) {
    (void)unit;
    struct timespec t;
    clock_gettime(CLOCK_MONOTONIC, &t);
    return Val_long(t.tv_sec * 1000000000L + t.tv_nsec);
}

/*
 * Two arrays, one hot and one cold, and a scan of the cold one now and then.
 *
 * Each round reads one byte of each page of the hot array. The cold array is written once before the
 * first round, and then scanned between rounds, as PLAN says. Before all this the program prints the
 * addresses of both arrays and the plan, so that it is known what a monitor of its memory has to find.
 *
 * README.md in this folder says how the trace arrays.trace.xz was made of it.
 */
#include <stddef.h>
#include <stdio.h>

enum { PAGE = 4096, HOT_PAGES = 16, COLD_PAGES = 64, ROUNDS = 50000 };

/* A scan of the pages from `first` to before `after` of the cold array, after `round` rounds. */
struct scan {
    unsigned round;
    size_t first, after;
};

static const struct scan PLAN[] = {
    {12500, 0, COLD_PAGES},
    {17500, 0, COLD_PAGES / 2},
    {37500, 0, COLD_PAGES},
};
enum { SCANS = sizeof PLAN / sizeof PLAN[0] };

static _Alignas(PAGE) volatile char hot[HOT_PAGES * PAGE];
static _Alignas(PAGE) volatile char cold[COLD_PAGES * PAGE];

static void print_array(const char *name, const volatile char *array, size_t pages)
{
    printf("%s 0x%zx 0x%zx\n", name, (size_t)array, (size_t)array + pages * PAGE);
}

static void write_pages(volatile char *array, size_t pages)
{
    for (size_t page = 0; page < pages; page++)
        array[page * PAGE] = 1;
}

static void read_pages(const volatile char *array, size_t first, size_t after)
{
    for (size_t page = first; page < after; page++)
        (void)array[page * PAGE];
}

static void run_rounds(unsigned rounds)
{
    for (unsigned round = 0; round < rounds; round++)
        read_pages(hot, 0, HOT_PAGES);
}

int main(void)
{
    print_array("hot", hot, HOT_PAGES);
    print_array("cold", cold, COLD_PAGES);
    for (size_t number = 0; number < SCANS; number++)
        printf("scan %u %zu %zu\n", PLAN[number].round, PLAN[number].first, PLAN[number].after);
    fflush(stdout);

    write_pages(cold, COLD_PAGES);
    unsigned done = 0;
    for (size_t number = 0; number < SCANS; number++) {
        run_rounds(PLAN[number].round - done);
        done = PLAN[number].round;
        read_pages(cold, PLAN[number].first, PLAN[number].after);
    }
    run_rounds(ROUNDS - done);
    return 0;
}

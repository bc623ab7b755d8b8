/* Checks in groups, for C and C++. A group passes if all its checks hold. */
#ifndef CHECK_H
#define CHECK_H

#include <stdio.h>
#include <stdlib.h>

/* Of the group that is running. */
static unsigned checks, faults;

#define CHECK(holds) check((holds), #holds, __FILE__, __LINE__)

static void check(int holds, const char *what, const char *file, int line)
{
    checks++;
    if (!holds && ++faults <= 5)
        printf("  %s:%d: %s\n", file, line, what);
}

struct group {
    const char *name;
    void (*run)(void);
};

#define RUN_GROUPS(groups) run_groups((groups), sizeof(groups) / sizeof *(groups))

/* Runs each group, and gives the exit status. */
static int run_groups(const struct group *groups, size_t count)
{
    unsigned passed = 0, failed = 0;
    size_t i;

    for (i = 0; i < count; i++) {
        checks = faults = 0;
        groups[i].run();
        if (faults == 0 && checks > 0) {
            passed++;
            printf("ok %s: %u checks\n", groups[i].name, checks);
        } else {
            failed++;
            printf("FAILED %s: %u of %u checks\n", groups[i].name, faults, checks);
        }
    }
    printf("%u passed, %u failed\n", passed, failed);
    return failed == 0 ? EXIT_SUCCESS : EXIT_FAILURE;
}

#endif

/*
 * The tests of the library from C.
 *   tests plain|end|start [brief] [NAME..]   all tests, or those named, with the buffers as they are, or each at the end or at the start of
 *                                            guarded pages; `brief` tries fewer damaged states and random calls
 *   tests list                               the names
 *   tests read-past|write-past               tells a call of more bytes than there are: must be stopped by the guard
 * Prints one line with what was done; where a test fails, what and where, and ends with 1.
 */
#include "stage.h"

static const struct test *const groups[] = {listing_tests, case_tests, refusal_tests, form_tests, display_tests, lens_tests, reason_tests, walk_tests};
enum { GROUPS = sizeof groups / sizeof *groups };

static int usage(void)
{
    fputs("usage: tests plain|end|start [brief] [NAME..] | tests list | tests read-past|write-past\n", stderr);
    return 2;
}

static int wanted(const char *name, int count, char **names)
{
    int i;
    for (i = 0; i < count; i++)
        if (strcmp(names[i], name) == 0)
            return 1;
    return count == 0;
}

static int run(int count, char **names)
{
    int g, ran = 0;
    const struct test *t;
    for (g = 0; g < GROUPS; g++)
        for (t = groups[g]; t->name != NULL; t++)
            if (wanted(t->name, count, names)) {
                t->run();
                ran++;
            }
    return ran;
}

static int list(void)
{
    int g;
    const struct test *t;
    for (g = 0; g < GROUPS; g++)
        for (t = groups[g]; t->name != NULL; t++)
            puts(t->name);
    return 0;
}

/* The guard at work: a buffer that is one byte shorter than the call is told. */
static int past(int writes)
{
    static struct host h;
    struct pages p = pages_for(1, 1);
    uint8_t *short_one;
    member(&h, 0);
    if (writes) {
        short_one = pages_lend(&p, AT_END, h.out, 11);
        cuelink_report(h.state, sizeof h.state, 0, h.draws, CUELINK_DRAWS, short_one, CUELINK_ROOM);
    } else {
        short_one = pages_lend(&p, AT_END, h.out, CUELINK_CUE - 1);
        cuelink_send(h.state, sizeof h.state, 0, h.draws, CUELINK_DRAWS, short_one, CUELINK_CUE, h.out, sizeof h.out);
    }
    return 0;
}

int main(int count, char **arguments)
{
    const char *mode = count > 1 ? arguments[1] : "";
    unsigned long calls = 0;
    int names = 2, ran, i;
    if (count == 2 && strcmp(mode, "list") == 0)
        return list();
    if (count == 2 && (strcmp(mode, "read-past") == 0 || strcmp(mode, "write-past") == 0))
        return past(strcmp(mode, "write-past") == 0);
    if (strcmp(mode, "plain") != 0 && strcmp(mode, "end") != 0 && strcmp(mode, "start") != 0)
        return usage();
    lend_at(strcmp(mode, "end") == 0 ? AT_END : strcmp(mode, "start") == 0 ? AT_START : PLAIN);
    if (count > 2 && strcmp(arguments[2], "brief") == 0) {
        brief = 1;
        names++;
    }
    ran = run(count - names, arguments + names);
    if (ran == 0) {
        fprintf(stderr, "tests: there is no test %s; tests list says which there are\n", arguments[names]);
        return 2;
    }
    for (i = 0; i < CALLS; i++) {
        calls += calls_made[i];
        if (count == names && calls_made[i] == 0) {
            fprintf(stderr, "tests: cuelink_%s was never called\n", call_names[i]);
            return 1;
        }
    }
    printf("%s%s: %d tests, %lu calls\n", mode, brief ? ", brief" : "", ran, calls);
    if (fflush(stdout) != 0) {
        perror("tests: what they say cannot be written");
        return 2;
    }
    return 0;
}

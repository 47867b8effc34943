/* Lens windows from C: document 02, P10. */
#include "stage.h"

enum { MOST = (CUELINK_WINDOWS + 2) * CUELINK_WINDOW };

static uint64_t finds(const uint64_t *windows, size_t count, uint64_t year, uint64_t month, uint64_t day, uint64_t minute)
{
    struct call c = {0};
    c.what = FIND;
    c.params = windows;
    c.params_len = count;
    c.number[0] = year;
    c.number[1] = month;
    c.number[2] = day;
    c.number[3] = minute;
    return made(&c);
}

static uint64_t rolls(uint64_t year, uint64_t month, uint64_t day)
{
    struct call c = {0};
    c.what = ROLL;
    c.number[0] = year;
    c.number[1] = month;
    c.number[2] = day;
    return made(&c);
}

static uint64_t at(uint64_t year, uint64_t month, uint64_t day, uint64_t minute)
{
    return (uint64_t)CUELINK_AT << 32 | year << 20 | month << 16 | day << 11 | minute;
}

static void found(void)
{
    static const uint64_t two[] = {2024, 2, 27, 2024, 3, 1, 600, 660, 2099, 12, 31, 2099, 12, 31, 1439, 1440};
    uint64_t answer = finds(two, 8, 2024, 2, 28, 660);
    IS(answer, at(2024, 2, 29, 600));
    HOLDS(cuelink_year(answer) == 2024 && cuelink_month(answer) == 2 && cuelink_day(answer) == 29 && cuelink_minute(answer) == 600);
    IS(finds(two, 8, 2000, 1, 1, 0), at(2024, 2, 27, 600));
    IS(finds(two, 8, 2024, 2, 27, 659), at(2024, 2, 27, 659));
    IS(finds(two, 8, 2024, 3, 1, 659), at(2024, 3, 1, 659));
    IS(finds(two, 8, 2024, 3, 1, 660), NOTHING_IS);
    IS(finds(two, 16, 2024, 3, 1, 660), at(2099, 12, 31, 1439));
    IS(finds(two, 16, 2099, 12, 31, 1439), at(2099, 12, 31, 1439));
    IS(finds(two, 16, 2024, 2, 28, 0), at(2024, 2, 28, 600));
    IS(finds(NULL, 0, 2024, 2, 28, 0), NOTHING_IS);
}

/* Each number of a window and of the moment, one too large or otherwise none: 15. Nothing is cut. */
static void refused(void)
{
    static const uint64_t good[] = {2024, 2, 27, 2024, 3, 1, 600, 660, 2024, 6, 15};
    static const struct {
        int which; /* 0 to 7 of the window, 8 to 11 of the moment */
        uint64_t value;
    } rows[] = {
        {0, 1999}, {0, 2100}, {0, 2025}, {0, 65536 + 2024}, {0, (UINT64_C(1) << 32) + 2024}, {1, 0}, {1, 13}, {1, 256 + 2}, {2, 0}, {2, 30},
        {2, 256 + 27}, {3, 2023}, {3, 2100}, {3, UINT64_MAX}, {4, 0}, {4, 2}, {4, 259}, {5, 0}, {5, 32}, {5, 257}, {6, 660}, {6, 1440},
        {6, 65536}, {7, 600}, {7, 599}, {7, 0}, {7, 1441}, {7, 65536 + 660}, {7, UINT64_MAX}, {8, 1999}, {8, 2100}, {8, 65536 + 2024}, {9, 0}, {9, 13},
        {9, 256 + 3}, {10, 0}, {10, 32}, {10, 256 + 1}, {11, 1440}, {11, 65536}, {11, UINT64_MAX},
    };
    size_t i;
    IS(finds(good, 8, 2024, 3, 1, 0), at(2024, 3, 1, 600));
    for (i = 0; i < sizeof rows / sizeof *rows; i++) {
        uint64_t all[12] = {2024, 2, 27, 2024, 3, 1, 600, 660, 2024, 3, 1, 0};
        all[rows[i].which] = rows[i].value;
        if (rows[i].which == 4 && rows[i].value == 2)
            all[5] = 26;
        if (finds(all, 8, all[8], all[9], all[10], all[11]) != CUELINK_BAD_DATE)
            FAILED("row %zu is not refused as 15", i);
    }
    for (i = 1; i < 8; i++)
        IS(finds(good, i, 2024, 3, 1, 0), CUELINK_BAD_DATE);
    IS(finds(good, 9, 2024, 3, 1, 0), CUELINK_BAD_DATE);
}

/* 32 windows are taken, 33 not; a bad one at any place is refused. */
static void many(void)
{
    static uint64_t all[MOST];
    static const uint64_t one[] = {2050, 1, 1, 2050, 1, 31, 10, 20};
    size_t i;
    for (i = 0; i < MOST; i++)
        all[i] = one[i % CUELINK_WINDOW];
    IS(finds(all, CUELINK_WINDOWS * CUELINK_WINDOW, 2000, 1, 1, 0), at(2050, 1, 1, 10));
    IS(finds(all, (CUELINK_WINDOWS + 1) * CUELINK_WINDOW, 2000, 1, 1, 0), CUELINK_BAD_DATE);
    IS(finds(all, CUELINK_WINDOWS * CUELINK_WINDOW + 1, 2000, 1, 1, 0), CUELINK_BAD_DATE);
    for (i = 0; i < CUELINK_WINDOWS; i++) {
        all[i * CUELINK_WINDOW] = 2051;
        IS(finds(all, CUELINK_WINDOWS * CUELINK_WINDOW, 2000, 1, 1, 0), CUELINK_BAD_DATE);
        all[i * CUELINK_WINDOW] = 2049;
        IS(finds(all, CUELINK_WINDOWS * CUELINK_WINDOW, 2000, 1, 1, 0), at(2049, 1, 1, 10));
        all[i * CUELINK_WINDOW] = 2050;
    }
}

/* The calendar of 2000 to 2099, day after day, counted by other means: day i of it is the 719,468th of the civil count, and so on. */
static void rolled(void)
{
    static const unsigned lengths[] = {31, 28, 31, 30, 31, 30, 31, 31, 30, 31, 30, 31};
    uint64_t answer = at(2000, 1, 1, 0);
    unsigned year, month, day;
    for (year = 2000; year < 2100; year++)
        for (month = 1; month <= 12; month++) {
            unsigned length = lengths[month - 1] + (month == 2 && year % 4 == 0);
            for (day = 1; day <= length; day++) {
                IS(answer, at(year, month, day, 0));
                answer = rolls(year, month, day);
            }
            IS(rolls(year, month, length + 1), CUELINK_BAD_DATE);
        }
    IS(answer, at(2099, 12, 31, 0));
    IS(rolls(1999, 12, 31), CUELINK_BAD_DATE);
    IS(rolls(2100, 1, 1), CUELINK_BAD_DATE);
    IS(rolls(2023, 2, 29), CUELINK_BAD_DATE);
    IS(rolls(65536 + 2024, 1, 1), CUELINK_BAD_DATE);
    IS(rolls(2024, 256 + 1, 1), CUELINK_BAD_DATE);
    IS(rolls(2024, 1, (UINT64_C(1) << 32) + 1), CUELINK_BAD_DATE);
    IS(rolls(UINT64_MAX, 1, 1), CUELINK_BAD_DATE);
}

const struct test lens_tests[] = {{"lens-found", found}, {"lens-refused", refused}, {"lens-many", many}, {"lens-rolled", rolled}, {NULL, NULL}};

/* Foyer displays from C: opening, the window's example of docs/DISPLAYS.md, each refusal in its place, steps, looks, damaged bytes. */
#include "stage.h"

static uint8_t shown[CUELINK_DISPLAY_SIZE];
static uint64_t lost[CUELINK_LOST];
static uint8_t out[CUELINK_ROOM];

static struct call call_of(enum what what, uint64_t clock)
{
    struct call c = {0};
    c.what = what;
    c.state = shown;
    c.state_len = sizeof shown;
    c.clock = clock;
    c.lost = lost;
    c.lost_len = CUELINK_LOST;
    c.out = out;
    c.out_len = sizeof out;
    return c;
}

static uint64_t opens_display(uint64_t own, uint64_t sender, size_t length)
{
    static uint8_t bytes[CUELINK_DISPLAY_SIZE + 1];
    struct call c = {0};
    uint64_t answer;
    c.what = DISPLAY_OPEN;
    c.number[0] = own;
    c.number[1] = sender;
    c.state = bytes;
    c.state_len = length;
    answer = made(&c);
    if (answer == 0)
        memcpy(shown, bytes, sizeof shown);
    return answer;
}

static uint64_t hear(uint64_t clock, struct message m)
{
    struct call c = call_of(HEAR, clock);
    c.bytes = m.bytes;
    c.bytes_len = m.length;
    return made(&c);
}

static uint64_t step(uint64_t clock)
{
    struct call c = call_of(STEP, clock);
    return made(&c);
}

static uint64_t look(enum what what)
{
    struct call c = call_of(what, 0);
    return made(&c);
}

static int window_is(uint64_t trail, uint64_t lead)
{
    return look(SHOWN_TRAIL) == trail && look(SHOWN_LEAD) == lead;
}

static int lost_is(uint64_t from, uint64_t set, uint64_t first, uint64_t last)
{
    return lost[0] == from && lost[1] == set && lost[2] == first && lost[3] == last;
}

/* Two different hosts below 8, never cut; the length first. */
static void opened(void)
{
    static const uint64_t above[] = {8, 256, 256 + 1, UINT64_C(1) << 32, UINT64_MAX};
    struct call c = {0};
    uint64_t a, b;
    size_t i;
    c.what = DISPLAY_SIZE;
    IS(made(&c), CUELINK_DISPLAY_SIZE);
    for (a = 0; a < 8; a++)
        for (b = 0; b < 8; b++) {
            IS(opens_display(a, b, CUELINK_DISPLAY_SIZE), a == b ? CUELINK_BAD_HOST : CUELINK_OK);
            IS(opens_display(a, b, CUELINK_DISPLAY_SIZE - 1), CUELINK_NOT_SOUND);
            IS(opens_display(a, b, CUELINK_DISPLAY_SIZE + 1), CUELINK_NOT_SOUND);
        }
    for (i = 0; i < sizeof above / sizeof *above; i++) {
        IS(opens_display(above[i], 1, CUELINK_DISPLAY_SIZE), CUELINK_BAD_HOST);
        IS(opens_display(1, above[i], CUELINK_DISPLAY_SIZE), CUELINK_BAD_HOST);
        IS(opens_display(above[i], above[i], 0), CUELINK_NOT_SOUND);
    }
    IS(opens_display(3, 1, CUELINK_DISPLAY_SIZE), CUELINK_OK);
    HOLDS(look(SHOWN_OWN) == 3 && look(SHOWN_SENDER) == 1 && look(SHOWN_CLOCK) == 0 && window_is(CUELINK_NONE, CUELINK_NONE));
}

/* docs/DISPLAYS.md, "The window in plain words": each line from the window that the one before left. */
static void window(void)
{
    const uint64_t none = CUELINK_NONE;
    IS(opens_display(3, 1, CUELINK_DISPLAY_SIZE), CUELINK_OK);
    IS(hear(1, annc_of(1, 4, 5)), IGNORED_IS);
    HOLDS(lost_is(0, 0, none, none) && window_is(none, none));
    IS(hear(1, repl_of(2, 1, 5, 0, 1)), IGNORED_IS);
    IS(hear(2, data_of(1, 5, -7)), GOT_OF(1, 5));
    HOLDS(lost_is(0, 0, none, none) && window_is(5, 5) && out[0] == 0xFF && out[1] == 0xF9);
    IS(hear(3, data_of(1, 70, 1)), GOT_OF(1, 70));
    HOLDS(lost_is(5, 0, 6, 6) && window_is(7, 70));
    IS(hear(4, annc_of(1, 60, 70)), DONE_IS);
    HOLDS(lost_is(7, (UINT64_C(1) << 53) - 1, none, none) && window_is(60, 70));
    IS(hear(5, annc_of(1, 200, 210)), DONE_IS);
    HOLDS(lost_is(60, 1023, 71, 199) && window_is(200, 210));
    IS(hear(6, data_of(1, 205, 2)), GOT_OF(1, 205));
    HOLDS(lost_is(200, 0, none, none) && window_is(200, 210));
    IS(hear(7, data_of(1, 205, 2)), IGNORED_IS);
    IS(hear(7, data_of(1, 199, 2)), IGNORED_IS);
    IS(hear(8, annc_of(1, 150, 205)), DONE_IS);
    HOLDS(lost[1] == 0 && lost[2] == none && window_is(200, 210) && look(SHOWN_CLOCK) == 8);
}

/* A step asks for the lowest missing number, and a repair of it, whoever sends it, is that cue. Others' messages are passed over. */
static void steps(void)
{
    static const uint8_t request[] = {18, 3, 0, 0, 0, 0, 0, 9, 1, 1, 0, 6, 3, 0, 0, 0};
    struct message probe = {{0}, 0};
    IS(opens_display(3, 1, CUELINK_DISPLAY_SIZE), CUELINK_OK);
    IS(step(0), NOTHING_IS);
    IS(hear(1, data_of(1, 5, 1)), GOT_OF(1, 5));
    IS(step(2), NOTHING_IS);
    IS(hear(3, data_of(1, 8, 1)), GOT_OF(1, 8));
    IS(step(9), OUT_OF(16));
    HOLDS(memcmp(out, request, sizeof request) == 0);
    IS(step(9), OUT_OF(16));
    IS(hear(10, repl_of(0, 1, 6, 2, -1)), GOT_OF(1, 6));
    IS(step(10), OUT_OF(16));
    HOLDS(out[11] == 7);
    IS(hear(11, data_of(2, 7, 1)), IGNORED_IS);
    IS(hear(11, repl_of(0, 2, 7, 3, 1)), IGNORED_IS);
    IS(hear(11, rqst_of(2, 1, 7)), IGNORED_IS);
    IS(hear(11, sess_of(1, 1, 8, 8, 0, 0)), IGNORED_IS);
    IS(hear(11, xprs_of(2, 1, 7, 0)), IGNORED_IS);
    IS(hear(11, late_of(0, 1, 7, 3, 1)), IGNORED_IS);
    IS(hear(11, annc_of(2, 7, 9)), IGNORED_IS);
    IS(hear(11, probe), IGNORED_IS);
    IS(hear(12, data_of(1, 7, 1)), GOT_OF(1, 7));
    IS(step(12), NOTHING_IS);
}

static uint64_t hear_with(uint64_t clock, size_t room, size_t lost_len, size_t length, const struct message *m)
{
    static uint8_t bytes[CUELINK_DISPLAY_SIZE + 1];
    struct call c = call_of(HEAR, clock);
    memcpy(bytes, shown, sizeof shown);
    c.state = bytes;
    c.state_len = length;
    c.out_len = room;
    c.lost_len = lost_len;
    c.bytes = m->bytes;
    c.bytes_len = m->length;
    return made(&c);
}

/* 1, 3, 4, 5, 8 to 11, each with all faults of later questions too. */
static void refused(void)
{
    struct message eight = {{20}, 1}, nine = {{25}, 12}, ten = data_of(1, 0, 2001), eleven = annc_of(1, 9, 8);
    struct call c;
    IS(opens_display(3, 1, CUELINK_DISPLAY_SIZE), CUELINK_OK);
    IS(hear(50, data_of(1, 5, 1)), GOT_OF(1, 5));
    IS(hear_with(UINT64_MAX, 127, 4, 24, &eight), CUELINK_NO_ROOM);
    IS(hear_with(UINT64_MAX, 128, 3, 24, &eight), CUELINK_NO_ROOM);
    IS(hear_with(60, 128, 0, 25, &eight), CUELINK_NO_ROOM);
    IS(hear_with(UINT64_MAX, 128, 4, 24, &eight), CUELINK_NOT_SOUND);
    IS(hear_with(UINT64_MAX, 128, 4, 26, &eight), CUELINK_NOT_SOUND);
    IS(hear_with(CUELINK_CLOCK_MAX + 1, 128, 4, 25, &eight), CUELINK_CLOCK_HIGH);
    IS(hear_with(49, 128, 4, 25, &eight), CUELINK_CLOCK_BACK);
    IS(hear_with(50, 128, 4, 25, &eight), CUELINK_BAD_LENGTH);
    IS(hear_with(50, 128, 4, 25, &nine), CUELINK_BAD_KIND);
    IS(hear_with(50, 128, 4, 25, &ten), CUELINK_BAD_RANGE);
    IS(hear_with(50, 128, 4, 25, &eleven), CUELINK_BAD_HOSTS);
    c = call_of(STEP, UINT64_MAX);
    c.state_len = 24;
    c.out_len = 127;
    IS(made(&c), CUELINK_NO_ROOM);
    c.out_len = 128;
    IS(made(&c), CUELINK_NOT_SOUND);
    c.state_len = 25;
    IS(made(&c), CUELINK_CLOCK_HIGH);
    IS(step(49), CUELINK_CLOCK_BACK);
    IS(step(CUELINK_CLOCK_MAX), NOTHING_IS);
}

/* Every byte with every value: 3 wherever the form is another, and then the looks have nothing to tell. */
static void damaged(void)
{
    uint8_t good[2][CUELINK_DISPLAY_SIZE];
    size_t at;
    unsigned value, kind, what;
    IS(opens_display(3, 1, CUELINK_DISPLAY_SIZE), CUELINK_OK);
    memcpy(good[0], shown, sizeof shown);
    IS(hear(50, data_of(1, 5, 1)), GOT_OF(1, 5));
    IS(hear(50, data_of(1, 8, 1)), GOT_OF(1, 8));
    memcpy(good[1], shown, sizeof shown);
    for (kind = 0; kind < 2; kind++)
        for (at = 0; at < sizeof shown; at++)
            for (value = 0; value < 256; value++) {
                int formed;
                uint64_t answer;
                memcpy(shown, good[kind], sizeof shown);
                shown[at] = (uint8_t)value;
                formed = form_is_display(shown, sizeof shown);
                for (what = SHOWN_OWN; what <= SHOWN_CLOCK; what++)
                    HOLDS(formed || look((enum what)what) == CUELINK_NONE);
                answer = step(60);
                HOLDS(formed || answer == CUELINK_NOT_SOUND);
                HOLDS(value != good[kind][at] || cuelink_kind(answer) != CUELINK_REFUSED);
            }
}

/* Of the form, and not sound: hosts, clock, lead outside trail..trail+63, receptions outside trail..lead. */
static void unsound(void)
{
    static const struct {
        size_t at;
        uint8_t value;
    } rows[] = {{2, 8}, {3, 8}, {2, 1}, {4, 1}, {5, 1}, {16, 4}, {16, 69}, {24, 0x1F}, {17, 0x80}};
    size_t i;
    for (i = 0; i < sizeof rows / sizeof *rows; i++) {
        IS(opens_display(3, 1, CUELINK_DISPLAY_SIZE), CUELINK_OK);
        IS(hear(50, data_of(1, 5, 1)), GOT_OF(1, 5));
        IS(hear(50, data_of(1, 8, 1)), GOT_OF(1, 8));
        shown[rows[i].at] = rows[i].value;
        HOLDS(form_is_display(shown, sizeof shown));
        IS(step(60), CUELINK_NOT_SOUND);
        IS(hear(60, data_of(1, 9, 1)), CUELINK_NOT_SOUND);
    }
}

const struct test display_tests[] = {{"display-opened", opened},   {"display-window", window},   {"display-steps", steps}, {"display-refused", refused},
                                     {"display-damaged", damaged}, {"display-unsound", unsound}, {NULL, NULL}};

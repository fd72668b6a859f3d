/*
 * A drawing editor's use of turn_class: a table of turns whose classes were
 * worked out by hand. Prints each case with what it should be and what came;
 * ends with status 1 if any differs.
 */
#include <stdint.h>
#include <stdio.h>
#include <stdlib.h>

#include "turns.h"

struct turn_case {
    uint32_t arriving, leaving, s, b, h;
    uint8_t expected;
    const char *why;
};

static const struct turn_case cases[] = {
    /* Angles, under the limits 20, 60, 120. */
    {90, 0, 20, 60, 120, TURN_LEFT, "-90"},
    {350, 10, 20, 60, 120, TURN_STRAIGHT, "+20, across north"},
    {0, 180, 20, 60, 120, TURN_SHARP_RIGHT, "+180, a half turn is to the right"},
    {180, 0, 20, 60, 120, TURN_SHARP_RIGHT, "-180 is moved to +180"},
    {0, 181, 20, 60, 120, TURN_SHARP_LEFT, "-179"},
    {181, 0, 20, 60, 120, TURN_SHARP_RIGHT, "+179"},
    {359, 0, 20, 60, 120, TURN_STRAIGHT, "+1"},
    {0, 359, 20, 60, 120, TURN_STRAIGHT, "-1"},
    {0, 0, 20, 60, 120, TURN_STRAIGHT, "0"},
    {359, 359, 20, 60, 120, TURN_STRAIGHT, "0, the greatest bearing"},

    /* Both sides of each limit, to the right and to the left. */
    {0, 20, 20, 60, 120, TURN_STRAIGHT, "+20"},
    {0, 21, 20, 60, 120, TURN_BEAR_RIGHT, "+21"},
    {0, 60, 20, 60, 120, TURN_BEAR_RIGHT, "+60"},
    {0, 61, 20, 60, 120, TURN_RIGHT, "+61"},
    {0, 120, 20, 60, 120, TURN_RIGHT, "+120"},
    {0, 121, 20, 60, 120, TURN_SHARP_RIGHT, "+121"},
    {0, 340, 20, 60, 120, TURN_STRAIGHT, "-20"},
    {0, 339, 20, 60, 120, TURN_BEAR_LEFT, "-21"},
    {0, 300, 20, 60, 120, TURN_BEAR_LEFT, "-60"},
    {0, 299, 20, 60, 120, TURN_LEFT, "-61"},
    {0, 240, 20, 60, 120, TURN_LEFT, "-120"},
    {0, 239, 20, 60, 120, TURN_SHARP_LEFT, "-121"},

    /* Two ways out of one edge, under wide and under narrow sectors. */
    {90, 0, 12, 12, 180, TURN_LEFT, "-90, nothing bears and nothing is sharp"},
    {90, 30, 12, 12, 180, TURN_LEFT, "-60, nothing bears and nothing is sharp"},
    {90, 0, 12, 60, 120, TURN_LEFT, "-90"},
    {90, 30, 12, 60, 120, TURN_BEAR_LEFT, "-60"},

    /* Limits at their ends are sound. */
    {0, 0, 0, 0, 0, TURN_STRAIGHT, "0 with limits 0, 0, 0"},
    {0, 1, 0, 0, 0, TURN_SHARP_RIGHT, "+1 with limits 0, 0, 0"},
    {1, 0, 0, 0, 0, TURN_SHARP_LEFT, "-1 with limits 0, 0, 0"},
    {0, 180, 180, 180, 180, TURN_STRAIGHT, "+180 with limits 180, 180, 180"},
    {0, 181, 180, 180, 180, TURN_STRAIGHT, "-179 with limits 180, 180, 180"},

    /* Unsound bearings. */
    {360, 0, 20, 60, 120, TURN_UNSOUND, "arriving above 359"},
    {0, 360, 20, 60, 120, TURN_UNSOUND, "leaving above 359"},
    {360, 360, 20, 60, 120, TURN_UNSOUND, "both above 359"},
    {UINT32_MAX, 0, 20, 60, 120, TURN_UNSOUND, "arriving at the greatest number"},
    {0, UINT32_MAX, 20, 60, 120, TURN_UNSOUND, "leaving at the greatest number"},
    {0, 65536, 20, 60, 120, TURN_UNSOUND, "leaving 0 only in its low 16 bits"},

    /* Unsound limits. */
    {90, 0, 181, 181, 181, TURN_UNSOUND, "s above 180"},
    {90, 0, 20, 19, 120, TURN_UNSOUND, "b below s"},
    {90, 0, 20, 181, 181, TURN_UNSOUND, "b above 180"},
    {90, 0, 20, 60, 59, TURN_UNSOUND, "h below b"},
    {90, 0, 20, 60, 181, TURN_UNSOUND, "h above 180"},
    {90, 0, 65556, 60, 120, TURN_UNSOUND, "s 20 only in its low 16 bits"},
    {90, 0, UINT32_MAX, UINT32_MAX, UINT32_MAX, TURN_UNSOUND, "limits at the greatest number"},
    {360, 0, 20, 19, 120, TURN_UNSOUND, "a bearing and the limits"},
};

int main(void)
{
    size_t count = sizeof cases / sizeof cases[0];
    size_t different = 0;

    for (size_t i = 0; i < count; i++) {
        const struct turn_case *c = &cases[i];
        uint8_t came = turn_class(c->arriving, c->leaving, c->s, c->b, c->h);
        int same = came == c->expected;

        printf("arriving %lu leaving %lu limits %lu %lu %lu: should be %u, came %u%s (%s)\n",
               (unsigned long)c->arriving, (unsigned long)c->leaving,
               (unsigned long)c->s, (unsigned long)c->b, (unsigned long)c->h,
               (unsigned)c->expected, (unsigned)came, same ? "" : ", DIFFERENT", c->why);
        if (!same)
            different++;
    }
    printf("%lu cases, %lu different\n", (unsigned long)count, (unsigned long)different);
    return different == 0 ? EXIT_SUCCESS : EXIT_FAILURE;
}

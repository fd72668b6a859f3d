/*
 * The class of a turn, for programs written in C.
 *
 * A bearing is a whole number of degrees from 0 to 359, clockwise from north.
 * The angle of a turn is the leaving bearing of the next edge minus the
 * arriving bearing of the edge before, moved by 360 where needed into
 * -179 to 180: above zero is right, below zero is left.
 *
 * The sector limits are whole degrees with s <= b <= h <= 180. They part the
 * angles, by their size without the sign, into seven classes:
 *
 *   code  class        size of the angle
 *   0     straight     at most s
 *   1     bear right   above s, at most b
 *   2     right        above b, at most h
 *   3     sharp right  above h
 *   4     bear left    above s, at most b
 *   5     left         above b, at most h
 *   6     sharp left   above h
 *
 *   255   no class: a bearing is above 359, or the limits are not in order
 *
 * Link with target/staticlib/libturns.a, which examples/editor/run.sh proves
 * and writes.
 */
#ifndef TURNS_H
#define TURNS_H

#include <stdint.h>

#ifdef __cplusplus
extern "C" {
#endif

enum {
    TURN_STRAIGHT = 0,
    TURN_BEAR_RIGHT = 1,
    TURN_RIGHT = 2,
    TURN_SHARP_RIGHT = 3,
    TURN_BEAR_LEFT = 4,
    TURN_LEFT = 5,
    TURN_SHARP_LEFT = 6,
    TURN_UNSOUND = 255
};

/*
 * The code of the turn from an edge that arrives on one bearing to an edge
 * that leaves on another, under the limits s, b and h; 255 where a bearing or
 * the limits are unsound. Every value of the five numbers is answered.
 *
 * turn_class(90, 0, 20, 60, 120) is 5: a left of 90 degrees.
 */
uint8_t turn_class(uint32_t arriving, uint32_t leaving, uint32_t s, uint32_t b, uint32_t h);

#ifdef __cplusplus
}
#endif

#endif

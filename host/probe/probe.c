/* Calls the library by the header's own names, on settled grid V at tolerance 1: `by_name.h`, made from the header, takes
 * each argument from what is lent here under its name. A header that has its arguments in another order than the archive
 * gets other answers. */
#include <stdio.h>
#include <string.h>

#include "mosskirtle.h"

enum { SAMPLES = 9, ROOM = 24 };

static const int16_t survey_lent[SAMPLES] = {-3, 0, 0, 0, MOSSKIRTLE_VOID, 0, 0, 0, -4};
static uint8_t marks_lent[SAMPLES];
static int16_t heights_lent[SAMPLES];
static uint16_t places_lent[ROOM];

static const struct {
    const int16_t *survey;
    uint8_t *marks;
    int16_t *heights;
    uint16_t *places;
    size_t survey_len, marks_len, heights_len, places_len;
    uint32_t m, tolerance, x, y;
} lent = {survey_lent, marks_lent, heights_lent, places_lent, SAMPLES, SAMPLES, SAMPLES, ROOM, 1, 1, 4, 4};

#include "by_name.h"

static int told = 0;

static void expect(int holds, const char *what)
{
    if (!holds) {
        printf("the probe: %s\n", what);
        told = 1;
    }
}

int main(void)
{
    mosskirtle_selection kept = by_name_mosskirtle_select();
    expect(kept.refusal == MOSSKIRTLE_ACCEPTED && kept.own == 4 && kept.dependent == 1 && kept.voids == 1, "select");
    mosskirtle_mesh mesh = by_name_mosskirtle_triangles();
    expect(mesh.refusal == MOSSKIRTLE_ACCEPTED && mesh.triangles == 8, "triangles");
    mosskirtle_strip_answer strip = by_name_mosskirtle_strip();
    expect(strip.refusal == MOSSKIRTLE_ACCEPTED && strip.places > mesh.triangles, "strip");
    mosskirtle_height_answer ground = by_name_mosskirtle_height();
    float height;
    memcpy(&height, &ground.bits, sizeof height);
    expect(ground.kind == MOSSKIRTLE_FILLED && height == -4, "height");
    mosskirtle_plane_answer plane = by_name_mosskirtle_plane();
    expect(plane.refusal == MOSSKIRTLE_ACCEPTED && plane.height == -4, "plane");
    return told;
}

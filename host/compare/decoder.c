/* Strips read back: by the usual rule, from what the library wrote, without the reference. */
#include "decoder.h"

#include "calls.h"
#include "mutants.h"

uint64_t strips;

static const char *const CALL = "strip read back";

static const uint16_t *triangle_left(uint32_t number)
{
    return places_left() + 3 * number;
}

static bool is_dropped(const uint16_t *row)
{
    return row[0] == row[1] || row[1] == row[2] || row[0] == row[2];
}

/* The three places in a row from there on are that triangle of the list, from any corner. */
static void compare_row(uint32_t number, const uint16_t *row, bool turned_over)
{
    uint16_t read[] = {row[turned_over ? 1 : 0], row[turned_over ? 0 : 1], row[2]};
    const uint16_t *triangle = triangle_left(number);
    for (int start = 0; start < 3; start++)
        if (read[0] == triangle[start] && read[1] == triangle[(start + 1) % 3] && read[2] == triangle[(start + 2) % 3])
            return;
    differs(CALL, "another triangle than the list's, or turning the other way");
}

/* A row is dropped only where the older place of the running pair is repeated to turn before that triangle, which is neither the first
 * nor the last, and whose next one has not the newer place. */
static void compare_repeat(uint32_t triangles, uint32_t number, const uint16_t *row)
{
    if (row[0] != row[2] || row[0] == row[1])
        differs(CALL, "a place repeated that is not the older of the running pair");
    if (number == 0 || number + 1 >= triangles)
        differs(CALL, "a turn at the first or the last triangle");
    const uint16_t *next = triangle_left(number + 1);
    if (row[1] == next[0] || row[1] == next[1] || row[1] == next[2])
        differs(CALL, "a turn that is not needed");
}

void read_back(mosskirtle_mesh mesh, mosskirtle_strip_answer answer)
{
    if (answer.refusal != mesh.refusal)
        differs(CALL, "refused otherwise than the list");
    if (answer.refusal != MOSSKIRTLE_ACCEPTED)
        return;
    if (answer.places > 2 * mesh.triangles)
        differs(CALL, "more than two places a triangle");
    uint32_t number = 0;
    for (uint32_t i = 0; i + 2 < answer.places; i++) {
        const uint16_t *row = strip_left() + i;
        if (is_dropped(row))
            compare_repeat(mesh.triangles, number, row);
        else if (number == mesh.triangles)
            differs(CALL, "more triangles than the list's");
        else
            compare_row(number++, row, i % 2 == MUTATED(READ_WITHOUT_TURNING, 1, 2));
    }
    if (number != mesh.triangles)
        differs(CALL, "fewer triangles than the list's");
    strips++;
}

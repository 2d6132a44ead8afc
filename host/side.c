#include "side.h"

#include <stdlib.h>
#include <string.h>

/* Puts the message at hand where it ends with `kept`, if it has as many bytes as are held and lacking. */
static void place(struct side *side) {
    uint8_t *bytes = side->kept + sizeof side->kept - side->held - side->lacks;
    if (bytes != side->bytes)
        memmove(bytes, side->bytes, side->held);
    side->bytes = bytes;
}

struct side *side_new(uint32_t number) {
    struct side *side = calloc(1, sizeof *side);
    if (side == NULL)
        return NULL;
    side->number = number;
    side->intake = rembulfose_intake_start(number, sizeof side->room);
    side->bytes = side->kept;
    side_pass(side);
    return side;
}

void side_pass(struct side *side) {
    if (side->intake.number != 0)
        side->intake = rembulfose_intake_reset(side->intake);
    side->at += side->held;
    side->held = 0;
    side->lacks = MESSAGE_HEAD;
    place(side);
}

/* The intake is handed no more than it lacks, so it takes all of that, or refuses what is then whole: a
 * message, or a head whose length is not permitted. */
bool side_take(struct side *side, struct piece *piece, rembulfose_answer *answer) {
    size_t count = piece->length < side->lacks ? piece->length : side->lacks;
    rembulfose_delivery got = rembulfose_intake_take(side->intake, piece->bytes, count, side->room,
                                                     sizeof side->room);
    memcpy(side->kept + sizeof side->kept - side->lacks, piece->bytes, count);
    piece->bytes += count;
    piece->length -= count;
    side->intake = got.intake;
    side->held += (uint32_t)count;
    side->lacks = got.number != 0 || got.length > 0 ? 0 : got.lacks;
    place(side);
    *answer = (rembulfose_answer){.number = got.number, .place = got.place};
    return side->lacks == 0;
}

void print_side(const struct screen *screen, enum ink ink, uint32_t side) {
    if (side == CLIENT || side == SERVER)
        print(screen, ink, "%s", side == CLIENT ? "client" : "server");
    else
        print(screen, ink, "unknown side %u", (unsigned)side);
}

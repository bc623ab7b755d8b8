/* Sends smooth blends to a controller: gains that fade out towards an edge, where the next projector fades in.
 *
 * Neighbouring gains are often alike, so they are sent as runs of equal gains. What each blend takes is printed beside
 * what its gains would take one by one. In the field a bus carries the packets; here send_packets() hands them straight
 * to the front end. The exit status is 1 if anything went wrong.
 */
#include "vermolgas_device.h"

#include <stdio.h>
#include <stdlib.h>

/* The blend map's control points, row by row from the top, each row from the left. */
enum { COLUMNS = 63, ROWS = 32 };

/* How wide the fades are. */
enum { FADED_COLUMNS = 16, FADED_ROWS = 12 };

static struct vermolgas_device device;
static struct vermolgas_blend blend; /* some 20 KB: not for a small stack */
static uint16_t wanted[VERMOLGAS_MOST_GAINS];

/* A step of a fade over so many: from a little under 1.0 to 0, slowly at both ends. */
static uint16_t faded(unsigned step, unsigned steps)
{
    unsigned left = steps - step;
    unsigned smooth = 3 * left * left * steps - 2 * left * left * left;
    return (uint16_t)(VERMOLGAS_GAIN_ONE * smooth / (steps * steps * steps));
}

static uint16_t bottom_edge(unsigned column, unsigned row)
{
    (void)column;
    return row < ROWS - FADED_ROWS ? VERMOLGAS_GAIN_ONE : faded(row - (ROWS - FADED_ROWS) + 1, FADED_ROWS);
}

static uint16_t right_edge(unsigned column, unsigned row)
{
    (void)row;
    return column < COLUMNS - FADED_COLUMNS ? VERMOLGAS_GAIN_ONE
                                            : faded(column - (COLUMNS - FADED_COLUMNS) + 1, FADED_COLUMNS);
}

static void fill_wanted(uint16_t (*gain_at)(unsigned column, unsigned row))
{
    for (unsigned i = 0; i < VERMOLGAS_MOST_GAINS; i++)
        wanted[i] = gain_at(i % COLUMNS, i / COLUMNS);
}

/* Hands over the packets, each to be accepted before the next one goes out. */
static unsigned send_packets(void)
{
    struct vermolgas_reply reply;
    unsigned status = VERMOLGAS_ACCEPTED;

    for (size_t k = 0; k < blend.packets && status == VERMOLGAS_ACCEPTED; k++) {
        struct vermolgas_slice packet = vermolgas_blend_packet(&blend, k);
        status = vermolgas_device_send(&device, packet.bytes, packet.length, &reply).status;
    }
    return status;
}

/* Whether red, green and blue all hold the gains wanted. The table is the host's own memory and may be looked at; over
 * a bus vermolgas_make_read_gains asks for it. */
static bool holds_wanted(void)
{
    for (size_t i = 0; i < 3 * VERMOLGAS_MOST_GAINS; i++) {
        const uint8_t *gain = device.gains + VERMOLGAS_GAIN_BYTES * i;
        if ((gain[0] | gain[1] << 8) != wanted[i % VERMOLGAS_MOST_GAINS])
            return false;
    }
    return true;
}

/* The bytes of 2Bh writes that carry so many gains one by one: as full as they can be, each with ten bytes ahead of its
 * gains (header, opcode, length, flag, colour, count, start). */
static size_t plain_bytes(size_t gains)
{
    size_t packets = (gains + VERMOLGAS_WRITE_GAINS - 1) / VERMOLGAS_WRITE_GAINS;
    return 10 * packets + VERMOLGAS_GAIN_BYTES * gains;
}

/* Uploads the gains wanted to all three colours, and says what that took. */
static bool upload(const char *words)
{
    unsigned status = vermolgas_blend_pack(&blend, VERMOLGAS_GAIN_ALL, 0, wanted, VERMOLGAS_MOST_GAINS);

    if (status == VERMOLGAS_ACCEPTED)
        status = send_packets();
    if (status != VERMOLGAS_ACCEPTED) {
        fprintf(stderr, "%s: refused with %u: %s\n", words, status, vermolgas_refusal_text(status));
        return false;
    }
    if (!holds_wanted()) {
        fprintf(stderr, "%s: the controller holds other gains\n", words);
        return false;
    }
    size_t plain = plain_bytes(VERMOLGAS_MOST_GAINS);
    printf("%s: pairs %zu, packets %zu, bytes %zu: %zu saved against %zu one by one\n", words, blend.pair_count,
           blend.packets, blend.bytes, plain - blend.bytes, plain);
    return true;
}

int main(void)
{
    unsigned status = vermolgas_device_reset(&device);
    if (status != VERMOLGAS_ACCEPTED) {
        fprintf(stderr, "reset is refused with %u: %s\n", status, vermolgas_refusal_text(status));
        return EXIT_FAILURE;
    }

    fill_wanted(bottom_edge);
    if (!upload("fade to the bottom"))
        return EXIT_FAILURE;
    fill_wanted(right_edge);
    if (!upload("fade to the right"))
        return EXIT_FAILURE;
    return EXIT_SUCCESS;
}

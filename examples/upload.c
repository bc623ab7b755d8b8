/* Plans the upload of a warp map in the fewest bytes, and prints its packets:
 *
 *     upload HELD WANTED
 *
 * Each file has a point a line, in the map's order: x and then y in eighths of a pixel, decimal, 0 to 65535, with
 * blanks between. Empty lines are passed over, and so are those that begin with #. Both files have the same number of
 * points, 1 to 1984.
 *
 * Standard output has a packet a line, its bytes as I2C tools take them (0x14 0x34 ..), and nothing unless these
 * packets brought a device from the one map to the other. Words go to standard error. The exit status is 2 for wrong
 * arguments and bad files, 1 if anything else went wrong.
 */
#include "vermolgas_device.h"

#include <errno.h>
#include <inttypes.h>
#include <stdio.h>
#include <stdlib.h>
#include <string.h>

enum { BAD_FILE = 2 };

/* A map under reading: where it is read, and how many points it has. */
struct map {
    const char *name;
    FILE *file;
    unsigned long line;
    uint32_t points;
};

static struct vermolgas_upload upload;

/* Says what is wrong with the line at hand. */
static bool bad(const struct map *map, const char *what)
{
    fprintf(stderr, "%s:%lu: %s\n", map->name, map->line, what);
    return false;
}

static bool is_digit(int sign)
{
    return sign >= '0' && sign <= '9';
}

/* The first sign from this one on that is no blank; lines may end as on Windows. */
static int past_blanks(const struct map *map, int sign)
{
    while (sign == ' ' || sign == '\t' || sign == '\r')
        sign = getc(map->file);
    return sign;
}

/* Takes a coordinate, which begins with *sign, and moves on to what follows it. */
static bool take_coordinate(const struct map *map, int *sign, uint16_t *coordinate)
{
    uint32_t number = 0;

    if (!is_digit(*sign))
        return bad(map, "a point is two numbers, x and y, with blanks between");
    for (; is_digit(*sign); *sign = getc(map->file)) {
        number = 10 * number + (uint32_t)(*sign - '0');
        if (number > UINT16_MAX)
            return bad(map, "a coordinate is at most 65535");
    }
    *coordinate = (uint16_t)number;
    *sign = past_blanks(map, *sign);
    return true;
}

static bool take_point(const struct map *map, int sign, struct vermolgas_point *point)
{
    if (!take_coordinate(map, &sign, &point->x) || !take_coordinate(map, &sign, &point->y))
        return false;
    return sign == '\n' || sign == EOF || bad(map, "a point is two numbers, and nothing behind them");
}

typedef unsigned set_point(struct vermolgas_upload *, size_t, struct vermolgas_point);

/* Takes the points of all lines. The line at hand is then the one behind the last. */
static bool take_points(struct map *map, set_point *set)
{
    struct vermolgas_point point;

    for (map->line = 1;; map->line++) {
        int sign = past_blanks(map, getc(map->file));
        if (sign == EOF)
            return map->points > 0 || ferror(map->file) || bad(map, "the file ends without a point");
        if (sign == '#')
            while (sign != '\n' && sign != EOF)
                sign = getc(map->file);
        if (sign == '\n' || sign == EOF)
            continue;
        if (!take_point(map, sign, &point))
            return false;
        if (set(&upload, map->points, point) != VERMOLGAS_ACCEPTED)
            return bad(map, "a map has at most 1984 points");
        map->points++;
    }
}

static bool read_map(struct map *map, set_point *set)
{
    map->file = fopen(map->name, "r");
    if (map->file == NULL) {
        fprintf(stderr, "%s: can't be opened: %s\n", map->name, strerror(errno));
        return false;
    }
    bool taken = take_points(map, set);
    if (ferror(map->file)) {
        fprintf(stderr, "%s:%lu: can't be read: %s\n", map->name, map->line, strerror(errno));
        taken = false;
    }
    fclose(map->file);
    return taken;
}

/* Two maps of one size: the shorter one lacks a point where it ends. */
static bool same_size(const struct map *held, const struct map *wanted)
{
    const struct map *shorter = held->points < wanted->points ? held : wanted;
    const struct map *longer = shorter == held ? wanted : held;

    if (held->points != wanted->points)
        fprintf(stderr, "%s:%lu: the file ends after %" PRIu32 " points, but %s has %" PRIu32 "\n", shorter->name,
                shorter->line, shorter->points, longer->name, longer->points);
    return held->points == wanted->points;
}

/* Whether a device that holds the one map accepts each packet, and then holds the other. After reset its shape is the
 * full one, so that it takes every number of points. */
static bool turns_held_into_wanted(void)
{
    static struct vermolgas_device device;
    struct vermolgas_reply reply;
    struct vermolgas_walk walk = vermolgas_upload_walk(&upload);

    if (vermolgas_device_reset(&device) != VERMOLGAS_ACCEPTED)
        return false;
    memcpy(device.staged, upload.held, sizeof device.staged);
    while (vermolgas_walk_next(&walk))
        if (vermolgas_device_send(&device, walk.packet, walk.length, &reply).status != VERMOLGAS_ACCEPTED)
            return false;
    return walk.status == VERMOLGAS_ACCEPTED && memcmp(device.staged, upload.wanted, sizeof device.staged) == 0;
}

static bool print_packets(void)
{
    struct vermolgas_walk walk = vermolgas_upload_walk(&upload);

    while (vermolgas_walk_next(&walk))
        for (size_t i = 0; i < walk.length; i++)
            printf("0x%02X%c", walk.packet[i], i + 1 < walk.length ? ' ' : '\n');
    return walk.status == VERMOLGAS_ACCEPTED && fflush(stdout) == 0 && !ferror(stdout);
}

/* Says what is sent, and the share that it saves against a map sent whole, in as few packets as it fits. */
static void say_share(size_t points)
{
    size_t packets = (points + VERMOLGAS_WRITE_POINTS - 1) / VERMOLGAS_WRITE_POINTS;
    size_t whole = VERMOLGAS_POINT_BYTES * points + 6 * packets;
    size_t saved = 1000 * (whole - upload.bytes) / whole;

    fprintf(stderr, "packets %zu, bytes %zu: %zu.%zu %% saved against the whole map's %zu; tried on a device\n",
            upload.packets, upload.bytes, saved / 10, saved % 10, whole);
}

static int fail(const char *what)
{
    fprintf(stderr, "upload: %s\n", what);
    return EXIT_FAILURE;
}

int main(int arguments, char **argument)
{
    if (arguments != 3) {
        fprintf(stderr, "usage: upload HELD WANTED\n");
        return BAD_FILE;
    }
    struct map held = {.name = argument[1]}, wanted = {.name = argument[2]};
    if (!read_map(&held, vermolgas_upload_hold) || !read_map(&wanted, vermolgas_upload_want) ||
        !same_size(&held, &wanted))
        return BAD_FILE;

    unsigned status = vermolgas_upload_plan(&upload, held.points);
    if (status != VERMOLGAS_ACCEPTED)
        return fail(vermolgas_refusal_text(status));
    if (!turns_held_into_wanted())
        return fail("the packets don't turn the map held into the one wanted");
    if (!print_packets())
        return fail("the packets can't be written");

    say_share(held.points);
    return EXIT_SUCCESS;
}

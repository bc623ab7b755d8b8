/* Random calls of every entry, each buffer against an unmapped page: its first byte behind one, or its last byte in
 * front of one. A byte read or written outside of a buffer ends the run. A refused call changes no byte, and no call
 * changes what it only reads or what lies behind its answer. The calls are those of the seed.
 *
 *     guarded [SEED [CALLS]]
 */
#define _DEFAULT_SOURCE
#include "check.h"
#include "vermolgas.h"

#include <errno.h>
#include <signal.h>
#include <stdbool.h>
#include <string.h>
#include <sys/mman.h>
#include <unistd.h>

/* Bytes between two unmapped pages: more than twice the longest buffer. */
enum { ARENA = 1 << 15 };

/* Buffers of a call in the order of its arguments. */
enum { MOST_BUFFERS = 6 };

static struct buffer {
    uint8_t *arena;
    uint8_t *bytes;
    size_t length;
    uint8_t before[ARENA];
} buffers[MOST_BUFFERS];

/* A controller as the last accepted call left it, and the last reply with whether it has a checksum. */
static uint8_t block[VERMOLGAS_BLOCK_BYTES], staged[VERMOLGAS_MAP_BYTES], live[VERMOLGAS_MAP_BYTES];
static uint8_t gains[VERMOLGAS_GAINS_BYTES], reply[VERMOLGAS_REPLY_BYTES];
static size_t reply_length;
static uint8_t reply_checksum;

static uint64_t seed = 1;
static unsigned calls = 100000;

static uint64_t random_bits(void)
{
    static uint64_t state, started;
    if (!started) {
        state = seed;
        started = 1;
    }
    uint64_t bits = state += 0x9E3779B97F4A7C15;
    bits = (bits ^ bits >> 30) * 0xBF58476D1CE4E5B9;
    bits = (bits ^ bits >> 27) * 0x94D049BB133111EB;
    return bits ^ bits >> 31;
}

/* A number below a limit; any byte for 0. */
static size_t below(size_t limit)
{
    return (size_t)(random_bits() % (limit == 0 ? 256 : limit));
}

static bool one_in(size_t number)
{
    return below(number) == 0;
}

/* Against the page behind it or in front of it. */
static struct buffer *lend(int index, size_t length)
{
    struct buffer *buffer = &buffers[index];
    buffer->length = length;
    buffer->bytes = one_in(2) ? buffer->arena : buffer->arena + ARENA - length;
    return buffer;
}

static void lend_bytes(int index, const uint8_t *bytes, size_t length)
{
    struct buffer *buffer = lend(index, length);
    memcpy(buffer->bytes, bytes, length);
    memcpy(buffer->before, bytes, length);
}

static void lend_pattern(int index, size_t length)
{
    struct buffer *buffer = lend(index, length);
    int filler = (int)below(0);
    memset(buffer->bytes, filler, length);
    memset(buffer->before, filler, length);
}

/* Now and then a wrong length: a near one, none, or any up to twice the right one. */
static size_t length_like(size_t right)
{
    size_t wrong[] = {right - 1, right + 1, right - 2, right + 2, 0, 1, below(2 * right), 2 * right};
    return one_in(32) ? wrong[below(8)] : right;
}

/* The same where longer ones are taken: every second one is, mostly by few bytes. */
static size_t length_from(size_t least)
{
    return one_in(2) ? length_like(least) : least + (one_in(8) ? below(least) : below(10));
}

/* What is kept, of the right length; else a pattern. */
static void lend_kept(int index, const uint8_t *bytes, size_t right)
{
    size_t length = length_like(right);
    if (length == right)
        lend_bytes(index, bytes, length);
    else
        lend_pattern(index, length);
}

static bool unchanged_from(int index, size_t start)
{
    const struct buffer *buffer = &buffers[index];
    return start >= buffer->length ||
           memcmp(buffer->bytes + start, buffer->before + start, buffer->length - start) == 0;
}

/* Commands of fixed size: their numbers of data bytes in a write and in a read, and a limit for each byte, a little
 * over what is taken; 0 for any byte. */
static const struct fixed {
    uint8_t opcode, write, read;
    uint8_t limits[11];
} fixed[] = {
    {0x11, 1, 0, {6}},          {0x12, 1, 0, {3}},       {0x13, 2, 0, {0, 0}},
    {0x1A, 1, 0, {10}},         {0x1B, 1, 0, {0}},       {0x1C, 1, 0, {5}},
    {0x1D, 1, 0, {3}},          {0x36, 1, 0, {3}},       {0x39, 1, 0, {3}},
    {0x60, 4, 1, {90, 2, 2, 2}}, {0x61, 2, 1, {90, 2}},  {0x65, 7, 1, {15, 0, 0, 0x9F, 1, 102, 2}},
    {0x6C, 1, 0, {3}},          {0x6D, 11, 1, {4, 2, 13, 4, 2, 4, 2, 5, 6, 2, 2}},
};

enum { FIXED = sizeof fixed / sizeof *fixed };

/* A command, mostly one that is taken. */
struct command {
    uint16_t opcode;
    uint8_t options;
    size_t length;
    uint8_t data[600];
};

static void put(struct command *command, size_t number, size_t bytes)
{
    for (size_t i = 0; i < bytes; i++)
        command->data[command->length++] = (uint8_t)(number >> 8 * i);
}

/* So many numbers of two bytes, mostly below a limit. */
static void put_numbers(struct command *command, size_t count, size_t limit)
{
    for (size_t i = 0; i < count; i++)
        put(command, below(limit + one_in(4096)), 2);
}

/* A list of 35h, mostly rising. */
static void put_list(struct command *command, size_t count)
{
    size_t number = below(300);
    for (size_t i = 0; i < count; i++, number += one_in(4096) ? 0 : 1 + below(300))
        put(command, number, 2);
}

/* The data of a 2Bh write ahead of its words. */
static void put_gains_head(struct command *command, size_t flag, size_t words)
{
    put(command, one_in(64) ? below(0) : flag, 1);
    put(command, below(4), 1);
    put(command, words, 2);
    put(command, one_in(4) ? below(2016) : below(64), 2);
}

static void put_gains(struct command *command, size_t count)
{
    put_gains_head(command, 0, count);
    put_numbers(command, count, 8192);
}

/* Pairs whose runs fit a colour, mostly; now and then a run of 0. */
static void put_pairs(struct command *command, size_t count)
{
    size_t most = (VERMOLGAS_MOST_GAINS - 64) / count;
    put_gains_head(command, 1, 2 * count - one_in(64));
    for (size_t i = 0; i < count; i++) {
        put(command, one_in(1024) ? 0 : 1 + below(most), 2);
        put_numbers(command, 1, 8192);
    }
}

/* The data of a write that varies: 2Bh, 34h, 35h or 38h. */
static void put_varying(struct command *command)
{
    size_t count = 1 + below(126), columns = 3 + below(3), rows = 3 + below(3);
    switch (command->opcode) {
    case 0x2B:
        if (one_in(2))
            put_pairs(command, count);
        else
            put_gains(command, count);
        break;
    case 0x34:
        put(command, one_in(4) ? below(1984) : below(64), 2);
        put_numbers(command, 2 * count, 65536);
        break;
    case 0x35:
        put(command, one_in(2), 1);
        if (command->data[0] == 0) {
            put(command, one_in(2) ? 62 : below(64), 2);
            put(command, one_in(2) ? 32 : below(34), 2);
        } else {
            put_list(command, 62);
            put_list(command, 32);
        }
        break;
    default:
        put(command, columns, 1);
        put(command, rows, 1);
        put_numbers(command, 2 * columns * rows, 65536);
    }
}

/* The data of a read that sends any. */
static void put_varying_read(struct command *command)
{
    if (command->opcode == 0x2B)
        put(command, 1 + below(4), 1);
    if (command->opcode == 0x2B || command->opcode == 0x34) {
        put(command, below(command->opcode == 0x2B ? 2016 : 100), 2);
        put(command, 1 + below(command->opcode == 0x2B ? 256 : 128), 2);
    }
}

static struct command any_command(void)
{
    static const uint8_t varying[] = {0x2B, 0x34, 0x35, 0x38};
    struct command command = {.options = (uint8_t)below(0)};
    bool read = command.options & VERMOLGAS_OPTION_READ;
    if (one_in(2)) {
        const struct fixed *row = &fixed[below(FIXED)];
        command.opcode = row->opcode;
        for (size_t i = 0; i < (read ? row->read : row->write); i++)
            put(&command, below(row->limits[i]), 1);
    } else {
        command.opcode = varying[below(sizeof varying)];
        command.options |= one_in(16) ? 0 : VERMOLGAS_OPTION_LENGTH;
        if (read)
            put_varying_read(&command);
        else
            put_varying(&command);
    }
    if (one_in(16))
        command.length = below(sizeof command.data);
    if (one_in(32))
        command.opcode = (uint16_t)below(one_in(2) ? 256 : 65536);
    return command;
}

/* A packet, mostly a sound one: made from a command, and now and then cut, prolonged or with a byte changed. */
static size_t any_packet(uint8_t *packet, size_t room)
{
    struct command command = any_command();
    uint64_t made = vermolgas_make(command.opcode, command.options, command.data, command.length, packet,
                                   VERMOLGAS_LONGEST);
    size_t length = VERMOLGAS_MAKE_LENGTH(made);
    if (length == 0 || one_in(32)) {
        length = below(room);
        for (size_t i = 0; i < length; i++)
            packet[i] = (uint8_t)(i == 0 ? below(32) << 3 | 4 : below(0));
    }
    if (one_in(8))
        packet[below(VERMOLGAS_LONGEST)] = (uint8_t)below(0);
    return one_in(16) ? below(length + 2) : length;
}

/* Whether a refusal of a packet has nothing in its upper half but a place, below the most there can be, and that with
 * 10 alone. */
static bool right_place(uint64_t answer, size_t most)
{
    if (VERMOLGAS_STATUS(answer) == VERMOLGAS_ACCEPTED)
        return true;
    if (VERMOLGAS_STATUS(answer) == VERMOLGAS_REFUSED_RANGE && VERMOLGAS_FAULT_PLACE(answer) >= most)
        return false;
    return answer >> 32 == (VERMOLGAS_STATUS(answer) == VERMOLGAS_REFUSED_RANGE ? VERMOLGAS_FAULT_PLACE(answer) : 0);
}

static uint64_t call_reset(void)
{
    lend_kept(0, block, sizeof block);
    lend_kept(1, staged, sizeof staged);
    lend_kept(2, live, sizeof live);
    lend_kept(3, gains, sizeof gains);
    return vermolgas_reset(buffers[0].bytes, buffers[0].length, buffers[1].bytes, buffers[1].length, buffers[2].bytes,
                           buffers[2].length, buffers[3].bytes, buffers[3].length);
}

/* Takes what is lent from this buffer on as the controller's state. */
static void keep_state(int first)
{
    uint8_t *const parts[] = {block, staged, live, gains};
    for (int part = 0; part < 4; part++)
        memcpy(parts[part], buffers[first + part].bytes, buffers[first + part].length);
}

static void try_reset(bool *accepted)
{
    *accepted = VERMOLGAS_STATUS(call_reset()) == VERMOLGAS_ACCEPTED;
    for (int part = 0; part < 4; part++)
        CHECK(*accepted || unchanged_from(part, 0));
    if (*accepted)
        keep_state(0);
}

static void try_packet(bool *accepted)
{
    uint8_t packet[VERMOLGAS_LONGEST + 100] = {0};
    lend_bytes(0, packet, any_packet(packet, sizeof packet));
    lend_kept(1, block, sizeof block);
    lend_kept(2, staged, sizeof staged);
    lend_kept(3, live, sizeof live);
    lend_kept(4, gains, sizeof gains);
    lend_pattern(5, length_like(VERMOLGAS_REPLY_BYTES));
    if (one_in(64) && buffers[1].length > 0) /* a setting, perhaps out of its range */
        buffers[1].before[0] = buffers[1].bytes[0] = (uint8_t)below(0);
    if (one_in(4) && buffers[1].length == sizeof block) { /* some rows' marks, perhaps wrong ones */
        size_t place = VERMOLGAS_MARK_OFFSET + below(VERMOLGAS_MARK_BYTES);
        buffers[1].before[place] = buffers[1].bytes[place] = (uint8_t)below(0);
    }
    uint64_t answer = vermolgas_packet(buffers[0].bytes, buffers[0].length, buffers[1].bytes, buffers[1].length,
                                       buffers[2].bytes, buffers[2].length, buffers[3].bytes, buffers[3].length,
                                       buffers[4].bytes, buffers[4].length, buffers[5].bytes, buffers[5].length);

    *accepted = VERMOLGAS_STATUS(answer) == VERMOLGAS_ACCEPTED;
    CHECK(VERMOLGAS_PACKET_REPLY_LENGTH(answer) <= buffers[5].length && right_place(answer, buffers[0].length));
    CHECK(unchanged_from(0, 0) && unchanged_from(5, VERMOLGAS_PACKET_REPLY_LENGTH(answer)));
    for (int part = 1; part < 5; part++)
        CHECK(*accepted || unchanged_from(part, 0));
    if (*accepted)
        keep_state(1);
    reply_length = VERMOLGAS_PACKET_REPLY_LENGTH(answer);
    if (reply_length > 0) {
        memcpy(reply, buffers[5].bytes, reply_length);
        reply_checksum = packet[0] & VERMOLGAS_OPTION_CHECKSUM;
    }
}

/* What the mark in a block says, row by row. */
static uint64_t rows_in(const uint8_t *bytes)
{
    uint64_t marked = 0, lowest = VERMOLGAS_NO_ROW;
    for (size_t row = VERMOLGAS_MOST_ROWS; row-- > 0;)
        if ((bytes[VERMOLGAS_MARK_OFFSET + row / 8] >> row % 8 & 1) != 0) {
            marked++;
            lowest = row;
        }
    return marked << 8 | lowest << 16;
}

/* The kept block, a part of it with any bytes, or a block of any length. */
static void try_rows(bool *accepted)
{
    if (one_in(8))
        lend_pattern(0, below(2 * sizeof block));
    else
        lend_kept(0, block, sizeof block);
    for (size_t i = below(sizeof block), end = i + 8; i < end && i < buffers[0].length; i++)
        buffers[0].before[i] = buffers[0].bytes[i] = (uint8_t)below(0);
    uint64_t answer = vermolgas_rows(buffers[0].bytes, buffers[0].length);
    *accepted = VERMOLGAS_STATUS(answer) == VERMOLGAS_ACCEPTED;
    CHECK(*accepted == (buffers[0].length == sizeof block) && unchanged_from(0, 0));
    CHECK(answer == (*accepted ? rows_in(buffers[0].bytes) : VERMOLGAS_REFUSED_LENT));
}

static void try_read(bool *accepted)
{
    uint8_t packet[VERMOLGAS_LONGEST + 100] = {0};
    lend_bytes(0, packet, any_packet(packet, sizeof packet));
    uint64_t answer = vermolgas_read(buffers[0].bytes, buffers[0].length);
    *accepted = VERMOLGAS_STATUS(answer) == VERMOLGAS_ACCEPTED;
    CHECK(unchanged_from(0, 0) && right_place(answer, buffers[0].length));
}

static void try_make(bool *accepted)
{
    struct command command = any_command();
    lend_bytes(0, command.data, command.length);
    lend_pattern(1, length_like(VERMOLGAS_LONGEST));
    uint64_t made = vermolgas_make(command.opcode, command.options, buffers[0].bytes, buffers[0].length,
                                   buffers[1].bytes, buffers[1].length);
    *accepted = VERMOLGAS_STATUS(made) == VERMOLGAS_ACCEPTED;
    CHECK(unchanged_from(0, 0) && unchanged_from(1, VERMOLGAS_MAKE_LENGTH(made)));
    CHECK(*accepted == (VERMOLGAS_MAKE_LENGTH(made) > 0) && right_place(made, command.length));
}

/* The last reply, now and then cut, or any bytes. */
static void try_read_reply(bool *accepted)
{
    uint8_t bytes[VERMOLGAS_LONGEST + 100] = {(uint8_t)below(14), (uint8_t)below(5)};
    size_t length = one_in(4) ? below(sizeof bytes) : 3 + (size_t)bytes[1];
    uint8_t checksum = one_in(4);
    if (one_in(2) && reply_length > 0) {
        length = one_in(4) ? below(reply_length) : reply_length;
        checksum = reply_checksum;
        memcpy(bytes, reply, length);
    }
    lend_bytes(0, bytes, length);
    *accepted = VERMOLGAS_STATUS(vermolgas_read_reply(buffers[0].bytes, length, checksum)) == VERMOLGAS_ACCEPTED;
    CHECK(unchanged_from(0, 0));
}

/* Two maps, of which some points differ. */
static void lend_maps(size_t points)
{
    uint8_t map[VERMOLGAS_MAP_BYTES];
    size_t length = VERMOLGAS_POINT_BYTES * points, share = 1 + below(8);
    memset(map, (int)below(0), length);
    lend_kept(0, map, length);
    for (size_t i = 0; i < points; i++)
        if (one_in(share))
            map[VERMOLGAS_POINT_BYTES * i + below(VERMOLGAS_POINT_BYTES)] ^= (uint8_t)(1 + below(255));
    lend_kept(1, map, length);
}

/* Whether a plan of so many points was lent the right lengths. */
static bool right_for(uint32_t points)
{
    size_t map = VERMOLGAS_POINT_BYTES * (size_t)points;
    return points >= 1 && points <= VERMOLGAS_MOST_POINTS && buffers[0].length == map && buffers[1].length == map &&
           buffers[2].length == VERMOLGAS_PLAN_LIST_BYTES && buffers[3].length >= VERMOLGAS_ROOM_BYTES &&
           buffers[4].length >= VERMOLGAS_CHOICES_BYTES && buffers[5].length >= VERMOLGAS_BATCH_BYTES;
}

static void try_plan(bool *accepted)
{
    static const uint32_t wrong[] = {0, VERMOLGAS_MOST_POINTS + 1, 0x10001, UINT32_MAX};
    uint32_t points = (uint32_t)(1 + below(one_in(16) ? VERMOLGAS_MOST_POINTS : 130));
    lend_maps(points);
    lend_pattern(2, length_like(VERMOLGAS_PLAN_LIST_BYTES));
    lend_pattern(3, length_from(VERMOLGAS_ROOM_BYTES));
    lend_pattern(4, length_from(VERMOLGAS_CHOICES_BYTES));
    lend_pattern(5, length_from(VERMOLGAS_BATCH_BYTES));
    if (one_in(32))
        points = wrong[below(4)];
    uint64_t answer = vermolgas_plan(points, buffers[0].bytes, buffers[0].length, buffers[1].bytes, buffers[1].length,
                                     buffers[2].bytes, buffers[2].length, buffers[3].bytes, buffers[3].length,
                                     buffers[4].bytes, buffers[4].length, buffers[5].bytes, buffers[5].length);
    *accepted = VERMOLGAS_STATUS(answer) == VERMOLGAS_ACCEPTED;
    CHECK(*accepted == right_for(points));
    CHECK(unchanged_from(0, 0) && unchanged_from(1, 0));
    CHECK(unchanged_from(3, *accepted ? VERMOLGAS_ROOM_BYTES : 0));
    CHECK(unchanged_from(4, *accepted ? VERMOLGAS_CHOICES_BYTES : 0));
    CHECK(unchanged_from(2, 4 * VERMOLGAS_PLAN_PACKETS(answer)) && unchanged_from(5, VERMOLGAS_PLAN_BYTES(answer)));
}

/* Gains in stretches, of which now and then one is too high. */
static void try_compress(bool *accepted)
{
    uint8_t bytes[VERMOLGAS_GAIN_BYTES * VERMOLGAS_MOST_GAINS];
    size_t count = 1 + below(one_in(4) ? VERMOLGAS_MOST_GAINS : 40), stretch = 1 + below(50), gain = below(8192);
    bool high = one_in(16);
    for (size_t i = 0; i < count; i++) {
        gain = one_in(stretch) ? below(8192) : gain;
        bytes[2 * i] = (uint8_t)gain;
        bytes[2 * i + 1] = (uint8_t)(gain >> 8);
    }
    if (high)
        bytes[2 * below(count) + 1] = 0x20;
    lend_kept(0, bytes, VERMOLGAS_GAIN_BYTES * count);
    lend_pattern(1, length_from(VERMOLGAS_PAIRS_BYTES));
    uint64_t answer = vermolgas_compress(buffers[0].bytes, buffers[0].length, buffers[1].bytes, buffers[1].length);
    bool room = buffers[1].length >= VERMOLGAS_PAIRS_BYTES;
    *accepted = VERMOLGAS_STATUS(answer) == VERMOLGAS_ACCEPTED;
    CHECK(room || !*accepted);
    if (buffers[0].length == VERMOLGAS_GAIN_BYTES * count) /* else they are a pattern */
        CHECK(*accepted == (room && !high));
    CHECK(*accepted == (VERMOLGAS_COMPRESS_PAIRS(answer) > 0) && VERMOLGAS_COMPRESS_PAIRS(answer) <= count + 1);
    CHECK(unchanged_from(0, 0) && unchanged_from(1, VERMOLGAS_PAIR_BYTES * VERMOLGAS_COMPRESS_PAIRS(answer)));
}

/* Pairs that fit a colour from the start on, unless the start is too far. */
static void try_split(bool *accepted)
{
    static const uint32_t far[] = {VERMOLGAS_MOST_GAINS, 0x10000, UINT32_MAX};
    uint8_t bytes[VERMOLGAS_PAIRS_BYTES];
    size_t count = 1 + below(one_in(4) ? VERMOLGAS_MOST_GAINS : 300), most = VERMOLGAS_MOST_GAINS / count;
    uint32_t colour = (uint32_t)below(one_in(32) ? 6 : 4), start = one_in(32) ? far[below(3)] : 0;
    for (size_t i = 0; i < count; i++) {
        size_t run = 1 + below(most), gain = below(8192);
        const uint8_t pair[] = {(uint8_t)run, (uint8_t)(run >> 8), (uint8_t)gain, (uint8_t)(gain >> 8)};
        memcpy(bytes + sizeof pair * i, pair, sizeof pair);
    }
    lend_kept(0, bytes, VERMOLGAS_PAIR_BYTES * count);
    lend_pattern(1, length_from(VERMOLGAS_SPLIT_BATCH_BYTES));
    uint64_t answer = vermolgas_split(colour, start, buffers[0].bytes, buffers[0].length, buffers[1].bytes,
                                      buffers[1].length);
    *accepted = VERMOLGAS_STATUS(answer) == VERMOLGAS_ACCEPTED;
    bool taken = colour <= 3 && start == 0 && buffers[1].length >= VERMOLGAS_SPLIT_BATCH_BYTES;
    CHECK(taken || !*accepted);
    if (buffers[0].length == VERMOLGAS_PAIR_BYTES * count)
        CHECK(*accepted == taken);
    CHECK(*accepted == (VERMOLGAS_SPLIT_PACKETS(answer) > 0) && *accepted == (VERMOLGAS_SPLIT_BYTES(answer) > 0));
    CHECK(unchanged_from(0, 0) && unchanged_from(1, VERMOLGAS_SPLIT_BYTES(answer)));
}

/* Entries with their share of the calls. */
static struct entry {
    const char *name;
    void (*try_it)(bool *accepted);
    unsigned share, accepted, refused;
} entries[] = {
    {"vermolgas_reset", try_reset, 1, 0, 0},           {"vermolgas_packet", try_packet, 6, 0, 0},
    {"vermolgas_read", try_read, 3, 0, 0},             {"vermolgas_make", try_make, 3, 0, 0},
    {"vermolgas_read_reply", try_read_reply, 2, 0, 0}, {"vermolgas_plan", try_plan, 1, 0, 0},
    {"vermolgas_compress", try_compress, 1, 0, 0},     {"vermolgas_split", try_split, 1, 0, 0},
    {"vermolgas_rows", try_rows, 1, 0, 0},
};

enum { ENTRIES = sizeof entries / sizeof *entries, SHARES = 19 };

static struct entry *any_entry(void)
{
    size_t share = below(SHARES), entry = 0;
    for (; entry + 1 < ENTRIES && share >= entries[entry].share; entry++)
        share -= entries[entry].share;
    return &entries[entry];
}

/* What a fault says, made ready ahead of each call. */
static char fault[120];

static void on_fault(int signal)
{
    (void)signal;
    ssize_t written = write(STDOUT_FILENO, fault, strlen(fault));
    _exit(written > 0 ? EXIT_FAILURE : 3);
}

static void random_calls(void)
{
    bool accepted;
    try_reset(&accepted);
    while (!accepted)
        try_reset(&accepted);
    for (unsigned call = 1; call <= calls && faults == 0; call++) {
        struct entry *entry = any_entry();
        snprintf(fault, sizeof fault, "FAILED: %s, call %u of seed %llu, left its buffers\n0 passed, 1 failed\n",
                 entry->name, call, (unsigned long long)seed);
        entry->try_it(&accepted);
        if (faults > 0)
            printf("  %s, call %u of seed %llu\n", entry->name, call, (unsigned long long)seed);
        entry->accepted += accepted;
        entry->refused += !accepted;
    }
}

/* Each entry was accepted, and refused, in a good share of its calls: else little was tried. */
static void shares(void)
{
    for (size_t i = 0; i < ENTRIES; i++) {
        unsigned sum = entries[i].accepted + entries[i].refused;
        printf("  %s: %u accepted, %u refused\n", entries[i].name, entries[i].accepted, entries[i].refused);
        CHECK(sum >= calls / SHARES / 2 && entries[i].accepted >= sum / 4 && entries[i].refused >= sum / 16);
    }
}

static void make_arenas(void)
{
    size_t page = (size_t)sysconf(_SC_PAGESIZE);
    for (int i = 0; i < MOST_BUFFERS; i++) {
        uint8_t *pages = mmap(NULL, ARENA + 2 * page, PROT_NONE, MAP_PRIVATE | MAP_ANONYMOUS, -1, 0);
        if (pages == MAP_FAILED || mprotect(pages + page, ARENA, PROT_READ | PROT_WRITE) != 0) {
            perror("guarded: no pages");
            exit(2);
        }
        buffers[i].arena = pages + page;
    }
}

static bool take_number(const char *text, uint64_t most, uint64_t *number)
{
    char *end;
    errno = 0;
    *number = strtoull(text, &end, 10);
    return text[0] >= '0' && text[0] <= '9' && *end == '\0' && errno == 0 && *number <= most;
}

int main(int arguments, char **argument)
{
    static const struct group groups[] = {{"random calls", random_calls}, {"shares of the calls", shares}};
    uint64_t number = calls;
    if (arguments > 3 || (arguments > 1 && !take_number(argument[1], UINT64_MAX, &seed)) ||
        (arguments > 2 && !take_number(argument[2], UINT32_MAX, &number))) {
        fprintf(stderr, "usage: guarded [SEED [CALLS]]\n");
        return 2;
    }
    calls = (unsigned)number;
    make_arenas();
    signal(SIGSEGV, on_fault);
    signal(SIGBUS, on_fault);
    return RUN_GROUPS(groups);
}

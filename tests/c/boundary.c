/* Every entry on buffers that were allocated with the exact length that is lent: short, odd, empty and right ones.
 *
 * Run under valgrind, which sees each byte read or written outside of them, and with the C side under AddressSanitizer
 * (the library is not instrumented).
 */
#include "check.h"
#include "vermolgas.h"

#include <stdbool.h>
#include <string.h>

/* A buffer of its own allocation, and what it held at first. */
struct buffer {
    uint8_t *bytes;
    size_t length;
    uint8_t *before;
};

static void *allocate(size_t length)
{
    void *bytes = malloc(length);
    if (bytes == NULL && length > 0) {
        fprintf(stderr, "no memory\n");
        exit(2);
    }
    return bytes;
}

/* A buffer that holds the bytes given, or a pattern. */
static struct buffer lend(const uint8_t *bytes, size_t length)
{
    struct buffer buffer = {allocate(length), length, allocate(length)};
    for (size_t i = 0; i < length; i++)
        buffer.bytes[i] = buffer.before[i] = bytes == NULL ? (uint8_t)(i * 37 + 11) : bytes[i];
    return buffer;
}

static struct buffer pattern(size_t length)
{
    return lend(NULL, length);
}

/* NULL for no bytes. */
static const struct buffer none;

static bool unchanged_from(const struct buffer *buffer, size_t start)
{
    if (start >= buffer->length)
        return true;
    return memcmp(buffer->bytes + start, buffer->before + start, buffer->length - start) == 0;
}

static bool unchanged(const struct buffer *buffer)
{
    return unchanged_from(buffer, 0);
}

static void give_back(struct buffer *buffer)
{
    free(buffer->bytes);
    free(buffer->before);
}

/* What is lent to reset and packet, in the order of the arguments. */
enum { BLOCK, STAGED, LIVE, GAINS, REPLY, PARTS };

static const size_t right_lengths[PARTS] = {VERMOLGAS_BLOCK_BYTES, VERMOLGAS_MAP_BYTES, VERMOLGAS_MAP_BYTES,
                                            VERMOLGAS_GAINS_BYTES, VERMOLGAS_REPLY_BYTES};

static uint64_t reset(struct buffer *parts)
{
    return vermolgas_reset(parts[BLOCK].bytes, parts[BLOCK].length, parts[STAGED].bytes, parts[STAGED].length,
                           parts[LIVE].bytes, parts[LIVE].length, parts[GAINS].bytes, parts[GAINS].length);
}

static uint64_t packet(const struct buffer *packet, struct buffer *parts)
{
    return vermolgas_packet(packet->bytes, packet->length, parts[BLOCK].bytes, parts[BLOCK].length,
                            parts[STAGED].bytes, parts[STAGED].length, parts[LIVE].bytes, parts[LIVE].length,
                            parts[GAINS].bytes, parts[GAINS].length, parts[REPLY].bytes, parts[REPLY].length);
}

/* A state after reset, of the right lengths. */
static void start(struct buffer *parts)
{
    for (int part = 0; part < PARTS; part++)
        parts[part] = pattern(right_lengths[part]);
    CHECK(reset(parts) == VERMOLGAS_ACCEPTED);
}

static void end(struct buffer *parts)
{
    for (int part = 0; part < PARTS; part++)
        give_back(&parts[part]);
}

/* Takes the present bytes as those from before. */
static void settle(struct buffer *parts)
{
    for (int part = 0; part < PARTS; part++)
        if (parts[part].length > 0)
            memcpy(parts[part].before, parts[part].bytes, parts[part].length);
}

/* A made packet in an allocation of its exact length. */
static struct buffer make(uint16_t opcode, uint8_t options, const uint8_t *data, size_t length)
{
    struct buffer lent = lend(data, length), room = pattern(VERMOLGAS_LONGEST);
    uint64_t made = vermolgas_make(opcode, options, lent.bytes, lent.length, room.bytes, room.length);
    CHECK(VERMOLGAS_STATUS(made) == VERMOLGAS_ACCEPTED);
    CHECK(unchanged(&lent));
    CHECK(unchanged_from(&room, VERMOLGAS_MAKE_LENGTH(made)));
    struct buffer packet = lend(room.bytes, VERMOLGAS_MAKE_LENGTH(made));
    give_back(&lent);
    give_back(&room);
    return packet;
}

/* Data that starts with a head and goes on with small numbers, words or points. */
static struct buffer data(size_t length, const uint8_t *head, size_t head_length)
{
    struct buffer data = pattern(length);
    for (size_t i = 0; i < length; i++)
        data.bytes[i] = i < head_length ? head[i] : (uint8_t)(i % 2 == 0 ? i : 1);
    return data;
}

/* Each command with as much data as it takes, at the end of its table. */
static const struct {
    uint16_t opcode;
    bool read;
    size_t length;
    uint8_t head[11];
} commands[] = {
    {0x11, false, 1, {4}},
    {0x11, true, 0, {0}},
    {0x12, false, 1, {1}},
    {0x12, true, 0, {0}},
    {0x13, false, 2, {0xFF, 0xFF}},
    {0x13, true, 0, {0}},
    {0x1A, false, 1, {8}},
    {0x1A, true, 0, {0}},
    {0x1B, false, 1, {0xFF}},
    {0x1B, true, 0, {0}},
    {0x1C, false, 1, {3}},
    {0x1C, true, 0, {0}},
    {0x1D, false, 1, {1}},
    {0x1D, true, 0, {0}},
    {0x2B, false, 6 + 2 * 250, {0, 0, 250, 0, 0xE6, 0x06}}, /* gains 1766 to 2015, all colours */
    {0x2B, false, 6 + 2 * 250, {0, 3, 250, 0, 0xE6, 0x06}},
    {0x2B, false, 6 + 4, {1, 0, 2, 0, 0, 0, 0xE0, 0x07, 0xFF, 0x1F}}, /* all gains, by one pair */
    {0x2B, false, 6 + 4, {1, 3, 2, 0, 0xDF, 0x07, 1, 0, 0, 0}},
    {0x2B, true, 5, {1, 0, 0, 254, 0}},
    {0x2B, true, 5, {3, 0xE2, 0x06, 254, 0}},             /* gains 1762 to 2015 */
    {0x34, false, 2 + 4 * 126, {0x42, 0x07}},             /* points 1858 to 1983 */
    {0x34, true, 4, {0, 0, 127, 0}},
    {0x34, true, 4, {0x41, 0x07, 127, 0}},                /* points 1857 to 1983 */
    {0x36, false, 1, {1}},
    {0x36, true, 0, {0}},
    {0x38, false, 2 + 4 * 25, {5, 5}},
    {0x38, true, 0, {0}},
    {0x39, false, 1, {0}},
    {0x39, true, 0, {0}},
    {0x60, false, 4, {87, 1, 1, 1}},
    {0x60, true, 1, {87}},
    {0x61, false, 2, {87, 1}},
    {0x61, true, 1, {87}},
    {0x65, false, 7, {13, 20, 0, 0, 0, 100, 1}},
    {0x65, true, 1, {13}},
    {0x6C, false, 1, {1}},
    {0x6C, true, 0, {0}},
    {0x6D, false, 11, {2, 1, 11, 3, 1, 2, 1, 4, 4, 1, 1}},
    {0x6D, true, 1, {2}},
    {0x35, false, 5, {0, 62, 0, 32, 0}},
    {0x35, true, 0, {0}},
};

#define COMMANDS (sizeof commands / sizeof *commands)

static struct buffer command(size_t index, uint8_t options)
{
    struct buffer filled = data(commands[index].length, commands[index].head, sizeof commands[index].head);
    if (commands[index].read)
        options |= VERMOLGAS_OPTION_READ;
    struct buffer made = make(commands[index].opcode, options | VERMOLGAS_OPTION_LENGTH, filled.bytes, filled.length);
    give_back(&filled);
    return made;
}

/* 35h with its two lists, which count from 0. */
static struct buffer lists(void)
{
    uint8_t written[189] = {1};
    for (size_t i = 0; i < 94; i++)
        written[1 + 2 * i] = (uint8_t)(i < 62 ? i : i - 62);
    return make(0x35, VERMOLGAS_OPTION_LENGTH, written, sizeof written);
}

/* An accepted packet: the answer, the reply and what lies behind it, and the reply read from a buffer of its length. */
static void accept(const struct buffer *lent, struct buffer *parts)
{
    settle(parts);
    uint64_t answer = packet(lent, parts);
    size_t length = VERMOLGAS_PACKET_REPLY_LENGTH(answer);
    CHECK(VERMOLGAS_STATUS(answer) == VERMOLGAS_ACCEPTED);
    CHECK(unchanged(lent));
    CHECK(unchanged_from(&parts[REPLY], length));
    if (length > 0) {
        bool checksum = lent->bytes[0] & VERMOLGAS_OPTION_CHECKSUM;
        struct buffer reply = lend(parts[REPLY].bytes, length);
        uint64_t read = vermolgas_read_reply(reply.bytes, reply.length, checksum);
        CHECK(VERMOLGAS_STATUS(read) == VERMOLGAS_ACCEPTED);
        CHECK(VERMOLGAS_REPLY_LENGTH(read) == length - VERMOLGAS_REPLY_OFFSET - checksum);
        CHECK(unchanged(&reply));
        give_back(&reply);
    }
}

/* A packet refused without a reply. */
static void refuse(const struct buffer *lent, struct buffer *parts, uint64_t due)
{
    CHECK(packet(lent, parts) == due);
    CHECK(unchanged(lent));
    for (int part = 0; part < PARTS; part++)
        CHECK(unchanged(&parts[part]));
}

static void right_buffers(void)
{
    static const uint8_t options[] = {0, VERMOLGAS_OPTION_CHECKSUM | VERMOLGAS_OPTION_REPLY,
                                      VERMOLGAS_OPTION_TWO_BYTE_OPCODE | VERMOLGAS_OPTION_CHECKSUM};
    struct buffer parts[PARTS];
    start(parts);
    for (int listed = 0; listed < 2; listed++) {
        for (size_t i = 0; i < COMMANDS; i++) {
            for (size_t j = 0; j < sizeof options; j++) {
                struct buffer lent = command(i, options[j]);
                accept(&lent, parts);
                give_back(&lent);
            }
        }
        struct buffer lent = lists();
        accept(&lent, parts);
        give_back(&lent);
    }
    end(parts);
}

/* Data whose last field alone is out of range: made and read from buffers that end with it, and sent. */
static void refuse_at_end(uint8_t opcode, uint8_t options, const uint8_t *bytes, size_t length, struct buffer *parts)
{
    bool word = opcode == 0x2B || opcode == 0x34 || (opcode == 0x35 && length > 1); /* has a last field of two bytes */
    size_t place = length - (word ? 2 : 1);
    uint64_t due = VERMOLGAS_REFUSED_RANGE | (uint64_t)place << 32;
    uint8_t packet_bytes[VERMOLGAS_LONGEST] = {4 | VERMOLGAS_OPTION_LENGTH | VERMOLGAS_OPTION_REPLY | options, opcode,
                                               (uint8_t)length, (uint8_t)(length >> 8)};
    memcpy(packet_bytes + 4, bytes, length);
    struct buffer data = lend(bytes, length), sent = lend(packet_bytes, 4 + length), room = pattern(VERMOLGAS_LONGEST);
    CHECK(vermolgas_make(opcode, packet_bytes[0], data.bytes, data.length, room.bytes, room.length) == due);
    CHECK(vermolgas_read(sent.bytes, sent.length) == due);
    settle(parts);
    CHECK(packet(&sent, parts) == (due | 5 << 8));
    const uint8_t reply[] = {0x0A, 0x02, 0x00, (uint8_t)place, (uint8_t)(place >> 8)};
    CHECK(memcmp(parts[REPLY].bytes, reply, sizeof reply) == 0 && unchanged_from(&parts[REPLY], sizeof reply));
    CHECK(unchanged(&data) && unchanged(&sent) && unchanged(&room));
    for (int part = 0; part < REPLY; part++)
        CHECK(unchanged(&parts[part]));
    give_back(&data);
    give_back(&sent);
    give_back(&room);
}

/* Fixed data whose last field is at fault, and short data of the others: a place is named where the slice ends. */
static void faults_at_end(void)
{
    static const struct {
        uint8_t opcode, options;
        size_t length;
        uint8_t bytes[11];
    } faulty[] = {
        {0x11, 0, 1, {5}},
        {0x39, 0, 1, {2}},
        {0x60, 0, 4, {87, 1, 1, 2}},
        {0x61, 0, 2, {87, 2}},
        {0x65, 0, 7, {13, 20, 0, 0, 0, 100, 2}},
        {0x6D, 0, 11, {2, 1, 11, 3, 1, 2, 1, 4, 4, 1, 2}},
        {0x35, 0, 1, {2}},
        {0x35, 0, 5, {0, 62, 0, 33, 0}},
        {0x38, 0, 2, {5, 6}},
        {0x2B, VERMOLGAS_OPTION_READ, 5, {3, 0, 0, 255, 0}},
        {0x34, VERMOLGAS_OPTION_READ, 4, {0, 0, 128, 0}},
        {0x60, VERMOLGAS_OPTION_READ, 1, {88}},
        {0x65, VERMOLGAS_OPTION_READ, 1, {14}},
    };
    uint8_t lists[189] = {1}, words[6 + 2 * 251] = {0, 0, 251}, pairs[6 + 4 * 125] = {1, 0, 250};
    struct buffer parts[PARTS];
    start(parts);
    for (size_t i = 0; i < sizeof faulty / sizeof *faulty; i++)
        refuse_at_end(faulty[i].opcode, faulty[i].options, faulty[i].bytes, faulty[i].length, parts);
    for (size_t i = 0; i < 93; i++)
        lists[1 + 2 * i] = (uint8_t)(i < 62 ? i : i - 62);
    refuse_at_end(0x35, 0, lists, sizeof lists, parts);
    words[sizeof words - 1] = 0x20;
    refuse_at_end(0x2B, 0, words, sizeof words, parts);
    for (size_t i = 0; i < 125; i++)
        pairs[6 + 4 * i] = 1;
    pairs[sizeof pairs - 1] = 0x20;
    refuse_at_end(0x2B, 0, pairs, sizeof pairs, parts);
    end(parts);
}

/* One of the lengths wrong, on packets and on reset. */
static void wrong_buffers(void)
{
    for (int part = 0; part < PARTS; part++) {
        size_t right = right_lengths[part];
        size_t lengths[] = {0, 1, 2, 3, right / 2, right - 2, right - 1, right + 1, right + 2, 2 * right};
        for (size_t i = 0; i < sizeof lengths / sizeof *lengths; i++) {
            struct buffer parts[PARTS];
            start(parts);
            settle(parts);
            struct buffer kept = parts[part];
            bool fits = part == REPLY && lengths[i] > right;
            for (int null = 0; null < (lengths[i] == 0 ? 2 : 1); null++) {
                parts[part] = null ? none : pattern(lengths[i]);
                for (size_t j = 0; j < COMMANDS && !fits; j++) {
                    struct buffer lent = command(j, VERMOLGAS_OPTION_REPLY);
                    refuse(&lent, parts, VERMOLGAS_REFUSED_LENT);
                    give_back(&lent);
                }
                refuse(&none, parts, fits ? VERMOLGAS_REFUSED_TOO_SHORT : VERMOLGAS_REFUSED_LENT);
                if (part != REPLY) {
                    CHECK(reset(parts) == VERMOLGAS_REFUSED_LENT);
                    for (int other = 0; other < PARTS; other++)
                        CHECK(unchanged(&parts[other]));
                }
                give_back(&parts[part]);
            }
            parts[part] = kept;
            end(parts);
        }
    }
}

/* Packets cut at every length, and longer than 512 bytes. */
static void cut_packets(void)
{
    struct buffer parts[PARTS];
    start(parts);
    settle(parts);
    refuse(&none, parts, VERMOLGAS_REFUSED_TOO_SHORT);
    CHECK(vermolgas_read(none.bytes, none.length) == VERMOLGAS_REFUSED_TOO_SHORT);
    for (size_t i = 0; i < COMMANDS; i++) {
        struct buffer whole = command(i, VERMOLGAS_OPTION_CHECKSUM | VERMOLGAS_OPTION_TWO_BYTE_OPCODE);
        for (size_t length = 0; length < whole.length; length++) {
            struct buffer lent = lend(whole.bytes, length);
            unsigned due = length < 6 ? VERMOLGAS_REFUSED_TOO_SHORT : VERMOLGAS_REFUSED_LENGTH;
            CHECK(vermolgas_read(lent.bytes, lent.length) == due);
            CHECK(VERMOLGAS_STATUS(packet(&lent, parts)) == due);
            CHECK(unchanged(&lent));
            for (int part = 0; part < REPLY; part++)
                CHECK(unchanged(&parts[part]));
            give_back(&lent);
        }
        CHECK(VERMOLGAS_STATUS(vermolgas_read(whole.bytes, whole.length)) == VERMOLGAS_ACCEPTED);
        give_back(&whole);
    }
    settle(parts);
    for (size_t length = VERMOLGAS_LONGEST + 1; length < 100000; length *= 2) {
        struct buffer lent = pattern(length);
        lent.bytes[0] = lent.before[0] = 0x04;
        CHECK(vermolgas_read(lent.bytes, lent.length) == VERMOLGAS_REFUSED_TOO_LONG);
        refuse(&lent, parts, VERMOLGAS_REFUSED_TOO_LONG);
        give_back(&lent);
    }
    end(parts);
}

/* Making into buffers of any length, from data of any length. */
static void make_packets(void)
{
    static const size_t lengths[] = {0, 1, 2, 255, 510, 511, 512, 513, 1024};
    for (size_t i = 0; i < sizeof lengths / sizeof *lengths; i++) {
        struct buffer room = pattern(lengths[i]);
        bool fits = lengths[i] >= VERMOLGAS_LONGEST;
        for (size_t length = 0; length <= 600; length++) {
            struct buffer lent = pattern(length);
            uint64_t made = vermolgas_make(0x34, VERMOLGAS_OPTION_LENGTH | VERMOLGAS_OPTION_CHECKSUM, lent.bytes,
                                           lent.length, room.bytes, room.length);
            unsigned due = !fits                             ? VERMOLGAS_REFUSED_LENT
                           : length + 5 > VERMOLGAS_LONGEST  ? VERMOLGAS_REFUSED_TOO_LONG
                           : length < 6 || length % 4 != 2   ? VERMOLGAS_REFUSED_SIZE
                                                             : VERMOLGAS_ACCEPTED;
            CHECK(VERMOLGAS_STATUS(made) == due);
            CHECK(VERMOLGAS_MAKE_LENGTH(made) == (due == VERMOLGAS_ACCEPTED ? length + 5 : 0));
            CHECK(unchanged(&lent));
            CHECK(unchanged_from(&room, VERMOLGAS_MAKE_LENGTH(made)));
            if (room.length > 0)
                memcpy(room.before, room.bytes, room.length);
            give_back(&lent);
        }
        give_back(&room);
    }
    CHECK(vermolgas_make(0x11, 0, none.bytes, none.length, none.bytes, none.length) == VERMOLGAS_REFUSED_LENT);
}

/* Replies of every length, up to the longest and past it. */
static void read_replies(void)
{
    CHECK(vermolgas_read_reply(none.bytes, none.length, 0) == VERMOLGAS_REFUSED_TOO_SHORT);
    CHECK(vermolgas_read_reply(none.bytes, none.length, 1) == VERMOLGAS_REFUSED_TOO_SHORT);
    for (size_t length = 0; length <= 600; length++) {
        struct buffer reply = pattern(length);
        for (size_t i = 0; i < length; i++)
            reply.bytes[i] = reply.before[i] = 0;
        if (length >= 3) {
            reply.bytes[1] = reply.before[1] = (uint8_t)(length - 3);
            reply.bytes[2] = reply.before[2] = (uint8_t)((length - 3) >> 8);
        }
        uint64_t read = vermolgas_read_reply(reply.bytes, reply.length, 0);
        if (length >= 3 && length <= VERMOLGAS_LONGEST)
            CHECK(read == (uint64_t)(length - 3) << 16);
        else
            CHECK(read == (length < 3 ? VERMOLGAS_REFUSED_TOO_SHORT : VERMOLGAS_REFUSED_TOO_LONG));
        unsigned due = length < 4                   ? VERMOLGAS_REFUSED_TOO_SHORT
                       : length > VERMOLGAS_LONGEST ? VERMOLGAS_REFUSED_TOO_LONG
                                                    : VERMOLGAS_REFUSED_LENGTH;
        CHECK(vermolgas_read_reply(reply.bytes, reply.length, 1) == due);
        CHECK(unchanged(&reply));
        give_back(&reply);
    }
}

/* What is lent to plan, in the order of the arguments. */
enum { HELD, WANTED, PLAN, ROOM, CHOICES, BATCH, LENT };

static uint64_t plan(uint32_t points, struct buffer *lent)
{
    return vermolgas_plan(points, lent[HELD].bytes, lent[HELD].length, lent[WANTED].bytes, lent[WANTED].length,
                          lent[PLAN].bytes, lent[PLAN].length, lent[ROOM].bytes, lent[ROOM].length,
                          lent[CHOICES].bytes, lent[CHOICES].length, lent[BATCH].bytes, lent[BATCH].length);
}

/* Maps of so many points, and the rest of the right lengths. With step 0 all points differ, else all but each
 * step-th. */
static void start_plan(struct buffer *lent, size_t points, size_t step)
{
    size_t lengths[LENT] = {VERMOLGAS_POINT_BYTES * points, VERMOLGAS_POINT_BYTES * points, VERMOLGAS_PLAN_LIST_BYTES,
                            VERMOLGAS_ROOM_BYTES, VERMOLGAS_CHOICES_BYTES, VERMOLGAS_BATCH_BYTES};
    for (int part = 0; part < LENT; part++)
        lent[part] = pattern(lengths[part]);
    for (size_t point = 0; point < points; point++) {
        if (step == 0 || point % step != 0) {
            size_t place = VERMOLGAS_POINT_BYTES * point + point % VERMOLGAS_POINT_BYTES;
            lent[WANTED].bytes[place] ^= 0x10;
            lent[WANTED].before[place] ^= 0x10;
        }
    }
}

static void end_plan(struct buffer *lent)
{
    for (int part = 0; part < LENT; part++)
        give_back(&lent[part]);
}

static void refuse_plan(uint32_t points, struct buffer *lent, uint64_t due)
{
    CHECK(plan(points, lent) == due);
    for (int part = 0; part < LENT; part++)
        CHECK(unchanged(&lent[part]));
}

static size_t word(const uint8_t *bytes)
{
    return bytes[0] | (size_t)bytes[1] << 8;
}

/* The choices: 0 exactly where no point differs; followed from the first point on they are the plan. */
static void check_choices(const struct buffer *lent, size_t points, size_t packets)
{
    const uint8_t *choices = lent[CHOICES].bytes, *listed = lent[PLAN].bytes;
    size_t next = 0, packet = 0;
    for (size_t point = 0; point < VERMOLGAS_CHOICES_BYTES; point++) {
        bool differs = point < points && memcmp(lent[HELD].bytes + VERMOLGAS_POINT_BYTES * point,
                                                lent[WANTED].bytes + VERMOLGAS_POINT_BYTES * point,
                                                VERMOLGAS_POINT_BYTES) != 0;
        CHECK(differs ? choices[point] >= 1 && choices[point] <= 126 : choices[point] == 0);
        if (differs && point >= next) {
            CHECK(packet < packets && word(listed + 4 * packet) == point);
            CHECK(packet < packets && word(listed + 4 * packet + 2) == choices[point]);
            next = point + choices[point];
            packet++;
        }
    }
    CHECK(packet == packets && next <= points);
}

/* What a plan of so many points left: the room begins with its bytes, and has 0 for no points; what lies behind that
 * which is written is unchanged. */
static void check_written(const struct buffer *lent, size_t points, uint64_t answer)
{
    CHECK(VERMOLGAS_STATUS(answer) == VERMOLGAS_ACCEPTED);
    CHECK(unchanged(&lent[HELD]) && unchanged(&lent[WANTED]));
    CHECK(unchanged_from(&lent[PLAN], 4 * VERMOLGAS_PLAN_PACKETS(answer)));
    CHECK(unchanged_from(&lent[ROOM], VERMOLGAS_ROOM_BYTES));
    CHECK(unchanged_from(&lent[CHOICES], VERMOLGAS_CHOICES_BYTES));
    CHECK(unchanged_from(&lent[BATCH], VERMOLGAS_PLAN_BYTES(answer)));
    const uint8_t *room = lent[ROOM].bytes;
    CHECK((word(room) | word(room + 2) << 16) == VERMOLGAS_PLAN_BYTES(answer));
    for (size_t place = 4 * points; place < VERMOLGAS_ROOM_BYTES; place++)
        CHECK(room[place] == 0);
    check_choices(lent, points, VERMOLGAS_PLAN_PACKETS(answer));
}

/* Plans, and each packet of the batch on a copy of the map, read from a buffer of its length. */
static void plan_uploads(void)
{
    static const size_t numbers[] = {1, 2, 3, 125, 126, 127, 253, 1009, 1983, VERMOLGAS_MOST_POINTS};
    for (size_t i = 0; i < sizeof numbers / sizeof *numbers; i++) {
        for (size_t step = 0; step <= 5; step++) {
            struct buffer lent[LENT];
            start_plan(lent, numbers[i], step);
            uint64_t answer = plan((uint32_t)numbers[i], lent);
            size_t packets = VERMOLGAS_PLAN_PACKETS(answer), place = 0;
            check_written(lent, numbers[i], answer);
            struct buffer map = lend(lent[HELD].bytes, lent[HELD].length);
            for (size_t packet = 0; packet < packets; packet++) {
                const uint8_t *listed = lent[PLAN].bytes + 4 * packet;
                size_t first = word(listed), count = word(listed + 2);
                struct buffer sent = lend(lent[BATCH].bytes + place, 6 + VERMOLGAS_POINT_BYTES * count);
                uint64_t read = vermolgas_read(sent.bytes, sent.length);
                CHECK(VERMOLGAS_STATUS(read) == VERMOLGAS_ACCEPTED && VERMOLGAS_READ_OPCODE(read) == 0x34);
                CHECK(VERMOLGAS_READ_LENGTH(read) == 2 + VERMOLGAS_POINT_BYTES * count);
                if (first + count <= numbers[i])
                    memcpy(map.bytes + VERMOLGAS_POINT_BYTES * first, sent.bytes + 6, VERMOLGAS_POINT_BYTES * count);
                place += sent.length;
                give_back(&sent);
            }
            CHECK(place == VERMOLGAS_PLAN_BYTES(answer));
            CHECK(memcmp(map.bytes, lent[WANTED].bytes, map.length) == 0);
            give_back(&map);
            end_plan(lent);
        }
    }
}

/* Another buffer of this length in the place of a part. */
static void lend_anew(struct buffer *lent, int part, size_t length)
{
    give_back(&lent[part]);
    lent[part] = pattern(length);
}

static bool same_start(const struct buffer *one, const struct buffer *other, size_t length)
{
    return memcmp(one->bytes, other->bytes, length) == 0;
}

/* A plan with some of room, choices and batch longer by so much, held against one with the least lengths. */
static void plan_longer(size_t points, unsigned longer, size_t more)
{
    struct buffer least[LENT], lent[LENT];
    start_plan(least, points, 3);
    start_plan(lent, points, 3);
    for (int part = ROOM; part <= BATCH; part++)
        if (longer >> (part - ROOM) & 1)
            lend_anew(lent, part, lent[part].length + more);
    uint64_t answer = plan((uint32_t)points, lent);
    CHECK(answer == plan((uint32_t)points, least));
    check_written(lent, points, answer);
    for (int part = PLAN; part <= BATCH; part++)
        CHECK(same_start(&lent[part], &least[part], least[part].length));
    end_plan(least);
    end_plan(lent);
}

/* Room, choices and batch longer, each by itself and together. */
static void plan_in_longer_rooms(void)
{
    static const size_t numbers[] = {1, 5, 127, VERMOLGAS_MOST_POINTS};
    static const size_t more[] = {0, 1, 2, 3, 4, 5, 6, 7, 8, 9, 100, 508, 7432, 0x10000};
    for (size_t i = 0; i < sizeof numbers / sizeof *numbers; i++)
        for (unsigned longer = 1; longer < 8; longer++)
            for (size_t j = 0; j < sizeof more / sizeof *more; j++)
                plan_longer(numbers[i], longer, more[j]);
}

/* Every length of room and of choices that is too short. */
static void refuse_short_rooms(void)
{
    struct buffer lent[LENT];
    start_plan(lent, 5, 3);
    for (int part = ROOM; part <= CHOICES; part++) {
        size_t right = lent[part].length;
        for (size_t length = 0; length < right; length++) {
            lend_anew(lent, part, length);
            refuse_plan(5, lent, VERMOLGAS_REFUSED_LENT);
        }
        lend_anew(lent, part, right);
    }
    CHECK(VERMOLGAS_STATUS(plan(5, lent)) == VERMOLGAS_ACCEPTED);
    end_plan(lent);
}

/* One of the lengths wrong, or the number of points. */
static void refuse_plans(void)
{
    static const size_t numbers[] = {1, 3, 127, VERMOLGAS_MOST_POINTS};
    static const uint32_t refused[] = {0, VERMOLGAS_MOST_POINTS + 1, 0x10001, 0x40000001, UINT32_MAX};
    for (size_t i = 0; i < sizeof numbers / sizeof *numbers; i++) {
        struct buffer lent[LENT];
        start_plan(lent, numbers[i], 3);
        for (size_t j = 0; j < sizeof refused / sizeof *refused; j++)
            refuse_plan(refused[j], lent, VERMOLGAS_REFUSED_RANGE);
        for (int part = 0; part < LENT; part++) {
            struct buffer kept = lent[part];
            size_t right = kept.length;
            size_t lengths[] = {0,         1,         2,         3,         right / 2, right - 2,
                                right - 1, right + 1, right + 2, right + 3, right + 4, right + 5,
                                right + 6, right + 7, right + 8, right + 9, 2 * right};
            for (size_t j = 0; j < sizeof lengths / sizeof *lengths; j++) {
                if (part >= ROOM && lengths[j] > right)
                    continue;
                lent[part] = pattern(lengths[j]);
                refuse_plan((uint32_t)numbers[i], lent, VERMOLGAS_REFUSED_LENT);
                refuse_plan(0, lent, VERMOLGAS_REFUSED_RANGE);
                give_back(&lent[part]);
            }
            lent[part] = none;
            refuse_plan((uint32_t)numbers[i], lent, VERMOLGAS_REFUSED_LENT);
            refuse_plan(UINT32_MAX, lent, VERMOLGAS_REFUSED_RANGE);
            lent[part] = kept;
        }
        end_plan(lent);
    }
}

/* So many gains, of which each step-th differs from the one before it. */
static struct buffer some_gains(size_t count, size_t step)
{
    struct buffer gains = pattern(VERMOLGAS_GAIN_BYTES * count);
    for (size_t i = 0; i < count; i++) {
        gains.bytes[2 * i] = gains.before[2 * i] = (uint8_t)(i / step);
        gains.bytes[2 * i + 1] = gains.before[2 * i + 1] = (uint8_t)(i / step >> 8);
    }
    return gains;
}

static uint64_t compress(const struct buffer *gains, struct buffer *pairs)
{
    return vermolgas_compress(gains->bytes, gains->length, pairs->bytes, pairs->length);
}

static uint64_t split(uint32_t colour, uint32_t first, const struct buffer *pairs, struct buffer *batch)
{
    return vermolgas_split(colour, first, pairs->bytes, pairs->length, batch->bytes, batch->length);
}

/* Sends the packets of a batch, each from a buffer of its length; gives how many there were. */
static size_t send_batch(const uint8_t *batch, size_t bytes, struct buffer *parts)
{
    size_t packets = 0, length;
    for (size_t at = 0; at < bytes; at += length) {
        length = bytes - at < VERMOLGAS_SPLIT_PACKET_BYTES ? bytes - at : VERMOLGAS_SPLIT_PACKET_BYTES;
        struct buffer sent = lend(batch + at, length);
        accept(&sent, parts);
        give_back(&sent);
        packets++;
    }
    return packets;
}

/* Gains compressed and split in rooms that are longer by so much, and sent: blue holds them at its end. */
static void send_gains(size_t count, size_t step, size_t more)
{
    size_t due = (count + step - 1) / step;
    struct buffer gains = some_gains(count, step), room = pattern(VERMOLGAS_PAIRS_BYTES + more);
    uint64_t answer = compress(&gains, &room);
    CHECK(answer == (uint64_t)due << 8);
    CHECK(unchanged(&gains) && unchanged_from(&room, VERMOLGAS_PAIR_BYTES * due));

    struct buffer pairs = lend(room.bytes, VERMOLGAS_PAIR_BYTES * due);
    struct buffer batch = pattern(VERMOLGAS_SPLIT_BATCH_BYTES + more), parts[PARTS];
    answer = split(VERMOLGAS_GAIN_BLUE, (uint32_t)(VERMOLGAS_MOST_GAINS - count), &pairs, &batch);
    CHECK(VERMOLGAS_STATUS(answer) == VERMOLGAS_ACCEPTED);
    CHECK(unchanged(&pairs) && unchanged_from(&batch, VERMOLGAS_SPLIT_BYTES(answer)));
    start(parts);
    settle(parts);
    CHECK(send_batch(batch.bytes, VERMOLGAS_SPLIT_BYTES(answer), parts) == VERMOLGAS_SPLIT_PACKETS(answer));
    size_t written = VERMOLGAS_GAINS_BYTES - gains.length;
    CHECK(memcmp(parts[GAINS].bytes + written, gains.bytes, gains.length) == 0);
    for (size_t place = 0; place < written; place++)
        CHECK(parts[GAINS].bytes[place] == (place % 2 == 0 ? 0x00 : 0x10));
    end(parts);
    give_back(&gains);
    give_back(&room);
    give_back(&pairs);
    give_back(&batch);
}

static void blends(void)
{
    static const size_t numbers[] = {1, 2, 125, 126, 250, 251, 2015, VERMOLGAS_MOST_GAINS};
    static const size_t steps[] = {1, 2, 3, 100, VERMOLGAS_MOST_GAINS};
    static const size_t more[] = {0, 1, 2, 3, 0x10000};
    for (size_t i = 0; i < sizeof numbers / sizeof *numbers; i++)
        for (size_t j = 0; j < sizeof steps / sizeof *steps; j++)
            send_gains(numbers[i], steps[j], more[(i + j) % (sizeof more / sizeof *more)]);
}

/* Compressing into rooms that are too short, and from gains of a wrong length. */
static void refuse_compressing(void)
{
    struct buffer gains = some_gains(3, 1), room = none;
    CHECK(compress(&none, &room) == VERMOLGAS_REFUSED_RANGE);
    CHECK(compress(&gains, &room) == VERMOLGAS_REFUSED_LENT);
    for (size_t length = 0; length < VERMOLGAS_PAIRS_BYTES; length++) {
        room = pattern(length);
        CHECK(compress(&gains, &room) == VERMOLGAS_REFUSED_LENT);
        CHECK(unchanged(&gains) && unchanged(&room));
        give_back(&room);
    }
    give_back(&gains);
    static const size_t lengths[] = {0, 1, 3, 4031, 4033, 4034, 8064, 0x10000 + 2};
    room = pattern(VERMOLGAS_PAIRS_BYTES);
    for (size_t i = 0; i < sizeof lengths / sizeof *lengths; i++) {
        struct buffer wrong = pattern(lengths[i]);
        CHECK(compress(&wrong, &room) == VERMOLGAS_REFUSED_RANGE);
        CHECK(unchanged(&wrong) && unchanged(&room));
        give_back(&wrong);
    }
    give_back(&room);
}

/* Splitting into batches that are too short, and from pairs of a wrong length. */
static void refuse_splitting(void)
{
    static const uint8_t two[] = {1, 0, 5, 0, 2, 0, 6, 0};
    struct buffer pairs = lend(two, sizeof two), batch = none;
    CHECK(split(0, 0, &none, &batch) == VERMOLGAS_REFUSED_RANGE);
    CHECK(split(0, 0, &pairs, &batch) == VERMOLGAS_REFUSED_LENT);
    for (size_t length = 0; length < VERMOLGAS_SPLIT_BATCH_BYTES; length++) {
        batch = pattern(length);
        CHECK(split(0, 0, &pairs, &batch) == VERMOLGAS_REFUSED_LENT);
        CHECK(unchanged(&pairs) && unchanged(&batch));
        give_back(&batch);
    }
    batch = pattern(VERMOLGAS_SPLIT_BATCH_BYTES);
    CHECK(split(4, 0, &pairs, &batch) == VERMOLGAS_REFUSED_RANGE);
    CHECK(split(3, 2014, &pairs, &batch) == VERMOLGAS_REFUSED_PAST_TABLE);
    give_back(&pairs);
    for (size_t length = 0; length < sizeof two; length++) {
        pairs = lend(two, length);
        uint64_t due = length % 4 != 0 ? VERMOLGAS_REFUSED_SIZE : VERMOLGAS_REFUSED_RANGE;
        CHECK(split(length == 4 ? 4 : 0, UINT32_MAX, &pairs, &batch) == due);
        CHECK(unchanged(&pairs) && unchanged(&batch));
        give_back(&pairs);
    }
    give_back(&batch);
}

/* Blocks of every length up to twice the right one, of any bytes. */
static void count_rows(void)
{
    CHECK(vermolgas_rows(NULL, 0) == VERMOLGAS_REFUSED_LENT);
    for (size_t length = 0; length <= 2 * VERMOLGAS_BLOCK_BYTES; length++) {
        struct buffer block = pattern(length);
        uint64_t answer = vermolgas_rows(block.bytes, block.length);
        if (length == VERMOLGAS_BLOCK_BYTES)
            CHECK(VERMOLGAS_STATUS(answer) == VERMOLGAS_ACCEPTED && VERMOLGAS_ROWS_MARKED(answer) > 0);
        else
            CHECK(answer == VERMOLGAS_REFUSED_LENT);
        CHECK(unchanged(&block));
        give_back(&block);
    }
}

/* Points at both ends of both maps: a row is compared up to the map's last byte, and no further. */
static void mark_rows(void)
{
    static const uint8_t first[] = {0, 0, 1, 0, 0, 0}, last[] = {0xBF, 0x07, 0, 0, 0, 1};
    struct buffer parts[PARTS], points[] = {make(0x34, VERMOLGAS_OPTION_LENGTH, first, sizeof first),
                                            make(0x34, VERMOLGAS_OPTION_LENGTH, last, sizeof last)};
    struct buffer shape = lists();
    start(parts);
    for (size_t i = 0; i < 2; i++)
        CHECK(packet(&points[i], parts) == VERMOLGAS_ACCEPTED);
    CHECK(vermolgas_rows(parts[BLOCK].bytes, parts[BLOCK].length) == (UINT64_C(2) << 8));
    CHECK(packet(&shape, parts) == VERMOLGAS_ACCEPTED);
    CHECK(vermolgas_rows(parts[BLOCK].bytes, parts[BLOCK].length) == (UINT64_C(2) << 8));
    CHECK(parts[BLOCK].bytes[VERMOLGAS_MARK_OFFSET] == 1);
    CHECK(parts[BLOCK].bytes[VERMOLGAS_MARK_OFFSET + VERMOLGAS_MARK_BYTES - 1] == 0x80);
    end(parts);
    give_back(&points[0]);
    give_back(&points[1]);
    give_back(&shape);
}

static const struct group groups[] = {
    {"right buffers", right_buffers},       {"wrong buffers", wrong_buffers},    {"cut packets", cut_packets},
    {"faults at the end", faults_at_end},
    {"making", make_packets},               {"replies", read_replies},           {"plans", plan_uploads},
    {"longer rooms", plan_in_longer_rooms}, {"short rooms", refuse_short_rooms}, {"plans refused", refuse_plans},
    {"blends", blends},                     {"compressing refused", refuse_compressing},
    {"splitting refused", refuse_splitting},
    {"rows counted", count_rows},           {"rows marked", mark_rows},
};

int main(void)
{
    return RUN_GROUPS(groups);
}

/* The names of vermolgas.h and all of vermolgas_device.h, in what C99 and C++11 share: built in each language mode. */
#include "vermolgas_device.h"

#include "check.h"

#include <limits.h>

#define COUNT(list) (sizeof(list) / sizeof *(list))

static struct vermolgas_device device, before;
static struct vermolgas_upload upload, upload_before;
static struct vermolgas_blend blend, blend_before;
static struct vermolgas_reply reply, reply_before;

/* Whether these are the bytes of a text such as "04 11 01". */
static bool bytes_are(const uint8_t *bytes, size_t length, const char *hex)
{
    size_t i;

    for (i = 0; i < length; i++) {
        char *end;
        if (strtoul(hex, &end, 16) != bytes[i] || end == hex)
            return false;
        hex = end;
    }
    return *hex == '\0';
}

/* Whether a command was made, of these bytes; and whether it was refused with this number and this place, and has
 * none. */
static bool made(const struct vermolgas_command *command, const char *hex)
{
    return command->status == VERMOLGAS_ACCEPTED && bytes_are(command->bytes, command->length, hex) &&
           command->fault_place == 0;
}

static bool refused(const struct vermolgas_command *command, unsigned status, size_t fault_place)
{
    return command->status == status && command->length == 0 && command->fault_place == fault_place;
}

/* One-line checks of makers. */
#define CHECK_MADE(call, hex)                                                                                         \
    do {                                                                                                              \
        struct vermolgas_command command_ = call;                                                                     \
        CHECK(made(&command_, hex) && #call);                                                                         \
    } while (0)
#define CHECK_REFUSED(call, status)                                                                                   \
    do {                                                                                                              \
        struct vermolgas_command command_ = call;                                                                     \
        CHECK(refused(&command_, status, 0) && #call);                                                                \
    } while (0)
#define CHECK_FAULT(call, fault_place)                                                                                \
    do {                                                                                                              \
        struct vermolgas_command command_ = call;                                                                     \
        CHECK(refused(&command_, VERMOLGAS_REFUSED_RANGE, fault_place) && #call);                                     \
    } while (0)

static struct vermolgas_point point_at(unsigned x, unsigned y)
{
    struct vermolgas_point point;
    point.x = VERMOLGAS_CAST(uint16_t, x);
    point.y = VERMOLGAS_CAST(uint16_t, y);
    return point;
}

static struct vermolgas_result send(const struct vermolgas_command *command)
{
    return vermolgas_device_send(&device, command->bytes, command->length, &reply);
}

/* Sends a packet of one to four bytes. */
static struct vermolgas_result send_bytes(size_t length, unsigned a, unsigned b, unsigned c, unsigned d)
{
    uint8_t packet[4];
    packet[0] = VERMOLGAS_CAST(uint8_t, a);
    packet[1] = VERMOLGAS_CAST(uint8_t, b);
    packet[2] = VERMOLGAS_CAST(uint8_t, c);
    packet[3] = VERMOLGAS_CAST(uint8_t, d);
    return vermolgas_device_send(&device, packet, length, &reply);
}

static void start(void)
{
    memset(&reply, 0xAA, sizeof reply);
    CHECK(vermolgas_device_reset(&device) == VERMOLGAS_ACCEPTED);
}

static void keep(void)
{
    before = device;
    upload_before = upload;
    memcpy(&blend_before, &blend, sizeof blend); /* what lies between its fields, too */
    reply_before = reply;
}

static bool kept(void)
{
    return memcmp(&before, &device, sizeof device) == 0 && memcmp(&reply_before, &reply, sizeof reply) == 0 &&
           memcmp(&upload_before, &upload, sizeof upload) == 0 && memcmp(&blend_before, &blend, sizeof blend) == 0;
}

static bool listed(const unsigned *list, size_t count, unsigned number)
{
    size_t i;

    for (i = 0; i < count; i++)
        if (list[i] == number)
            return true;
    return false;
}

static void opcodes(void)
{
    static const unsigned carried[] = {
        VERMOLGAS_OP_DISPLAY,        VERMOLGAS_OP_LOW_LATENCY,     VERMOLGAS_OP_LOOK,
        VERMOLGAS_OP_CURTAIN,        VERMOLGAS_OP_SPLASH,          VERMOLGAS_OP_FLIP,
        VERMOLGAS_OP_FREEZE,         VERMOLGAS_OP_GAINS,           VERMOLGAS_OP_WARP_TABLE,
        VERMOLGAS_OP_CONTROL_POINTS, VERMOLGAS_OP_APPLY_WARPING,   VERMOLGAS_OP_SMOOTH_WARP_TABLE,
        VERMOLGAS_OP_UPDATE_MODE,    VERMOLGAS_OP_GPIO_PIN_CONFIG, VERMOLGAS_OP_GPIO_PIN,
        VERMOLGAS_OP_PWM_OUTPUT,     VERMOLGAS_OP_EEPROM_LOCK,     VERMOLGAS_OP_UART};
    unsigned number;

    CHECK(COUNT(carried) == 18);
    for (number = 1; number < COUNT(carried); number++)
        CHECK(carried[number - 1] < carried[number]);
    for (number = 0; number < 256; number++) {
        uint8_t packet[2] = {0x84, 0};
        packet[1] = VERMOLGAS_CAST(uint8_t, number);
        CHECK((VERMOLGAS_STATUS(vermolgas_read(packet, 2)) != VERMOLGAS_REFUSED_OPCODE) ==
              listed(carried, COUNT(carried), number));
    }
}

/* The values that have names, in the guides' order: the numbers rise. */
static const unsigned displays[] = {VERMOLGAS_DISPLAY_EXTERNAL, VERMOLGAS_DISPLAY_TEST_PATTERN,
                                    VERMOLGAS_DISPLAY_SOLID_FIELD, VERMOLGAS_DISPLAY_SPLASH,
                                    VERMOLGAS_DISPLAY_CURTAIN};
static const unsigned curtains[] = {VERMOLGAS_CURTAIN_BLACK, VERMOLGAS_CURTAIN_WHITE, VERMOLGAS_CURTAIN_GREEN,
                                    VERMOLGAS_CURTAIN_RED,   VERMOLGAS_CURTAIN_BLUE,  VERMOLGAS_CURTAIN_YELLOW,
                                    VERMOLGAS_CURTAIN_CYAN,  VERMOLGAS_CURTAIN_MAGENTA};
static const unsigned flips[] = {VERMOLGAS_FLIP_NONE, VERMOLGAS_FLIP_VERTICAL, VERMOLGAS_FLIP_HORIZONTAL,
                                 VERMOLGAS_FLIP_BOTH};
static const unsigned gain_colours[] = {VERMOLGAS_GAIN_ALL, VERMOLGAS_GAIN_RED, VERMOLGAS_GAIN_GREEN,
                                        VERMOLGAS_GAIN_BLUE};
static const unsigned gain_words[] = {VERMOLGAS_GAINS_PLAIN, VERMOLGAS_GAINS_COMPRESSED};
static const unsigned modes[] = {VERMOLGAS_CONTROL_POINTS_EVEN};
static const unsigned updates[] = {VERMOLGAS_UPDATE_OVERWRITE};
static const unsigned directions[] = {VERMOLGAS_GPIO_INPUT, VERMOLGAS_GPIO_OUTPUT};
static const unsigned levels[] = {VERMOLGAS_GPIO_LOW, VERMOLGAS_GPIO_HIGH};
static const unsigned drains[] = {VERMOLGAS_GPIO_STANDARD, VERMOLGAS_GPIO_OPEN_DRAIN};
static const unsigned locks[] = {VERMOLGAS_EEPROM_UNLOCKED, VERMOLGAS_EEPROM_LOCKED};
static const unsigned ports[] = {VERMOLGAS_PWM_OUTPUT_0, VERMOLGAS_PWM_OUTPUT_1, VERMOLGAS_PWM_OUTPUT_2,
                                 VERMOLGAS_PWM_OUTPUT_3, VERMOLGAS_PWM_OUTPUT_4, VERMOLGAS_PWM_OUTPUT_5,
                                 VERMOLGAS_PWM_OUTPUT_6, VERMOLGAS_PWM_OUTPUT_7, VERMOLGAS_PWM_WHEEL_0,
                                 VERMOLGAS_PWM_WHEEL_1,  VERMOLGAS_PWM_WHEEL_2,  VERMOLGAS_PWM_DYNAMIC_BLACK};
static const unsigned bauds[] = {
    VERMOLGAS_UART_BAUD_1200,   VERMOLGAS_UART_BAUD_2400,   VERMOLGAS_UART_BAUD_4800,   VERMOLGAS_UART_BAUD_9600,
    VERMOLGAS_UART_BAUD_14400,  VERMOLGAS_UART_BAUD_19200,  VERMOLGAS_UART_BAUD_38400,  VERMOLGAS_UART_BAUD_57600,
    VERMOLGAS_UART_BAUD_115200, VERMOLGAS_UART_BAUD_230400, VERMOLGAS_UART_BAUD_460800, VERMOLGAS_UART_BAUD_921600};
static const unsigned bits[] = {VERMOLGAS_UART_BITS_5, VERMOLGAS_UART_BITS_6, VERMOLGAS_UART_BITS_7,
                                VERMOLGAS_UART_BITS_8};
static const unsigned stops[] = {VERMOLGAS_UART_STOP_1, VERMOLGAS_UART_STOP_2};
static const unsigned parities[] = {VERMOLGAS_UART_PARITY_NONE, VERMOLGAS_UART_PARITY_EVEN,
                                    VERMOLGAS_UART_PARITY_ODD};
static const unsigned flows[] = {VERMOLGAS_UART_FLOW_OFF, VERMOLGAS_UART_FLOW_HARDWARE};
static const unsigned triggers[] = {VERMOLGAS_UART_TRIGGER_EIGHTH, VERMOLGAS_UART_TRIGGER_QUARTER,
                                    VERMOLGAS_UART_TRIGGER_HALF, VERMOLGAS_UART_TRIGGER_THREE_QUARTERS,
                                    VERMOLGAS_UART_TRIGGER_SEVEN_EIGHTHS};
static const unsigned polarities[] = {VERMOLGAS_UART_POLARITY_NORMAL, VERMOLGAS_UART_POLARITY_INVERTED};
static const unsigned sources[] = {VERMOLGAS_UART_SOURCE_RXD, VERMOLGAS_UART_SOURCE_LAMPSTAT};

/* Where they stand: a command, data that it takes, and the place of the value there. */
static const struct {
    enum vermolgas_opcode opcode;
    const char *data;
    size_t length, place;
    const unsigned *values;
    size_t count;
} named[] = {
    {VERMOLGAS_OP_DISPLAY, "", 1, 0, displays, COUNT(displays)},
    {VERMOLGAS_OP_CURTAIN, "", 1, 0, curtains, COUNT(curtains)},
    {VERMOLGAS_OP_FLIP, "", 1, 0, flips, COUNT(flips)},
    {VERMOLGAS_OP_GAINS, "\0\0\1\0\0\0\0", 8, 1, gain_colours, COUNT(gain_colours)},
    {VERMOLGAS_OP_GAINS, "\0\0\2\0\0\0\1\0\0", 10, 0, gain_words, COUNT(gain_words)},
    {VERMOLGAS_OP_CONTROL_POINTS, "\0\2\0\2", 5, 0, modes, COUNT(modes)},
    {VERMOLGAS_OP_UPDATE_MODE, "", 1, 0, updates, COUNT(updates)},
    {VERMOLGAS_OP_GPIO_PIN_CONFIG, "\0\0\0", 4, 1, directions, COUNT(directions)},
    {VERMOLGAS_OP_GPIO_PIN_CONFIG, "\0\0\0", 4, 2, levels, COUNT(levels)},
    {VERMOLGAS_OP_GPIO_PIN_CONFIG, "\0\0\0", 4, 3, drains, COUNT(drains)},
    {VERMOLGAS_OP_GPIO_PIN, "\0", 2, 1, levels, COUNT(levels)},
    {VERMOLGAS_OP_EEPROM_LOCK, "", 1, 0, locks, COUNT(locks)},
    {VERMOLGAS_OP_PWM_OUTPUT, "\0\x14\0\0\0\0", 7, 0, ports, COUNT(ports)},
    {VERMOLGAS_OP_UART, "\0\0\0\0\0\0\0\0\0\0", 11, 2, bauds, COUNT(bauds)},
    {VERMOLGAS_OP_UART, "\0\0\0\0\0\0\0\0\0\0", 11, 3, bits, COUNT(bits)},
    {VERMOLGAS_OP_UART, "\0\0\0\0\0\0\0\0\0\0", 11, 4, stops, COUNT(stops)},
    {VERMOLGAS_OP_UART, "\0\0\0\0\0\0\0\0\0\0", 11, 5, parities, COUNT(parities)},
    {VERMOLGAS_OP_UART, "\0\0\0\0\0\0\0\0\0\0", 11, 6, flows, COUNT(flows)},
    {VERMOLGAS_OP_UART, "\0\0\0\0\0\0\0\0\0\0", 11, 7, triggers, COUNT(triggers)},
    {VERMOLGAS_OP_UART, "\0\0\0\0\0\0\0\0\0\0", 11, 8, triggers, COUNT(triggers)},
    {VERMOLGAS_OP_UART, "\0\0\0\0\0\0\0\0\0\0", 11, 9, polarities, COUNT(polarities)},
    {VERMOLGAS_OP_UART, "\0\0\0\0\0\0\0\0\0\0", 11, 10, sources, COUNT(sources)},
};

/* Of all bytes at their place, exactly those that have a name are taken. */
static void named_values(void)
{
    size_t i, j;

    for (i = 0; i < COUNT(named); i++) {
        uint8_t data[16];
        unsigned number;
        memcpy(data, named[i].data, named[i].length);
        for (j = 1; j < named[i].count; j++)
            CHECK(named[i].values[j - 1] < named[i].values[j]);
        for (number = 0; number < 256; number++) {
            data[named[i].place] = VERMOLGAS_CAST(uint8_t, number);
            CHECK((vermolgas_make_command(named[i].opcode, VERMOLGAS_OPTION_LENGTH, data, named[i].length).status ==
                   VERMOLGAS_ACCEPTED) == listed(named[i].values, named[i].count, number));
        }
    }
}

/* Control points that are listed have a size of their own. */
static void listed_control_points(void)
{
    uint8_t lists[189] = {VERMOLGAS_CONTROL_POINTS_LISTED};
    size_t i;

    for (i = 0; i < 94; i++)
        lists[1 + 2 * i] = VERMOLGAS_CAST(uint8_t, i);
    CHECK(vermolgas_make_command(VERMOLGAS_OP_CONTROL_POINTS, VERMOLGAS_OPTION_LENGTH, lists, sizeof lists).status ==
          VERMOLGAS_ACCEPTED);
}

static void sending(void)
{
    struct vermolgas_result result;

    start();
    result = send_bytes(3, 0x04, 0x11, 0x01, 0);
    CHECK(result.status == VERMOLGAS_ACCEPTED && result.reply_length == 0 && result.fault_place == 0);
    CHECK(result.data == NULL && result.data_length == 0 && reply.bytes[0] == 0xAA && device.block[0] == 1);
    result = send_bytes(2, 0x84, 0x11, 0, 0);
    CHECK(result.status == VERMOLGAS_ACCEPTED && result.reply_length == 4);
    CHECK(result.data == reply.bytes + 3 && bytes_are(result.data, result.data_length, "01"));
    CHECK(result.fault_place == 0);
    result = send_bytes(3, 0xA4, 0x11, 0x59, 0);
    CHECK(result.status == VERMOLGAS_ACCEPTED && result.reply_length == 5);
    CHECK(bytes_are(result.data, result.data_length, "01"));
    result = send_bytes(3, 0x44, 0x11, 0x02, 0);
    CHECK(result.status == VERMOLGAS_ACCEPTED && result.reply_length == 3);
    CHECK(result.data == NULL && result.data_length == 0);

    before = device;
    result = send_bytes(3, 0x44, 0x11, 0x05, 0);
    CHECK(result.status == VERMOLGAS_REFUSED_RANGE && result.reply_length == 5 && result.fault_place == 0);
    CHECK(result.data == NULL && result.data_length == 0 && bytes_are(reply.bytes, 5, "0A 02 00 00 00"));
    result = send_bytes(4, 0x44, 0x61, 0x57, 0x02); /* the second byte */
    CHECK(result.status == VERMOLGAS_REFUSED_RANGE && result.reply_length == 5 && result.fault_place == 1);
    CHECK(result.data == NULL && result.data_length == 0 && bytes_are(reply.bytes, 5, "0A 02 00 01 00"));
    result = send_bytes(4, 0x04, 0x61, 0x57, 0x02); /* the place is there without a reply, too */
    CHECK(result.status == VERMOLGAS_REFUSED_RANGE && result.reply_length == 0 && result.fault_place == 1);
    result = send_bytes(4, 0x64, 0x11, 0x01, 0x00);
    CHECK(result.status == VERMOLGAS_REFUSED_CHECKSUM && result.reply_length == 4 && result.fault_place == 0);
    result = send_bytes(0, 0, 0, 0, 0);
    CHECK(result.status == VERMOLGAS_REFUSED_TOO_SHORT && result.reply_length == 0);
    result = vermolgas_device_send(&device, NULL, 0, &reply);
    CHECK(result.status == VERMOLGAS_REFUSED_TOO_SHORT && result.reply_length == 0);
    CHECK(memcmp(&before, &device, sizeof device) == 0);
}

/* Puts the bytes of a text into the reply, and reads it. */
static struct vermolgas_reply_result read_hex(const char *hex, bool checksum)
{
    size_t length = 0;
    char *end;

    for (; *hex != '\0'; hex = end)
        reply.bytes[length++] = VERMOLGAS_CAST(uint8_t, strtoul(hex, &end, 16));
    return vermolgas_reply_read(&reply, length, checksum);
}

static void replies(void)
{
    struct vermolgas_reply_result result = read_hex("00 02 00 07 08", false);

    CHECK(result.line_status == VERMOLGAS_ACCEPTED && result.device_status == VERMOLGAS_ACCEPTED);
    CHECK(result.data == reply.bytes + 3 && bytes_are(result.data, result.data_length, "07 08"));
    result = read_hex("00 00 00 00", true);
    CHECK(result.line_status == VERMOLGAS_ACCEPTED && result.device_status == VERMOLGAS_ACCEPTED);
    CHECK(result.data == NULL && result.data_length == 0);
    result = read_hex("0C 00 00 24", true);
    CHECK(result.line_status == VERMOLGAS_ACCEPTED && result.device_status == VERMOLGAS_REFUSED_PAST_TABLE);
    CHECK(result.data == NULL && result.data_length == 0);
    CHECK(result.fault_place == 0);

    /* What is no reply is nowhere an accepted one. */
    result = read_hex("0C 00 00 0C", true);
    CHECK(result.line_status == VERMOLGAS_REFUSED_CHECKSUM && result.device_status == VERMOLGAS_REFUSED_CHECKSUM);
    result = read_hex("00 00 00 01", true);
    CHECK(result.line_status == VERMOLGAS_REFUSED_CHECKSUM && result.device_status == VERMOLGAS_REFUSED_CHECKSUM);
    result = read_hex("00 00", false);
    CHECK(result.line_status == VERMOLGAS_REFUSED_TOO_SHORT && result.device_status == VERMOLGAS_REFUSED_TOO_SHORT);
    result = vermolgas_reply_read(&reply, sizeof reply.bytes + 1, false);
    CHECK(result.line_status == VERMOLGAS_REFUSED_TOO_LONG && result.device_status == VERMOLGAS_REFUSED_TOO_LONG);
    result = vermolgas_reply_read(&reply, SIZE_MAX, true);
    CHECK(result.line_status == VERMOLGAS_REFUSED_TOO_LONG && result.device_status == VERMOLGAS_REFUSED_TOO_LONG);
    CHECK(result.data == NULL && result.data_length == 0 && result.fault_place == 0);
}

/* Whether a reply says that the packet was refused with 10, and where; its data is none of a read. */
static bool tells(struct vermolgas_reply_result result, size_t fault_place)
{
    return result.line_status == VERMOLGAS_ACCEPTED && result.device_status == VERMOLGAS_REFUSED_RANGE &&
           result.fault_place == fault_place && result.data == NULL && result.data_length == 0;
}

/* Places in replies. A place that was not sent is not known, and no number of one is made up. */
static void places_in_replies(void)
{
    struct vermolgas_reply_result result;

    CHECK(tells(read_hex("0A 02 00 00 00", false), 0));
    CHECK(tells(read_hex("0A 02 00 04 00", false), 4));
    CHECK(tells(read_hex("0A 02 00 FA 01 2F", true), 506));
    CHECK(tells(read_hex("0A 02 00 FF FF", false), 0xFFFF));
    CHECK(tells(read_hex("0A 00 00", false), VERMOLGAS_NO_PLACE)); /* from before version 0.5 */
    CHECK(tells(read_hex("0A 00 00 1E", true), VERMOLGAS_NO_PLACE));
    CHECK(tells(read_hex("0A 01 00 05", false), VERMOLGAS_NO_PLACE));
    CHECK(tells(read_hex("0A 03 00 05 00 00", false), VERMOLGAS_NO_PLACE));
    CHECK(VERMOLGAS_NO_PLACE > VERMOLGAS_LONGEST);

    /* What is no reply has none, either: a status of 13, and a checksum that is wrong. */
    result = read_hex("0D 02 00 04 00", false);
    CHECK(result.line_status == VERMOLGAS_REFUSED_RANGE && result.device_status == VERMOLGAS_REFUSED_RANGE);
    CHECK(result.fault_place == VERMOLGAS_NO_PLACE && result.data == NULL && result.data_length == 0);
    result = read_hex("0A 02 00 04 00 00", true);
    CHECK(result.device_status == VERMOLGAS_REFUSED_CHECKSUM && result.fault_place == 0);
    /* Other refusals have no place, whatever data comes with them. */
    result = read_hex("0C 02 00 04 00", false);
    CHECK(result.device_status == VERMOLGAS_REFUSED_PAST_TABLE && result.fault_place == 0 && result.data == NULL);
    CHECK(vermolgas_reply_read(NULL, 5, false).fault_place == 0);
}

/* Gains of which one is too large: each maker, the device and its reply say which. */
static void places_of_gains(void)
{
    uint16_t gains[250] = {0};
    struct vermolgas_command sound, command;
    struct vermolgas_result result;
    size_t gain, place;

    start();
    sound = vermolgas_make_gains(VERMOLGAS_GAIN_RED, 0, gains, COUNT(gains), VERMOLGAS_OPTION_REPLY);
    for (gain = 0; gain < COUNT(gains); gain++) {
        place = 6 + 2 * gain;
        gains[gain] = VERMOLGAS_GAIN_HIGHEST + 1;
        CHECK_FAULT(vermolgas_make_gains(VERMOLGAS_GAIN_RED, 0, gains, COUNT(gains), 0), place);
        gains[gain] = 0;
        command = sound;
        command.bytes[4 + place + 1] = 0x20; /* behind header, opcode and length */
        CHECK_FAULT(vermolgas_make_checked(command.bytes, command.length), place);
        result = send(&command);
        CHECK(result.status == VERMOLGAS_REFUSED_RANGE && result.fault_place == place && result.data == NULL);
        CHECK(tells(vermolgas_reply_read(&reply, result.reply_length, false), place));
    }
}

static void makers(void)
{
    static const uint8_t pin[] = {12};
    static const uint16_t gains[] = {5120, VERMOLGAS_GAIN_HIGHEST};
    struct vermolgas_point points[2];
    points[0] = point_at(1, 2);
    points[1] = point_at(0x1234, 0xFFFF);

    CHECK_MADE(vermolgas_make_display(VERMOLGAS_DISPLAY_TEST_PATTERN, 0), "04 11 01");
    CHECK_MADE(vermolgas_make_display(VERMOLGAS_DISPLAY_TEST_PATTERN, VERMOLGAS_OPTIONS_CHECKED), "64 11 01 4F");
    CHECK_MADE(vermolgas_make_low_latency(true, 0), "04 12 01");
    CHECK_MADE(vermolgas_make_low_latency(false, 0), "04 12 00");
    CHECK_MADE(vermolgas_make_look(0xFFFE, 0), "04 13 FE FF");
    CHECK_MADE(vermolgas_make_curtain(VERMOLGAS_CURTAIN_MAGENTA, 0), "04 1A 08");
    CHECK_MADE(vermolgas_make_flip(VERMOLGAS_FLIP_BOTH, 0), "04 1C 03");
    CHECK_MADE(vermolgas_make_freeze(true, 0), "04 1D 01");
    CHECK_MADE(vermolgas_make_freeze(false, VERMOLGAS_OPTION_TWO_BYTE_OPCODE), "0C 1D 00 00");
    CHECK_MADE(vermolgas_make_apply(true, 0), "04 36 01");
    CHECK_MADE(vermolgas_make_apply(false, 0), "04 36 00");
    CHECK_MADE(vermolgas_make_shape(62, 32, 0), "14 35 05 00 00 3E 00 20 00");
    CHECK_MADE(vermolgas_make_points(1982, points, 2, 0), "14 34 0A 00 BE 07 01 00 02 00 34 12 FF FF");
    CHECK_MADE(vermolgas_make_gains(VERMOLGAS_GAIN_BLUE, 258, gains, 2, 0),
               "14 2B 0A 00 00 03 02 00 02 01 00 14 FF 1F");
    CHECK_MADE(vermolgas_make_read(VERMOLGAS_OP_DISPLAY, 0), "84 11");
    CHECK_MADE(vermolgas_make_read_points(1857, 127, 0), "84 34 41 07 7F 00");
    CHECK_MADE(vermolgas_make_read_gains(VERMOLGAS_GAIN_RED, 99, 254, 0), "84 2B 01 63 00 FE 00");
    CHECK_MADE(vermolgas_make_command(VERMOLGAS_OP_GPIO_PIN, VERMOLGAS_OPTION_READ, pin, 1), "84 61 0C");
}

/* A number that is cut off would be another one, and taken. */
static void makers_refused(void)
{
    static const uint8_t data[600] = {0};

    CHECK_FAULT(vermolgas_make_display(VERMOLGAS_CAST(enum vermolgas_display, 257u), 0), 0);
    CHECK_FAULT(vermolgas_make_curtain(VERMOLGAS_CAST(enum vermolgas_curtain, UINT_MAX), 0), 0);
    CHECK_FAULT(vermolgas_make_flip(VERMOLGAS_CAST(enum vermolgas_flip, 4u), 0), 0);
    CHECK_FAULT(vermolgas_make_look(0x10000, 0), 0);
    CHECK_FAULT(vermolgas_make_shape(0x10003, 2, 0), 1);
    CHECK_FAULT(vermolgas_make_shape(2, 33, 0), 3);
    CHECK_REFUSED(vermolgas_make_command(VERMOLGAS_CAST(enum vermolgas_opcode, 0x10011u), 0, data, 1),
                  VERMOLGAS_REFUSED_OPCODE);
    CHECK_REFUSED(vermolgas_make_command(VERMOLGAS_OP_GAINS, VERMOLGAS_OPTION_LENGTH, data, sizeof data),
                  VERMOLGAS_REFUSED_TOO_LONG);
    CHECK_REFUSED(vermolgas_make_command(VERMOLGAS_OP_DISPLAY, 0, NULL, 1), VERMOLGAS_REFUSED_LENT);
    CHECK_REFUSED(vermolgas_make_command(VERMOLGAS_OP_DISPLAY, 0, NULL, SIZE_MAX), VERMOLGAS_REFUSED_LENT);
    CHECK_REFUSED(vermolgas_make_display(VERMOLGAS_DISPLAY_SPLASH, VERMOLGAS_OPTION_READ), VERMOLGAS_REFUSED_SIZE);
    CHECK_REFUSED(vermolgas_make_read(VERMOLGAS_OP_GPIO_PIN, 0), VERMOLGAS_REFUSED_SIZE);
    CHECK_FAULT(vermolgas_make_read_points(0, VERMOLGAS_READ_POINTS + 1, 0), 2);
    CHECK_FAULT(vermolgas_make_read_points(0, 0x10001, 0), 2);
    CHECK_REFUSED(vermolgas_make_read_points(0x10000, 1, 0), VERMOLGAS_REFUSED_PAST_TABLE);
    CHECK_FAULT(vermolgas_make_read_gains(VERMOLGAS_GAIN_ALL, 0, 1, 0), 0);
    CHECK_FAULT(vermolgas_make_read_gains(VERMOLGAS_GAIN_RED, 0, VERMOLGAS_READ_GAINS + 1, 0), 3);

    /* The number is the first that applies, whoever finds it. */
    CHECK_REFUSED(vermolgas_make_look(0x10000, VERMOLGAS_OPTION_READ), VERMOLGAS_REFUSED_SIZE);
    CHECK_FAULT(vermolgas_make_read_points(0x10000, 0, 0), 2);
    CHECK_FAULT(vermolgas_make_read_points(0x10000, 0x10000, 0), 2);
}

/* Of two fields at fault the first is named, whoever finds which: the layer those that are cut off, the entry those
 * that are out of range. */
static void first_faults(void)
{
    static const uint16_t high[] = {0, VERMOLGAS_GAIN_HIGHEST + 1, VERMOLGAS_GAIN_HIGHEST + 1};
    enum vermolgas_gain_colour cut_off = VERMOLGAS_CAST(enum vermolgas_gain_colour, 257u);
    enum vermolgas_gain_colour none = VERMOLGAS_CAST(enum vermolgas_gain_colour, 4u);

    CHECK_FAULT(vermolgas_make_shape(1, 1, 0), 1);
    CHECK_FAULT(vermolgas_make_shape(0x10003, 1, 0), 1);
    CHECK_FAULT(vermolgas_make_shape(1, 0x10003, 0), 1);
    CHECK_FAULT(vermolgas_make_shape(0x10003, 0x10003, 0), 1);
    CHECK_FAULT(vermolgas_make_shape(3, 0x10003, 0), 3);
    CHECK_FAULT(vermolgas_make_gains(VERMOLGAS_GAIN_RED, 0, high, 3, 0), 8);
    CHECK_FAULT(vermolgas_make_gains(none, 0, high, 3, 0), 1);
    CHECK_FAULT(vermolgas_make_gains(cut_off, 0, high, 3, 0), 1);
    CHECK_FAULT(vermolgas_make_gains(cut_off, SIZE_MAX, high, 1, 0), 1);
    CHECK_FAULT(vermolgas_make_gains(VERMOLGAS_GAIN_RED, SIZE_MAX, high, 3, 0), 8);
    CHECK_FAULT(vermolgas_make_gains(none, SIZE_MAX, high, 0, 0), 1);
    CHECK_FAULT(vermolgas_make_read_gains(cut_off, 0, 0, 0), 0);
    CHECK_FAULT(vermolgas_make_read_gains(none, 0, 0x10001, 0), 0);
    CHECK_FAULT(vermolgas_make_read_gains(VERMOLGAS_GAIN_RED, 0, 0x10001, 0), 3);
    CHECK_FAULT(vermolgas_make_read_gains(VERMOLGAS_GAIN_RED, SIZE_MAX, 0x10001, 0), 3);
    CHECK_REFUSED(vermolgas_make_gains(cut_off, 0, high, VERMOLGAS_WRITE_GAINS + 1, 0), VERMOLGAS_REFUSED_TOO_LONG);
}

static void tables_refused(void)
{
    static const struct vermolgas_point points[VERMOLGAS_WRITE_POINTS + 1] = {{0, 0}};
    static const uint16_t gains[VERMOLGAS_WRITE_GAINS + 1] = {0};
    static const uint16_t high[] = {VERMOLGAS_GAIN_HIGHEST + 1};

    CHECK(vermolgas_make_points(0, points, VERMOLGAS_WRITE_POINTS, 0x68).length == VERMOLGAS_LONGEST);
    CHECK_REFUSED(vermolgas_make_points(0, points, VERMOLGAS_WRITE_POINTS + 1, 0), VERMOLGAS_REFUSED_TOO_LONG);
    CHECK_REFUSED(vermolgas_make_points(0, points, SIZE_MAX, 0), VERMOLGAS_REFUSED_TOO_LONG);
    CHECK_REFUSED(vermolgas_make_points(0, points, 0, 0), VERMOLGAS_REFUSED_SIZE);
    CHECK_REFUSED(vermolgas_make_points(0, NULL, 0, 0), VERMOLGAS_REFUSED_SIZE);
    CHECK_REFUSED(vermolgas_make_points(0, NULL, 1, 0), VERMOLGAS_REFUSED_LENT);
    CHECK_REFUSED(vermolgas_make_points(0x10000, points, 1, 0), VERMOLGAS_REFUSED_PAST_TABLE);
    CHECK_REFUSED(vermolgas_make_points(0x10000, points, 0, 0), VERMOLGAS_REFUSED_SIZE);

    CHECK(vermolgas_make_gains(VERMOLGAS_GAIN_ALL, 0, gains, VERMOLGAS_WRITE_GAINS, 0).length == VERMOLGAS_LONGEST);
    CHECK(vermolgas_make_gains(VERMOLGAS_GAIN_ALL, 0, gains, VERMOLGAS_WRITE_GAINS - 1, 0x68).length ==
          VERMOLGAS_LONGEST);
    CHECK_REFUSED(vermolgas_make_gains(VERMOLGAS_GAIN_ALL, 0, gains, VERMOLGAS_WRITE_GAINS, VERMOLGAS_OPTION_CHECKSUM),
                  VERMOLGAS_REFUSED_TOO_LONG);
    CHECK_REFUSED(vermolgas_make_gains(VERMOLGAS_GAIN_ALL, 0, gains, VERMOLGAS_WRITE_GAINS + 1, 0),
                  VERMOLGAS_REFUSED_TOO_LONG);
    CHECK_REFUSED(vermolgas_make_gains(VERMOLGAS_GAIN_ALL, 0, gains, SIZE_MAX, 0), VERMOLGAS_REFUSED_TOO_LONG);
    CHECK_FAULT(vermolgas_make_gains(VERMOLGAS_GAIN_ALL, 0, NULL, 0, 0), 2);
    CHECK_REFUSED(vermolgas_make_gains(VERMOLGAS_GAIN_ALL, 0, NULL, 1, 0), VERMOLGAS_REFUSED_LENT);
    CHECK_REFUSED(vermolgas_make_gains(VERMOLGAS_GAIN_ALL, SIZE_MAX, gains, 1, 0), VERMOLGAS_REFUSED_PAST_TABLE);
    CHECK_FAULT(vermolgas_make_gains(VERMOLGAS_GAIN_RED, 0, high, 1, 0), 6);
    CHECK_FAULT(vermolgas_make_gains(VERMOLGAS_CAST(enum vermolgas_gain_colour, 257u), 0, gains, 1, 0), 1);
}

/* The makers' commands on a device, and what the largest reads return. */
static void a_session(void)
{
    struct vermolgas_point points[VERMOLGAS_WRITE_POINTS];
    struct vermolgas_command command;
    struct vermolgas_result result;
    size_t i;

    start();
    for (i = 0; i < COUNT(points); i++)
        points[i] = point_at(VERMOLGAS_CAST(unsigned, i), 7);
    command = vermolgas_make_points(1858, points, COUNT(points), VERMOLGAS_OPTIONS_CHECKED);
    result = send(&command);
    CHECK(result.status == VERMOLGAS_ACCEPTED && result.reply_length == 4 && result.data == NULL);
    command = vermolgas_make_read_points(1857, VERMOLGAS_READ_POINTS, VERMOLGAS_OPTION_CHECKSUM);
    result = send(&command);
    CHECK(result.reply_length == VERMOLGAS_LONGEST && result.data_length == 4 * VERMOLGAS_READ_POINTS);
    CHECK(result.data != NULL && memcmp(result.data, device.staged + 4 * 1857, result.data_length) == 0);
    CHECK(result.data != NULL && result.data[result.data_length - 4] == 125);

    command = vermolgas_make_apply(true, 0);
    CHECK(send(&command).status == VERMOLGAS_ACCEPTED);
    CHECK(memcmp(device.staged, device.live, sizeof device.live) == 0);
    command = vermolgas_make_shape(3, 2, 0);
    CHECK(send(&command).status == VERMOLGAS_ACCEPTED);
    command = vermolgas_make_points(6, points, 1, 0);
    CHECK(send(&command).status == VERMOLGAS_REFUSED_PAST_TABLE);

    /* A command that was not made is refused if it is sent. */
    command = vermolgas_make_look(0x10000, 0);
    CHECK(send(&command).status == VERMOLGAS_REFUSED_TOO_SHORT);
}

/* Whether these are the rows that moved: as many as this, from the lowest on, and of each of them a bit. */
static bool rows_are(unsigned marked, unsigned lowest, uint32_t mark)
{
    struct vermolgas_rows_result rows = vermolgas_device_rows(&device);
    size_t row;

    for (row = 0; row < VERMOLGAS_MOST_ROWS; row++)
        if (vermolgas_row_marked(rows, row) != ((mark >> row & 1) != 0))
            return false;
    return rows.status == VERMOLGAS_ACCEPTED && rows.marked == marked && rows.lowest == lowest && rows.mark == mark;
}

/* Makes and sends a write of one point, a shape, an apply. */
static bool moves(size_t index, unsigned x)
{
    struct vermolgas_point point = point_at(x, 7);
    struct vermolgas_command command = vermolgas_make_points(index, &point, 1, 0);
    return send(&command).status == VERMOLGAS_ACCEPTED;
}

static bool shapes(unsigned columns, unsigned rows)
{
    struct vermolgas_command command = vermolgas_make_shape(columns, rows, 0);
    return send(&command).status == VERMOLGAS_ACCEPTED;
}

static bool applies(bool enable)
{
    struct vermolgas_command command = vermolgas_make_apply(enable, 0);
    return send(&command).status == VERMOLGAS_ACCEPTED;
}

/* Rows as packets move them, and as they come back. */
static void rows_that_moved(void)
{
    start();
    CHECK(rows_are(0, VERMOLGAS_NO_ROW, 0));
    CHECK(moves(1983, 1) && rows_are(1, 31, 0x80000000));
    CHECK(moves(62, 1) && moves(123, 1) && rows_are(2, 1, 0x80000002)); /* the first and the last of row 1 */
    CHECK(moves(124, 1) && moves(61, 1) && rows_are(4, 0, 0x80000007));
    CHECK(applies(false) && rows_are(4, 0, 0x80000007));
    CHECK(shapes(31, 4) && rows_are(3, 1, 0xE)); /* points 61, 62 and 123 */
    CHECK(shapes(62, 32) && rows_are(4, 0, 0x80000007));
    CHECK(applies(true) && rows_are(0, VERMOLGAS_NO_ROW, 0));
    CHECK(moves(62, 2) && moves(63, 2) && rows_are(1, 1, 2));
    CHECK(moves(62, 1) && rows_are(1, 1, 2)); /* as it is live; point 63 isn't */
    keep();
    CHECK(!moves(1984, 1) && rows_are(1, 1, 2) && kept());
}

/* Every row, and numbers that are none's; no device has no row. */
static void single_rows(void)
{
    struct vermolgas_rows_result rows;
    unsigned row;

    for (row = 0; row < VERMOLGAS_MOST_ROWS; row++) {
        start();
        CHECK(moves(62 * row + row, 1) && rows_are(1, row, VERMOLGAS_CAST(uint32_t, 1) << row));
    }
    memset(&device, 0xFF, sizeof device);
    keep();
    CHECK(rows_are(32, 0, UINT32_MAX) && kept());
    rows = vermolgas_device_rows(&device);
    CHECK(vermolgas_row_marked(rows, 31) && !vermolgas_row_marked(rows, 32) && !vermolgas_row_marked(rows, 64));
    CHECK(!vermolgas_row_marked(rows, SIZE_MAX));
    rows = vermolgas_device_rows(NULL);
    CHECK(rows.status == VERMOLGAS_REFUSED_LENT && rows.marked == 0 && rows.lowest == VERMOLGAS_NO_ROW);
    CHECK(rows.mark == 0 && !vermolgas_row_marked(rows, 0));
}

/* A map in which every third point moves, and the last one. */
static void plan_a_map(void)
{
    size_t i;

    start();
    CHECK(vermolgas_upload_start(&upload, &device) == VERMOLGAS_ACCEPTED);
    CHECK(upload.packets == 0 && upload.bytes == 0 && !memcmp(upload.held, upload.wanted, sizeof upload.held));
    for (i = 0; i < VERMOLGAS_MOST_POINTS; i += 3)
        CHECK(vermolgas_upload_want(&upload, i, point_at(VERMOLGAS_CAST(unsigned, i) + 1, 0x1234)) ==
              VERMOLGAS_ACCEPTED);
    CHECK(vermolgas_upload_want(&upload, 1983, point_at(5, 6)) == VERMOLGAS_ACCEPTED);
    CHECK(bytes_are(upload.wanted + 4 * 3, 4, "04 00 34 12") && bytes_are(upload.wanted + 4 * 1983, 4, "05 00 06 00"));
    CHECK(vermolgas_upload_plan(&upload, VERMOLGAS_MOST_POINTS) == VERMOLGAS_ACCEPTED);
    CHECK(upload.packets > 1);
    CHECK(sizeof upload.room == 508 && sizeof upload.choices == 1984); /* at their least */
    CHECK(upload.choices[0] == 1 && upload.choices[1] == 0 && upload.choices[3] == 1 && upload.choices[1983] == 1);
}

static void uploads(void)
{
    struct vermolgas_walk walk;
    size_t packets = 0, bytes = 0;

    plan_a_map();
    walk = vermolgas_upload_walk(&upload);
    CHECK(walk.packet == NULL && walk.length == 0);
    while (vermolgas_walk_next(&walk)) {
        CHECK(walk.packet == upload.batch + bytes && walk.length == 6 + 4 * walk.count);
        CHECK(walk.packet[4] == (walk.start & 0xFF) && walk.packet[5] == walk.start >> 8);
        CHECK(vermolgas_device_send(&device, walk.packet, walk.length, &reply).status == VERMOLGAS_ACCEPTED);
        packets++;
        bytes += walk.length;
    }
    CHECK(walk.status == VERMOLGAS_ACCEPTED && walk.packet == NULL && walk.length == 0);
    CHECK(packets == upload.packets && bytes == upload.bytes);
    CHECK(memcmp(device.staged, upload.wanted, sizeof device.staged) == 0);
    CHECK(!vermolgas_walk_next(&walk));

    CHECK(vermolgas_upload_hold(&upload, 0, point_at(1, 0x1234)) == VERMOLGAS_ACCEPTED);
    CHECK(vermolgas_upload_plan(&upload, 1) == VERMOLGAS_ACCEPTED);
    CHECK(upload.packets == 0 && upload.bytes == 0);
    walk = vermolgas_upload_walk(&upload);
    CHECK(!vermolgas_walk_next(&walk) && walk.status == VERMOLGAS_ACCEPTED);
}

/* The same packets with checksum and reply do the same. */
static void checked_uploads(void)
{
    static const uint8_t other[] = {0x84, 0x60, 12};
    static const uint16_t gains[VERMOLGAS_WRITE_GAINS] = {0};
    struct vermolgas_command longest = vermolgas_make_gains(VERMOLGAS_GAIN_ALL, 0, gains, COUNT(gains), 0);
    struct vermolgas_walk walk;

    plan_a_map();
    walk = vermolgas_upload_walk(&upload);
    CHECK(vermolgas_make_checked(walk.packet, walk.length).status == VERMOLGAS_REFUSED_TOO_SHORT);
    while (vermolgas_walk_next(&walk)) {
        struct vermolgas_command command = vermolgas_make_checked(walk.packet, walk.length);
        struct vermolgas_result result = send(&command);
        CHECK(command.status == VERMOLGAS_ACCEPTED && command.length == walk.length + 1);
        CHECK(command.bytes[0] == 0x74 && memcmp(command.bytes + 1, walk.packet + 1, walk.length - 1) == 0);
        CHECK(result.status == VERMOLGAS_ACCEPTED && result.reply_length == 4);
    }
    CHECK(walk.status == VERMOLGAS_ACCEPTED && memcmp(device.staged, upload.wanted, sizeof device.staged) == 0);
    CHECK_MADE(vermolgas_make_checked(other, sizeof other), "E4 60 0C 78");
    CHECK_REFUSED(vermolgas_make_checked(other, 2), VERMOLGAS_REFUSED_SIZE);
    CHECK_REFUSED(vermolgas_make_checked(NULL, 3), VERMOLGAS_REFUSED_LENT);
    CHECK(longest.length == VERMOLGAS_LONGEST);
    CHECK_REFUSED(vermolgas_make_checked(longest.bytes, longest.length), VERMOLGAS_REFUSED_TOO_LONG);
}

/* Plans three packets of three points each, 18 bytes a packet: from first on, from 500 and from 1000 behind it. */
static void plan_three(size_t first)
{
    size_t i;

    start();
    CHECK(vermolgas_upload_start(&upload, &device) == VERMOLGAS_ACCEPTED);
    for (i = 0; i < 9; i++)
        CHECK(vermolgas_upload_want(&upload, first + 500 * (i / 3) + i % 3, point_at(7, 9)) == VERMOLGAS_ACCEPTED);
    CHECK(vermolgas_upload_plan(&upload, VERMOLGAS_MOST_POINTS) == VERMOLGAS_ACCEPTED);
    CHECK(upload.points == VERMOLGAS_MOST_POINTS && upload.packets == 3 && upload.bytes == 3 * 18);
}

/* A walk over the upload, one packet far. */
static struct vermolgas_walk under_way(void)
{
    struct vermolgas_walk walk = vermolgas_upload_walk(&upload);
    CHECK(vermolgas_walk_next(&walk) && walk.packet == upload.batch);
    return walk;
}

/* Whether a walk goes on for so many packets, within the batch, and ends with this status. */
static bool goes_on(struct vermolgas_walk *walk, size_t packets, unsigned status)
{
    size_t end = sizeof upload.batch, more = 0;

    for (; vermolgas_walk_next(walk); more++)
        CHECK(walk->packet >= upload.batch && walk->packet + walk->length <= upload.batch + end);
    CHECK(walk->packet == NULL && walk->length == 0 && walk->start == 0 && walk->count == 0);
    return more == packets && walk->status == status;
}

/* The same of a walk over the upload as it is. */
static bool walks(size_t packets, unsigned status)
{
    struct vermolgas_walk walk = vermolgas_upload_walk(&upload);
    return goes_on(&walk, packets, status);
}

/* Walks to the end: nothing was changed, whatever was tried. */
static void untouched_walks(void)
{
    struct vermolgas_walk walk;

    plan_three(0);
    CHECK(walks(3, VERMOLGAS_ACCEPTED));
    walk = under_way();
    CHECK(vermolgas_upload_hold(&upload, VERMOLGAS_MOST_POINTS, point_at(1, 2)) == VERMOLGAS_REFUSED_PAST_TABLE);
    CHECK(vermolgas_upload_want(&upload, VERMOLGAS_MOST_POINTS, point_at(1, 2)) == VERMOLGAS_REFUSED_PAST_TABLE);
    CHECK(vermolgas_upload_plan(&upload, 0) == VERMOLGAS_REFUSED_RANGE);
    CHECK(goes_on(&walk, 2, VERMOLGAS_ACCEPTED) && goes_on(&walk, 0, VERMOLGAS_ACCEPTED));
}

/* A point that is set takes the plan away: from a walk under way, from the next one, and from one without packets. */
static void points_set_after_planning(unsigned (*set)(struct vermolgas_upload *, size_t, struct vermolgas_point))
{
    struct vermolgas_walk walk;

    plan_three(0);
    walk = under_way();
    CHECK(set(&upload, 1983, point_at(1, 2)) == VERMOLGAS_ACCEPTED);
    CHECK(upload.points == 0 && upload.packets == 0 && upload.bytes == 0);
    CHECK(goes_on(&walk, 0, VERMOLGAS_REFUSED_LENT) && walks(0, VERMOLGAS_REFUSED_LENT));
    CHECK(vermolgas_upload_plan(&upload, VERMOLGAS_MOST_POINTS) == VERMOLGAS_ACCEPTED && walks(4, VERMOLGAS_ACCEPTED));

    CHECK(vermolgas_upload_start(&upload, &device) == VERMOLGAS_ACCEPTED && walks(0, VERMOLGAS_REFUSED_LENT));
    CHECK(vermolgas_upload_plan(&upload, VERMOLGAS_MOST_POINTS) == VERMOLGAS_ACCEPTED && upload.packets == 0);
    walk = vermolgas_upload_walk(&upload);
    CHECK(goes_on(&walk, 0, VERMOLGAS_ACCEPTED));
    CHECK(set(&upload, 0, point_at(1, 2)) == VERMOLGAS_ACCEPTED && goes_on(&walk, 0, VERMOLGAS_REFUSED_LENT));
}

static void unplanned_uploads(void)
{
    points_set_after_planning(vermolgas_upload_hold);
    points_set_after_planning(vermolgas_upload_want);
    memset(&upload, 0, sizeof upload);
    CHECK(walks(0, VERMOLGAS_REFUSED_LENT));
}

/* The numbers of a plan: fewer packets, more bytes. */
static void changed_numbers(void)
{
    struct vermolgas_walk walk;

    plan_three(0);
    walk = under_way();
    upload.packets--;
    CHECK(goes_on(&walk, 0, VERMOLGAS_REFUSED_LENT) && walks(2, VERMOLGAS_REFUSED_LENT));
    upload.packets = 0;
    CHECK(walks(0, VERMOLGAS_REFUSED_LENT));
    plan_three(0);
    walk = under_way();
    upload.bytes++;
    CHECK(goes_on(&walk, 0, VERMOLGAS_REFUSED_LENT) && walks(3, VERMOLGAS_REFUSED_LENT));
}

/* A start and a count of the plan, once with a packet that agrees, but has no points or too many. */
static void changed_plans(void)
{
    plan_three(0);
    upload.plan[6]--;
    CHECK(walks(1, VERMOLGAS_REFUSED_LENT));
    plan_three(0);
    upload.plan[4]++;
    CHECK(walks(1, VERMOLGAS_REFUSED_LENT));
    plan_three(0);
    upload.plan[2] = 0;
    upload.batch[2] = 2;
    CHECK(walks(0, VERMOLGAS_REFUSED_LENT));
    upload.plan[2] = VERMOLGAS_WRITE_POINTS + 1;
    upload.batch[2] = 0xFE;
    upload.batch[3] = 0x01;
    upload.bytes = sizeof upload.batch;
    CHECK(walks(0, VERMOLGAS_REFUSED_LENT));
}

/* Each of the first six bytes of each packet: those before it are handed out, and no other. */
static void changed_heads(void)
{
    size_t packet, place;

    plan_three(0);
    for (packet = 0; packet < 3; packet++)
        for (place = 0; place < 6; place++) {
            upload.batch[18 * packet + place] ^= 1;
            CHECK(walks(packet, VERMOLGAS_REFUSED_LENT));
            upload.batch[18 * packet + place] ^= 1;
        }
    CHECK(walks(3, VERMOLGAS_ACCEPTED));
}

/* Planned again in mid-walk: another number of packets, of bytes, of points; packets that stand elsewhere. */
static void plans_in_mid_walk(void)
{
    struct vermolgas_walk walk;

    plan_three(0);
    walk = under_way();
    CHECK(vermolgas_upload_plan(&upload, 1000) == VERMOLGAS_ACCEPTED && upload.packets == 2);
    CHECK(goes_on(&walk, 0, VERMOLGAS_REFUSED_LENT) && walks(2, VERMOLGAS_ACCEPTED));
    plan_three(0);
    walk = under_way();
    CHECK(vermolgas_upload_want(&upload, 1003, point_at(7, 9)) == VERMOLGAS_ACCEPTED);
    CHECK(vermolgas_upload_plan(&upload, VERMOLGAS_MOST_POINTS) == VERMOLGAS_ACCEPTED && upload.packets == 3);
    CHECK(goes_on(&walk, 0, VERMOLGAS_REFUSED_LENT));
    plan_three(0);
    walk = under_way();
    CHECK(vermolgas_upload_plan(&upload, 1983) == VERMOLGAS_ACCEPTED && upload.bytes == walk.bytes);
    CHECK(goes_on(&walk, 0, VERMOLGAS_REFUSED_LENT));
    plan_three(0);
    walk = under_way();
    CHECK(vermolgas_upload_hold(&upload, 0, point_at(7, 9)) == VERMOLGAS_ACCEPTED);
    CHECK(vermolgas_upload_want(&upload, 1003, point_at(7, 9)) == VERMOLGAS_ACCEPTED);
    CHECK(vermolgas_upload_plan(&upload, VERMOLGAS_MOST_POINTS) == VERMOLGAS_ACCEPTED);
    CHECK(upload.packets == 3 && upload.bytes == 3 * 18 && goes_on(&walk, 0, VERMOLGAS_REFUSED_LENT));

    plan_three(0); /* one whose numbers and places are the same stays unseen, as the header says */
    walk = under_way();
    plan_three(10);
    CHECK(goes_on(&walk, 2, VERMOLGAS_ACCEPTED));
}

/* Uploads that are no plan, and walks that were led astray. */
static void strange_uploads(void)
{
    struct vermolgas_walk walk;

    plan_three(0);
    walk = vermolgas_upload_walk(&upload);
    walk.next_offset = SIZE_MAX / 2;
    CHECK(!vermolgas_walk_next(&walk) && walk.status == VERMOLGAS_REFUSED_LENT);
    walk = vermolgas_upload_walk(&upload);
    walk.next = SIZE_MAX / 8;
    CHECK(!vermolgas_walk_next(&walk) && walk.status == VERMOLGAS_REFUSED_LENT);
    memset(&walk, 0, sizeof walk);
    CHECK(!vermolgas_walk_next(&walk) && walk.status == VERMOLGAS_REFUSED_LENT);
    upload_before = upload;
    upload.packets++;
    CHECK(walks(3, VERMOLGAS_REFUSED_LENT));
    upload.packets = SIZE_MAX;
    CHECK(walks(0, VERMOLGAS_REFUSED_LENT));
    upload.bytes = SIZE_MAX;
    CHECK(walks(0, VERMOLGAS_REFUSED_LENT));
    upload = upload_before;
    upload.bytes = SIZE_MAX;
    CHECK(walks(0, VERMOLGAS_REFUSED_LENT));
    upload = upload_before;
    upload.bytes--;
    CHECK(walks(2, VERMOLGAS_REFUSED_LENT));
    upload = upload_before;
    upload.plan[2] = 0xFF;
    upload.plan[3] = 0xFF;
    CHECK(walks(0, VERMOLGAS_REFUSED_LENT));
    memset(&upload, 0xFF, sizeof upload);
    CHECK(walks(0, VERMOLGAS_REFUSED_LENT));
    memset(upload.plan, 0, sizeof upload.plan); /* packets without points, as many as a plan can have */
    upload.packets = VERMOLGAS_MOST_POINTS;
    upload.bytes = sizeof upload.batch;
    CHECK(walks(0, VERMOLGAS_REFUSED_LENT));
}

/* Gains by their place: in stretches of so many. */
static uint16_t blended[VERMOLGAS_MOST_GAINS + 1];

static void blend_gains(size_t stretch)
{
    size_t i;

    for (i = 0; i < COUNT(blended); i++)
        blended[i] = VERMOLGAS_CAST(uint16_t, i / stretch);
}

/* Sends each packet, as it is or checked, and gives how many bytes they had. */
static size_t send_blend(bool checked)
{
    size_t bytes = 0, k;

    for (k = 0; k < blend.packets; k++) {
        struct vermolgas_slice packet = vermolgas_blend_packet(&blend, k);
        struct vermolgas_command command = vermolgas_make_checked(packet.bytes, packet.length);
        CHECK(packet.bytes == blend.batch + bytes && command.length == packet.length + 1);
        if (checked)
            CHECK(send(&command).status == VERMOLGAS_ACCEPTED);
        else
            CHECK(vermolgas_device_send(&device, packet.bytes, packet.length, &reply).status == VERMOLGAS_ACCEPTED);
        bytes += packet.length;
    }
    return bytes;
}

/* Whether a colour, counted from 0, has these gains from first on, and else those of reset. */
static bool has_gains(size_t third, size_t first, size_t count)
{
    const uint8_t *gains = device.gains + third * VERMOLGAS_GAINS_BYTES / 3;
    size_t i;

    for (i = 0; i < VERMOLGAS_MOST_GAINS; i++) {
        size_t due = i >= first && i - first < count ? blended[i - first] : VERMOLGAS_GAIN_ONE;
        if ((gains[2 * i] | VERMOLGAS_CAST(size_t, gains[2 * i + 1]) << 8) != due)
            return false;
    }
    return true;
}

static void blends(void)
{
    struct vermolgas_slice packet;

    start();
    blend_gains(100);
    CHECK(vermolgas_blend_pack(&blend, VERMOLGAS_GAIN_BLUE, 258, blended, 150) == VERMOLGAS_ACCEPTED);
    CHECK(blend.pair_count == 2 && blend.packets == 1 && blend.bytes == 18);
    packet = vermolgas_blend_packet(&blend, 0);
    CHECK(bytes_are(packet.bytes, packet.length, "14 2B 0E 00 01 03 04 00 02 01 64 00 00 00 32 00 01 00"));
    CHECK(vermolgas_blend_packet(&blend, 1).bytes == NULL && vermolgas_blend_packet(&blend, 1).length == 0);
    CHECK(send_blend(true) == blend.bytes && has_gains(2, 258, 150) && has_gains(0, 0, 0) && has_gains(1, 0, 0));

    /* As many packets as there can be, and one for all. */
    blend_gains(1);
    CHECK(vermolgas_blend_pack(&blend, VERMOLGAS_GAIN_ALL, 0, blended, VERMOLGAS_MOST_GAINS) == VERMOLGAS_ACCEPTED);
    CHECK(blend.pair_count == 2016 && blend.packets == 17 && blend.bytes == VERMOLGAS_SPLIT_BATCH_BYTES);
    CHECK(send_blend(false) == blend.bytes);
    CHECK(has_gains(0, 0, 2016) && has_gains(1, 0, 2016) && has_gains(2, 0, 2016));
    blend_gains(VERMOLGAS_MOST_GAINS);
    CHECK(vermolgas_blend_pack(&blend, VERMOLGAS_GAIN_RED, 0, blended, VERMOLGAS_MOST_GAINS) == VERMOLGAS_ACCEPTED);
    CHECK(blend.pair_count == 1 && blend.packets == 1 && blend.bytes == 14);
    CHECK(send_blend(false) == blend.bytes && has_gains(0, 0, 2016));
}

/* What is refused changes nothing, not the packets from before either. */
static void blends_refused(void)
{
    enum vermolgas_gain_colour none = VERMOLGAS_CAST(enum vermolgas_gain_colour, 4u);

    blend_gains(1);
    CHECK(vermolgas_blend_pack(&blend, VERMOLGAS_GAIN_RED, 2014, blended, 2) == VERMOLGAS_ACCEPTED);
    keep();
    CHECK(vermolgas_blend_pack(NULL, none, 0, blended, 1) == VERMOLGAS_REFUSED_LENT);
    CHECK(vermolgas_blend_pack(&blend, none, 0, NULL, 1) == VERMOLGAS_REFUSED_LENT);
    CHECK(vermolgas_blend_pack(&blend, VERMOLGAS_GAIN_RED, SIZE_MAX, NULL, 0) == VERMOLGAS_REFUSED_RANGE);
    CHECK(vermolgas_blend_pack(&blend, VERMOLGAS_GAIN_RED, 0, blended, COUNT(blended)) == VERMOLGAS_REFUSED_RANGE);
    CHECK(vermolgas_blend_pack(&blend, VERMOLGAS_GAIN_RED, 0, blended, SIZE_MAX) == VERMOLGAS_REFUSED_RANGE);
    CHECK(vermolgas_blend_pack(&blend, none, 2016, blended, 1) == VERMOLGAS_REFUSED_RANGE);
    CHECK(vermolgas_blend_pack(&blend, VERMOLGAS_CAST(enum vermolgas_gain_colour, 256u), 0, blended, 1) ==
          VERMOLGAS_REFUSED_RANGE);
    CHECK(vermolgas_blend_pack(&blend, VERMOLGAS_GAIN_RED, 2015, blended, 2) == VERMOLGAS_REFUSED_PAST_TABLE);
    CHECK(vermolgas_blend_pack(&blend, VERMOLGAS_GAIN_RED, 1, blended, 2016) == VERMOLGAS_REFUSED_PAST_TABLE);
    CHECK(vermolgas_blend_pack(&blend, VERMOLGAS_GAIN_RED, SIZE_MAX, blended, 2) == VERMOLGAS_REFUSED_PAST_TABLE);
    blended[1] = VERMOLGAS_GAIN_HIGHEST + 1;
    CHECK(vermolgas_blend_pack(&blend, VERMOLGAS_GAIN_RED, SIZE_MAX, blended, 2) == VERMOLGAS_REFUSED_RANGE);
    CHECK(kept() && vermolgas_blend_packet(&blend, 0).length == 18);
    blended[1] = VERMOLGAS_GAIN_HIGHEST;
    CHECK(vermolgas_blend_pack(&blend, VERMOLGAS_GAIN_RED, 0, blended, 2) == VERMOLGAS_ACCEPTED);
}

/* A blend that is not packed has no packet, and one whose numbers were changed none outside of its batch. */
static void strange_blends(void)
{
    static const size_t numbers[] = {0, 1, 17, 18, 510, 8160, VERMOLGAS_SPLIT_BATCH_BYTES, 8235, SIZE_MAX / 2, SIZE_MAX};
    size_t i;

    memset(&blend, 0, sizeof blend);
    CHECK(vermolgas_blend_packet(&blend, 0).bytes == NULL && vermolgas_blend_packet(NULL, 0).bytes == NULL);
    for (i = 0; i < COUNT(numbers) * COUNT(numbers) * COUNT(numbers); i++) {
        size_t index = numbers[i % COUNT(numbers)], offset = VERMOLGAS_SPLIT_PACKET_BYTES * index;
        struct vermolgas_slice packet;
        blend.packets = numbers[i / COUNT(numbers) % COUNT(numbers)];
        blend.bytes = numbers[i / COUNT(numbers) / COUNT(numbers)];
        packet = vermolgas_blend_packet(&blend, index);
        if (packet.bytes == NULL)
            CHECK(packet.length == 0);
        else
            CHECK(index <= 16 && packet.bytes == blend.batch + offset && packet.length > 0 &&
                  offset + packet.length <= sizeof blend.batch);
    }
    memset(&blend, 0, sizeof blend);
}

/* Arguments that are nothing, or out of range: a status, and no byte is written. */
static void bad_arguments(void)
{
    struct vermolgas_walk walk = vermolgas_upload_walk(NULL);
    uint8_t packet[] = {0x84, 0x11};

    plan_a_map();
    keep();
    CHECK(vermolgas_device_reset(NULL) == VERMOLGAS_REFUSED_LENT);
    CHECK(vermolgas_device_send(NULL, packet, 2, &reply).status == VERMOLGAS_REFUSED_LENT);
    CHECK(vermolgas_device_send(&device, packet, 2, NULL).status == VERMOLGAS_REFUSED_LENT);
    CHECK(vermolgas_device_send(&device, NULL, 2, &reply).status == VERMOLGAS_REFUSED_LENT);
    CHECK(vermolgas_device_send(NULL, NULL, 0, NULL).status == VERMOLGAS_REFUSED_LENT);
    CHECK(vermolgas_reply_read(NULL, 3, false).line_status == VERMOLGAS_REFUSED_LENT);
    CHECK(vermolgas_reply_read(NULL, 3, false).device_status == VERMOLGAS_REFUSED_LENT);
    CHECK(vermolgas_upload_start(NULL, &device) == VERMOLGAS_REFUSED_LENT);
    CHECK(vermolgas_upload_start(&upload, NULL) == VERMOLGAS_REFUSED_LENT);
    CHECK(vermolgas_upload_hold(NULL, 0, point_at(0, 0)) == VERMOLGAS_REFUSED_LENT);
    CHECK(vermolgas_upload_want(NULL, 0, point_at(0, 0)) == VERMOLGAS_REFUSED_LENT);
    CHECK(vermolgas_upload_hold(&upload, 1984, point_at(9, 9)) == VERMOLGAS_REFUSED_PAST_TABLE);
    CHECK(vermolgas_upload_want(&upload, SIZE_MAX, point_at(9, 9)) == VERMOLGAS_REFUSED_PAST_TABLE);
    CHECK(vermolgas_upload_plan(NULL, 1) == VERMOLGAS_REFUSED_LENT);
    CHECK(vermolgas_upload_plan(&upload, 0) == VERMOLGAS_REFUSED_RANGE);
    CHECK(vermolgas_upload_plan(&upload, 1985) == VERMOLGAS_REFUSED_RANGE);
    CHECK(vermolgas_upload_plan(&upload, UINT32_MAX) == VERMOLGAS_REFUSED_RANGE);
    CHECK(walk.status == VERMOLGAS_REFUSED_LENT && !vermolgas_walk_next(&walk) && walk.packet == NULL);
    CHECK(!vermolgas_walk_next(NULL));
    CHECK(kept());

    /* A device that was never reset: refusal 1 is the front end's own. */
    memset(&device, 0xFF, sizeof device);
    keep();
    CHECK(vermolgas_device_send(&device, packet, 2, &reply).status == VERMOLGAS_REFUSED_LENT);
    CHECK(kept());
}

static void words(void)
{
    unsigned number, other;

    for (number = 0; number <= 12; number++) {
        const char *text = vermolgas_refusal_text(number);
        CHECK(text[0] != '\0' && strchr(text, '\n') == NULL);
        for (other = 0; other < number; other++)
            CHECK(strcmp(text, vermolgas_refusal_text(other)) != 0);
        CHECK(strcmp(text, vermolgas_refusal_text(UINT_MAX)) != 0);
    }
    for (number = 2; number <= 5; number++) /* of packets and of replies */
        CHECK(strstr(vermolgas_refusal_text(number), "packet") == NULL);
    CHECK(strcmp(vermolgas_refusal_text(0), "accepted") == 0);
    CHECK(strcmp(vermolgas_refusal_text(99), "no such refusal") == 0);
}

/* Whether a line in so much room is this text, as far as that goes, its length is answered, and no byte behind is
 * written. */
static bool writes(size_t room, unsigned number, size_t fault_place, const char *text)
{
    char line[VERMOLGAS_LINE_BYTES + 8];
    size_t whole = strlen(text), kept = room == 0 ? 0 : whole < room ? whole : room - 1, i;

    memset(line, 'X', sizeof line);
    if (vermolgas_refusal_line(line, room, number, fault_place) != whole || memcmp(line, text, kept) != 0)
        return false;
    if (room > 0 && line[kept] != '\0')
        return false;
    for (i = room == 0 ? 0 : kept + 1; i < sizeof line; i++)
        if (line[i] != 'X')
            return false;
    return true;
}

static void lines(void)
{
    size_t room;
    unsigned number;

    for (room = 0; room <= VERMOLGAS_LINE_BYTES; room++) {
        CHECK(writes(room, VERMOLGAS_REFUSED_RANGE, 0, "a value is out of range, at data byte 0"));
        CHECK(writes(room, VERMOLGAS_REFUSED_RANGE, 5, "a value is out of range, at data byte 5"));
        CHECK(writes(room, VERMOLGAS_REFUSED_RANGE, 10, "a value is out of range, at data byte 10"));
        CHECK(writes(room, VERMOLGAS_REFUSED_RANGE, 506, "a value is out of range, at data byte 506"));
        CHECK(writes(room, VERMOLGAS_REFUSED_RANGE, 65535, "a value is out of range, at data byte 65535"));
        CHECK(writes(room, VERMOLGAS_REFUSED_RANGE, VERMOLGAS_NO_PLACE, "a value is out of range"));
        for (number = 0; number <= 13; number++) /* with any other number the place is not looked at */
            if (number != VERMOLGAS_REFUSED_RANGE) {
                CHECK(writes(room, number, 0, vermolgas_refusal_text(number)));
                CHECK(writes(room, number, 5, vermolgas_refusal_text(number)));
            }
    }
    CHECK(vermolgas_refusal_line(NULL, 0, VERMOLGAS_REFUSED_RANGE, 5) == 39);
    CHECK(vermolgas_refusal_line(NULL, 100, VERMOLGAS_REFUSED_RANGE, 5) == 39);
    CHECK(vermolgas_refusal_line(NULL, 0, VERMOLGAS_ACCEPTED, 0) == strlen("accepted"));

    /* Every line fits the room that is said to do for all. */
    for (number = 0; number <= 13; number++)
        CHECK(vermolgas_refusal_line(NULL, 0, number, SIZE_MAX - 1) < VERMOLGAS_LINE_BYTES);
    CHECK(vermolgas_refusal_line(NULL, 0, UINT_MAX, 0) < VERMOLGAS_LINE_BYTES);
}

static void version(void)
{
    CHECK(VERMOLGAS_VERSION ==
          10000 * VERMOLGAS_VERSION_MAJOR + 100 * VERMOLGAS_VERSION_MINOR + VERMOLGAS_VERSION_PATCH);
    CHECK(VERMOLGAS_VERSION > 0 && VERMOLGAS_VERSION_MINOR < 100 && VERMOLGAS_VERSION_PATCH < 100);
    CHECK(VERMOLGAS_VERSION >= 600); /* refusals by 10 have places from 0.5 on, rows are marked from 0.6 on */
}

static const struct group groups[] = {
    {"opcodes", opcodes},
    {"named values", named_values},
    {"listed control points", listed_control_points},
    {"sending", sending},
    {"replies", replies},
    {"places in replies", places_in_replies},
    {"places of gains", places_of_gains},
    {"makers", makers},
    {"makers refused", makers_refused},
    {"first faults", first_faults},
    {"tables refused", tables_refused},
    {"a session", a_session},
    {"rows that moved", rows_that_moved},
    {"single rows", single_rows},
    {"uploads", uploads},
    {"checked uploads", checked_uploads},
    {"untouched walks", untouched_walks},
    {"unplanned uploads", unplanned_uploads},
    {"changed numbers", changed_numbers},
    {"changed plans", changed_plans},
    {"changed heads", changed_heads},
    {"plans in mid-walk", plans_in_mid_walk},
    {"strange uploads", strange_uploads},
    {"blends", blends},
    {"blends refused", blends_refused},
    {"strange blends", strange_blends},
    {"bad arguments", bad_arguments},
    {"words", words},
    {"lines", lines},
    {"version", version},
};

int main(void)
{
    return RUN_GROUPS(groups);
}

/* A host that talks to a controller: it makes packets, sends them, and reads the replies. It plans the upload of a
 * changed warp map, and sends no more than that takes.
 *
 * Each packet (>) and each reply (<) is printed in hex. In the field a bus lies between host and controller; here
 * exchange() hands the packet straight to the front end.
 *
 *     host --record FILE
 *
 * also writes the packets to FILE, as a session file (docs/RULES.md, section 9) for target/bin/replay. The exit status
 * is 2 for wrong arguments, 1 if anything else went wrong.
 */
#include "vermolgas_device.h"

#include <errno.h>
#include <stdio.h>
#include <stdlib.h>
#include <string.h>

static struct vermolgas_device device;
static struct vermolgas_upload upload;

/* A session file of the packets sent. */
static struct {
    const char *name;
    FILE *file; /* NULL if nothing is recorded */
} recording;

enum { BAD_USAGE = 2 };

/* Writes carry a length, and ask for a reply; both ways a checksum goes along. */
#define WRITE (VERMOLGAS_OPTION_LENGTH | VERMOLGAS_OPTIONS_CHECKED)
#define READ  (VERMOLGAS_OPTION_LENGTH | VERMOLGAS_OPTION_CHECKSUM)

/* Lists with the number of their items, as two arguments of a call. A point is in pixels; packets carry eighths. */
#define ITEMS(type, ...) (const type[]){__VA_ARGS__}, sizeof(const type[]){__VA_ARGS__} / sizeof(type)
#define DATA(...)        ITEMS(uint8_t, __VA_ARGS__)
#define GAINS(...)       ITEMS(uint16_t, __VA_ARGS__)
#define POINTS(...)      ITEMS(struct vermolgas_point, __VA_ARGS__)
#define POINT(x, y)      {8 * (x), 8 * (y)}

/* Numbers of 16 and 32 bits as data bytes, low byte first. */
#define U16(n) (n) & 0xFF, (n) >> 8 & 0xFF
#define U32(n) U16(n), U16((n) >> 16)

/* Ends the program, and so the session: what can't be recorded isn't sent. */
static _Noreturn void stop_recording(const char *what, const char *why)
{
    fprintf(stderr, "recording '%s': %s: %s\n", recording.name, what, why);
    exit(EXIT_FAILURE);
}

/* Bytes go to the file at once, so that it has them whatever becomes of this program. */
static void record_bytes(const uint8_t *bytes, size_t length)
{
    if (fwrite(bytes, 1, length, recording.file) != length || fflush(recording.file) != 0)
        stop_recording("can't be written", strerror(errno));
}

static void begin_recording(const char *name)
{
    recording.name = name;
    recording.file = fopen(name, "wb");
    if (recording.file == NULL)
        stop_recording("can't be opened", strerror(errno));
    record_bytes(DATA('P', 'J', 'L', U16(1))); /* mark and version */
}

static void record_packet(const uint8_t *packet, size_t length)
{
    if (recording.file == NULL)
        return;
    if (length > UINT16_MAX)
        stop_recording("a packet can't be recorded", "it is longer than 65535 bytes");
    record_bytes(DATA(U16(length)));
    record_bytes(packet, length);
}

static void end_recording(void)
{
    if (recording.file != NULL && fclose(recording.file) != 0)
        stop_recording("can't be written", strerror(errno));
}

static void print_hex(char direction, const uint8_t *bytes, size_t length)
{
    for (size_t i = 0; i < length; i++) {
        if (i % 16 == 0)
            printf("%s  %c", i == 0 ? "" : "\n", i == 0 ? direction : ' ');
        printf(" %02X", bytes[i]);
    }
    printf("\n");
}

/* Prints why a packet was refused; if one of its values is out of range, with its place in the data. */
static void print_refusal(const char *what, unsigned status, size_t fault_place)
{
    char line[VERMOLGAS_LINE_BYTES];

    if (vermolgas_refusal_line(line, sizeof line, status, fault_place) < sizeof line)
        printf("  %s %u: %s\n\n", what, status, line);
}

/* Sends a packet, and prints it and its reply. Nothing else changes the device after reset, so that a recording tells
 * all of it. */
static void exchange(const uint8_t *packet, size_t length)
{
    struct vermolgas_reply reply;

    record_packet(packet, length);
    print_hex('>', packet, length);
    struct vermolgas_result result = vermolgas_device_send(&device, packet, length, &reply);
    if (result.reply_length == 0) {
        printf("  no reply\n\n");
        return;
    }
    print_hex('<', reply.bytes, result.reply_length);
    if (result.status != VERMOLGAS_ACCEPTED) {
        print_refusal("refused with", result.status, result.fault_place);
        return;
    }
    printf("  accepted%s", result.data_length == 0 ? "" : ", data");
    for (size_t i = 0; i < result.data_length; i++)
        printf(" %02X", result.data[i]);
    printf("\n\n");
}

/* Sends a packet that was made. A command that no controller would take isn't made, and so isn't sent. */
static void command(const char *words, struct vermolgas_command made)
{
    printf("%s\n", words);
    if (made.status != VERMOLGAS_ACCEPTED)
        print_refusal("not made,", made.status, made.fault_place);
    else
        exchange(made.bytes, made.length);
}

/* Commands of pins and ports. */
static void write_port(const char *words, enum vermolgas_opcode opcode, const uint8_t *data, size_t length)
{
    command(words, vermolgas_make_command(opcode, WRITE, data, length));
}

static void read_port(const char *words, enum vermolgas_opcode opcode, uint8_t port)
{
    command(words, vermolgas_make_command(opcode, READ | VERMOLGAS_OPTION_READ, &port, 1));
}

static void set_peripherals(void)
{
    write_port("60h: pin 12 is an output, high, open drain", VERMOLGAS_OP_GPIO_PIN_CONFIG,
               DATA(12, VERMOLGAS_GPIO_OUTPUT, VERMOLGAS_GPIO_HIGH, VERMOLGAS_GPIO_OPEN_DRAIN));
    write_port("61h: pull pin 12 low", VERMOLGAS_OP_GPIO_PIN, DATA(12, VERMOLGAS_GPIO_LOW));
    read_port("60h: how is pin 12 set?", VERMOLGAS_OP_GPIO_PIN_CONFIG, 12);

    write_port("65h: PWM output 2 at 25 kHz, 40 %, on", VERMOLGAS_OP_PWM_OUTPUT,
               DATA(VERMOLGAS_PWM_OUTPUT_2, U32(25000), 40, 1));
    read_port("65h: how is PWM output 2 set?", VERMOLGAS_OP_PWM_OUTPUT, VERMOLGAS_PWM_OUTPUT_2);

    write_port("6Dh: UART 1 on, 115200 baud, 8 bits, 1 stop bit, no parity, FIFOs half full", VERMOLGAS_OP_UART,
               DATA(1, 1, VERMOLGAS_UART_BAUD_115200, VERMOLGAS_UART_BITS_8, VERMOLGAS_UART_STOP_1,
                    VERMOLGAS_UART_PARITY_NONE, VERMOLGAS_UART_FLOW_OFF, VERMOLGAS_UART_TRIGGER_HALF,
                    VERMOLGAS_UART_TRIGGER_HALF, VERMOLGAS_UART_POLARITY_NORMAL, VERMOLGAS_UART_SOURCE_RXD));
    read_port("6Dh: how is UART 1 set?", VERMOLGAS_OP_UART, 1);
}

/* A point of a map, in pixels. The tables are the host's own memory and may be looked at. */
static void print_point(const char *words, const uint8_t *map, size_t index)
{
    const uint8_t *point = map + VERMOLGAS_POINT_BYTES * index;
    double x = (point[0] | point[1] << 8) / 8.0, y = (point[2] | point[3] << 8) / 8.0;
    printf("  %s point %zu is at %.1f, %.1f\n", words, index, x, y);
}

/* The rows that moved: those whose points the next apply changes, for a console to light. */
static void print_rows(void)
{
    struct vermolgas_rows_result rows = vermolgas_device_rows(&device);

    if (rows.marked == 0) {
        printf("  rows moved: none\n\n");
        return;
    }
    printf("  rows moved: %u, the lowest is %u:", rows.marked, rows.lowest);
    for (size_t row = rows.lowest; row < VERMOLGAS_MOST_ROWS; row++)
        if (vermolgas_row_marked(rows, row))
            printf(" %zu", row);
    printf("\n\n");
}

static void warp(void)
{
    command("35h: control points in 3 columns and 2 rows", vermolgas_make_shape(3, 2, WRITE));
    command("34h: the map's six points, from 0 on",
            vermolgas_make_points(0,
                                  POINTS(POINT(0, 0), POINT(960, 12), POINT(1919, 0), POINT(0, 1079), POINT(960, 1067),
                                         POINT(1919, 1079)),
                                  WRITE));
    command("34h: read points 4 and 5 back", vermolgas_make_read_points(4, 2, READ));
    print_rows();
    command("36h: apply the map", vermolgas_make_apply(true, WRITE));
    print_rows();
    command("34h: move point 5, staged for now", vermolgas_make_points(5, POINTS(POINT(1900, 1060)), WRITE));
    print_point("staged", device.staged, 5);
    print_point("live", device.live, 5);
    print_rows();
}

/* Plans the upload of a full map in which some points of the staged one have moved. */
static unsigned plan_map(void)
{
    static const struct {
        size_t index;
        struct vermolgas_point point;
    } moves[] = {{100, POINT(1171, 35)}, {102, POINT(1233, 36)}, {110, POINT(1482, 33)}, {1983, POINT(1912, 1071)}};

    unsigned status = vermolgas_upload_start(&upload, &device);
    for (size_t i = 0; i < sizeof moves / sizeof *moves && status == VERMOLGAS_ACCEPTED; i++)
        status = vermolgas_upload_want(&upload, moves[i].index, moves[i].point);
    return status != VERMOLGAS_ACCEPTED ? status : vermolgas_upload_plan(&upload, VERMOLGAS_MOST_POINTS);
}

/* Sends the packets of the batch one by one. */
static int send_map(void)
{
    printf("Upload: points 100, 102, 110 and 1983 are to move\n");
    unsigned status = plan_map();
    if (status != VERMOLGAS_ACCEPTED) {
        fprintf(stderr, "planning is refused with %u: %s\n", status, vermolgas_refusal_text(status));
        return EXIT_FAILURE;
    }
    printf("  planned: %zu packets, %zu bytes\n\n", upload.packets, upload.bytes);

    struct vermolgas_walk walk = vermolgas_upload_walk(&upload);
    while (vermolgas_walk_next(&walk)) {
        printf("34h: %zu of the points, from %zu on\n", walk.count, walk.start);
        exchange(walk.packet, walk.length);
    }
    if (walk.status != VERMOLGAS_ACCEPTED || memcmp(device.staged, upload.wanted, sizeof upload.wanted) != 0) {
        fprintf(stderr, "the staged map isn't the one wanted\n");
        return EXIT_FAILURE;
    }
    /* A full map fills the batch. */
    printf("  the staged map is the one wanted: %zu bytes sent, %zu saved against the whole map's %d\n\n", upload.bytes,
           VERMOLGAS_BATCH_BYTES - upload.bytes, VERMOLGAS_BATCH_BYTES);
    return EXIT_SUCCESS;
}

/* The whole session, from reset on. */
static int run_session(void)
{
    unsigned status = vermolgas_device_reset(&device);
    if (status != VERMOLGAS_ACCEPTED) {
        fprintf(stderr, "reset is refused with %u: %s\n", status, vermolgas_refusal_text(status));
        return EXIT_FAILURE;
    }

    command("11h: show the test pattern", vermolgas_make_display(VERMOLGAS_DISPLAY_TEST_PATTERN, WRITE));
    command("11h: what is shown?", vermolgas_make_read(VERMOLGAS_OP_DISPLAY, READ));
    command("13h: take look 3", vermolgas_make_look(3, WRITE));
    command("1Ah: make the curtain blue", vermolgas_make_curtain(VERMOLGAS_CURTAIN_BLUE, WRITE));
    set_peripherals();

    warp();
    command("35h: control points in 62 columns and 32 rows", vermolgas_make_shape(62, 32, WRITE));
    if (send_map() != EXIT_SUCCESS)
        return EXIT_FAILURE;
    print_rows();
    command("34h: read points 100 to 102 back", vermolgas_make_read_points(100, 3, READ));
    command("34h: read point 1983 back", vermolgas_make_read_points(1983, 1, READ));
    command("35h: control points in 3 columns and 2 rows again", vermolgas_make_shape(3, 2, WRITE));

    /* Gains are in units of 1/4096. */
    command("2Bh: two red gains of 1.25, from 100 on",
            vermolgas_make_gains(VERMOLGAS_GAIN_RED, 100, GAINS(5120, 5120), WRITE));
    command("2Bh: read red gains 99 to 102 back", vermolgas_make_read_gains(VERMOLGAS_GAIN_RED, 99, 4, READ));

    command("11h: there is no display 5", vermolgas_make_display((enum vermolgas_display)5, WRITE));
    printf("6Dh: a packet from elsewhere, with a parity of 3\n");
    exchange(DATA(0x54, 0x6D, U16(11), 1, 1, VERMOLGAS_UART_BAUD_115200, VERMOLGAS_UART_BITS_8, VERMOLGAS_UART_STOP_1,
                  3, VERMOLGAS_UART_FLOW_OFF, VERMOLGAS_UART_TRIGGER_HALF, VERMOLGAS_UART_TRIGGER_HALF,
                  VERMOLGAS_UART_POLARITY_NORMAL, VERMOLGAS_UART_SOURCE_RXD));
    command("34h: the map has no point 6", vermolgas_make_points(6, POINTS(POINT(0, 0)), WRITE));
    printf("11h: a packet with a bit flipped on the way\n");
    exchange(DATA(0x74, 0x11, 0x01, 0x00, 0x03, 0x8C));
    command("11h: what is shown?", vermolgas_make_read(VERMOLGAS_OP_DISPLAY, READ));
    return EXIT_SUCCESS;
}

int main(int arguments, char **argument)
{
    if (arguments == 3 && strcmp(argument[1], "--record") == 0) {
        begin_recording(argument[2]);
    } else if (arguments != 1) {
        fprintf(stderr, "usage: host [--record FILE]\n");
        return BAD_USAGE;
    }
    int status = run_session();
    end_recording();
    return status;
}

/* The host's recorder on one packet of any length; the host itself sends short ones:
 *
 *     recorder FILE LENGTH
 *
 * The packet's bytes are all FFh. Nothing is sent.
 */
#define main host_main
#include "../../examples/host.c"
#undef main

int main(int arguments, char **argument)
{
    static uint8_t packet[UINT16_MAX + 1];
    size_t length = arguments == 3 ? strtoul(argument[2], NULL, 10) : SIZE_MAX;

    if (length > sizeof packet) {
        fprintf(stderr, "usage: recorder FILE LENGTH, at most %zu\n", sizeof packet);
        return BAD_USAGE;
    }
    memset(packet, 0xFF, sizeof packet);
    begin_recording(argument[1]);
    record_packet(packet, length);
    end_recording();
    return EXIT_SUCCESS;
}

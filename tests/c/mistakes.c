/* Mistakes that a compiler has to see: in each section, exactly the lines marked 'caught'. Compiled, never run.
 *
 * The section is chosen on the command line, -DIGNORED for one; tests/c/mistakes compares what is seen with the marks.
 */
#include "vermolgas_device.h"

struct vermolgas_device device;
struct vermolgas_upload upload;
struct vermolgas_reply reply;
struct vermolgas_walk walk;
struct vermolgas_blend blend;
struct vermolgas_rows_result rows;
struct vermolgas_point point;
uint8_t bytes[VERMOLGAS_LONGEST];
uint16_t gains[1];

void mistakes(void);

void mistakes(void)
{
    unsigned status = vermolgas_device_reset(&device);
    uint64_t answer = vermolgas_read(bytes, 3);
    if (status != VERMOLGAS_ACCEPTED || VERMOLGAS_STATUS(answer) != VERMOLGAS_ACCEPTED)
        return;

#ifdef IGNORED
    vermolgas_reset(NULL, 0, NULL, 0, NULL, 0, NULL, 0);                       /* caught */
    vermolgas_packet(bytes, 3, NULL, 0, NULL, 0, NULL, 0, NULL, 0, NULL, 0);   /* caught */
    vermolgas_rows(NULL, 0);                                                   /* caught */
    vermolgas_read(bytes, 3);                                                  /* caught */
    vermolgas_make(0x11, 0, bytes, 1, bytes, sizeof bytes);                    /* caught */
    vermolgas_read_reply(bytes, 3, 0);                                         /* caught */
    vermolgas_plan(1, NULL, 0, NULL, 0, NULL, 0, NULL, 0, NULL, 0, NULL, 0);   /* caught */
    vermolgas_compress(NULL, 0, NULL, 0);                                      /* caught */
    vermolgas_split(1, 0, NULL, 0, NULL, 0);                                   /* caught */
    vermolgas_refusal_text(1);                                                 /* caught */
    vermolgas_refusal_line(NULL, 0, 10, 5);                                    /* caught */
    vermolgas_device_reset(&device);                                           /* caught */
    vermolgas_device_send(&device, bytes, 3, &reply);                          /* caught */
    vermolgas_reply_read(&reply, 3, false);                                    /* caught */
    vermolgas_device_rows(&device);                                            /* caught */
    vermolgas_row_marked(rows, 0);                                             /* caught */
    vermolgas_make_command(VERMOLGAS_OP_DISPLAY, 0, bytes, 1);                 /* caught */
    vermolgas_make_display(VERMOLGAS_DISPLAY_SPLASH, 0);                       /* caught */
    vermolgas_make_low_latency(true, 0);                                       /* caught */
    vermolgas_make_look(1, 0);                                                 /* caught */
    vermolgas_make_curtain(VERMOLGAS_CURTAIN_RED, 0);                          /* caught */
    vermolgas_make_flip(VERMOLGAS_FLIP_BOTH, 0);                               /* caught */
    vermolgas_make_freeze(true, 0);                                            /* caught */
    vermolgas_make_apply(true, 0);                                             /* caught */
    vermolgas_make_shape(2, 2, 0);                                             /* caught */
    vermolgas_make_points(0, &point, 1, 0);                                    /* caught */
    vermolgas_make_gains(VERMOLGAS_GAIN_ALL, 0, gains, 1, 0);                  /* caught */
    vermolgas_make_read(VERMOLGAS_OP_DISPLAY, 0);                              /* caught */
    vermolgas_make_read_points(0, 1, 0);                                       /* caught */
    vermolgas_make_read_gains(VERMOLGAS_GAIN_RED, 0, 1, 0);                    /* caught */
    vermolgas_make_checked(bytes, 3);                                          /* caught */
    vermolgas_upload_start(&upload, &device);                                  /* caught */
    vermolgas_upload_hold(&upload, 0, point);                                  /* caught */
    vermolgas_upload_want(&upload, 0, point);                                  /* caught */
    vermolgas_upload_plan(&upload, 1);                                         /* caught */
    vermolgas_upload_walk(&upload);                                            /* caught */
    vermolgas_walk_next(&walk);                                                /* caught */
    vermolgas_blend_pack(&blend, VERMOLGAS_GAIN_ALL, 0, gains, 1);             /* caught */
    vermolgas_blend_packet(&blend, 0);                                         /* caught */
#endif

#ifdef KEPT_IN_AN_INT
    int narrow = vermolgas_read(bytes, 3);                                     /* caught */
    unsigned as_narrow = answer;                                               /* caught */
    uint64_t wide = vermolgas_read(bytes, 3);
    bytes[0] = narrow == 1 && as_narrow == 1 && wide == 1;
#endif

#ifdef TAKEN_FROM_AN_INT
    int narrow = VERMOLGAS_CAST(int, answer);
    bytes[0] = VERMOLGAS_STATUS(narrow) == 1;                                  /* caught */
    bytes[0] = VERMOLGAS_READ_LENGTH(VERMOLGAS_STATUS(answer)) == 1;           /* caught */
    bytes[0] = VERMOLGAS_FAULT_PLACE(narrow) == 1;                             /* caught */
    bytes[0] = VERMOLGAS_FAULT_PLACE(VERMOLGAS_STATUS(answer)) == 1;           /* caught */
    bytes[0] = VERMOLGAS_COMPRESS_PAIRS(narrow) == 1;                          /* caught */
    bytes[0] = VERMOLGAS_SPLIT_BYTES(narrow) == 1;                             /* caught */
    bytes[0] = VERMOLGAS_ROWS_MARKED(narrow) == 1;                             /* caught */
    bytes[0] = VERMOLGAS_ROWS_LOWEST(rows.mark) == 1;                          /* caught */
    bytes[0] = VERMOLGAS_READ_LENGTH(answer) == 1;
#endif

#ifdef TESTED_AS_A_WHOLE
    if (vermolgas_device_send(&device, bytes, 3, &reply))                      /* caught */
        bytes[0] = 1;
    if (vermolgas_make_freeze(true, 0))                                        /* caught */
        bytes[0] = 1;
    if (vermolgas_device_rows(&device))                                        /* caught */
        bytes[0] = 1;
    if (vermolgas_device_send(&device, bytes, 3, &reply).status)
        bytes[0] = 1;
#endif

#ifdef OTHER_STATUS
    bytes[0] = vermolgas_reply_read(&reply, 3, false).status == 0;             /* caught */
    bytes[0] = vermolgas_device_send(&device, bytes, 3, &reply).device_status; /* caught */
    bytes[0] = vermolgas_reply_read(&reply, 3, false).device_status == 0;
#endif

#ifdef SWAPPED
    status = vermolgas_upload_start(&device, &upload);                         /* caught */
    status = vermolgas_device_reset(&upload);                                  /* caught */
    rows = vermolgas_device_rows(&upload);                                     /* caught */
    status = vermolgas_blend_pack(&upload, VERMOLGAS_GAIN_ALL, 0, gains, 1);   /* caught */
    status = vermolgas_upload_start(&upload, &device);
#endif

#ifdef OTHER_NAMES
    bytes[0] = vermolgas_make_curtain(VERMOLGAS_DISPLAY_SPLASH, 0).status != 0; /* caught */
    bytes[0] = vermolgas_make_read(VERMOLGAS_GAIN_RED, 0).status != 0;         /* caught */
    status = vermolgas_blend_pack(&blend, VERMOLGAS_CURTAIN_RED, 0, gains, 1); /* caught */
    bytes[0] = vermolgas_make_curtain(VERMOLGAS_CURTAIN_RED, 0).status != 0;
#endif
}

/* The schedule store's functions for the desk: packing a page, testing a page, inspecting a sheet; and testing a week of opening hours and
   converting it between the editions of the lock heads.

   A sheet is a run of pages of 64 bytes. A page's number, counted from 1, is its place. The file count is the number of locks
   that the sheet is for.

   All of them take any numbers and any bytes: nothing need be tested before a call. Each pointer must lead to as many elements
   as the count after it says, and buffers that are lent to one call must not overlap: of such a call nothing is promised. They
   keep nothing between calls and allocate nothing, so that any thread may call them at any time. Link with libdesk.a. */
#ifndef DESK_H
#define DESK_H

#include <stddef.h>
#include <stdint.h>

#ifdef __cplusplus
extern "C" {
#endif

enum {
    DESK_PAGE = 64,          /* bytes of a page */
    DESK_VALUE = 32,         /* bytes of a page's value, the zeros after it included */
    DESK_FIELDS = 6,         /* numbers of a page: kind, small, file, action, link, start */
    DESK_MOST_PAGES = 65536, /* pages of the longest sheet */
    DESK_MOST_FILES = 256
};

/* The first field. */
enum { DESK_OPENING = 1, DESK_IMAGE = 2, DESK_OUTCOME = 3 };

/* Packs a page into the 64 bytes at out.

   kind     1 opening, 2 image, 3 outcome
   small    0 in an opening, 1 in a carried one, with which a move begins; the value's length (0 to 32) in an image; 1 committed or
            2 aborted in an outcome
   file     1 to files in an image, else 0
   action   the opening's own place; in an image or outcome the place, below its own, of its opening
   link     in an image the place, below its own, of the version before it, or 0; else 0
   start    1 or more in an image, else 0
   value    32 bytes, zeros from the value's length on
   place    the page's own
   files    the file count

   DESK_PACKED        the page is written
   DESK_PACK_REFUSED  value_len is not 32, out_len not 64, place not 1 to 65,536 or files not 1 to 256
   DESK_NO_SUCH_PAGE  no page has these fields
   Unless DESK_PACKED is answered, out is untouched. */
uint64_t desk_pack(uint64_t kind, uint64_t small, uint64_t file, uint64_t action, uint64_t link, uint64_t start,
                   const uint8_t *value, size_t value_len, uint64_t place, uint64_t files, uint8_t *out, size_t out_len);
enum { DESK_PACKED = 0, DESK_PACK_REFUSED = 1, DESK_NO_SUCH_PAGE = 2 };

/* Tests the page that stands at a place, alone: it is not asked whether the action that it names is there.

   DESK_FITS          the page is whole; its six numbers are at fields, in desk_pack's order; its value is at part + 24
   DESK_TEST_REFUSED  part_len is not 64, fields_len not 6, place not 1 to 65,536 or files not 1 to 256
   DESK_UNFIT         none of the others; so is a page that fitted, once one of its bytes is another, but for byte 63 at 0
   DESK_BLANK         all bytes are 0
   DESK_TORN          byte 0 is 1 to 3 and byte 63 is 0: the supply was cut while it was stored, or byte 63 decayed to 0
   Unless DESK_FITS is answered, fields are untouched. */
uint64_t desk_test(const uint8_t *part, size_t part_len, uint64_t place, uint64_t files, uint64_t *fields, size_t fields_len);
enum { DESK_FITS = 0, DESK_TEST_REFUSED = 1, DESK_UNFIT = 2, DESK_BLANK = 3, DESK_TORN = 4 };

/* Inspects a sheet: one pass, in a time that grows with its pages alone. It takes 78 KB of stack; the others less than 1 KB.

   0             the sheet is lawful: what the store can have written. A page whose byte 63 decayed to 0 is torn, and may pass
   1 to 65,536   the lowest place whose page is bad or does not go on from those below it
   DESK_REFUSED  sheet_len is not a multiple of 64 from 64 to 4,194,304, or files not 1 to 256 */
uint64_t desk_inspect(const uint8_t *sheet, size_t sheet_len, uint64_t files);
#define DESK_REFUSED UINT64_MAX

/* A week of opening hours has an opening and a closing for each day, Monday, which is day 1, to Sunday. Its length names the edition of the
   lock head that takes it:

   DESK_OLD_WEEK   edition 1: 14 bytes, each a quarter hour, 0 to 96
   DESK_NEW_WEEK   edition 2: 28 bytes, two a time, the lower one first: minutes, 0 to 1,440
   DESK_DUAL_WEEK  edition 3, dual custody: 30 bytes, as edition 2, then two more, the lower one first: the mask, with a bit for each keyholder
                   who must attend; at least two of its bits are set

   A closing is not below its opening; where they are equal the shop is closed. An answer that names a day has it in the bits above the
   lowest eight. */
enum { DESK_OLD_WEEK = 14, DESK_NEW_WEEK = 28, DESK_DUAL_WEEK = 30 };
#define DESK_WEEK_REFUSAL(answer) ((answer) & 255)
#define DESK_WEEK_DAY(answer) ((answer) >> 8)

/* Tests a week.

   1, 2, 3               it is a week of this edition
   DESK_WEEK_LENGTH      week_len is not 14, 28 or 30
   DESK_WEEK_TIMES       and the day: the lowest with a time above its limit, or that closes before it opens
   DESK_WEEK_KEYHOLDERS  edition 3: fewer than two bits of its mask are set
   The first refusal that holds is answered. */
uint64_t desk_week_test(const uint8_t *week, size_t week_len);

/* Writes a week at out in another edition, which out_len names. A quarter hour is 15 minutes; a week that is converted from edition 1 to 2 or
   from 2 to 1, and converted back, has the same bytes. No conversion leads back from edition 3.

   mask   the keyholders who must attend, for an output of edition 3; for another it is not looked at. It has 16 bits: of a wider number C hands
          on the lowest 16 alone

   DESK_CONVERTED        the week is written, and passes the test of its edition
   DESK_WEEK_LENGTH      week_len or out_len is not 14, 28 or 30, or they are equal
   DESK_WEEK_STEP_DOWN   the week is of edition 3
   DESK_WEEK_TIMES       and the day, as in the test
   DESK_WEEK_KEYHOLDERS  to edition 3: fewer than two bits of mask are set
   DESK_WEEK_MINUTES     and the day: to edition 1, the lowest with a minute that is no whole number of quarter hours
   The first refusal that holds is answered. Unless DESK_CONVERTED is, out is untouched. */
uint64_t desk_convert(const uint8_t *week, size_t week_len, uint16_t mask, uint8_t *out, size_t out_len);
enum {
    DESK_CONVERTED = 0,
    DESK_WEEK_LENGTH = 15,
    DESK_WEEK_TIMES = 16,
    DESK_WEEK_MINUTES = 17,
    DESK_WEEK_KEYHOLDERS = 29,
    DESK_WEEK_STEP_DOWN = 30
};

#ifdef __cplusplus
}
#endif
#endif

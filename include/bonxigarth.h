/* bonxigarth.h: the packets of a JPEG 2000 tile in the order of its progressions, what setup reports of it, and the bounds of a tile.
 *
 * The library of this header is proved to do what stands here; docs/TRUST.md says what that rests on. For all functions:
 *
 * - Every call ends. It allocates nothing and keeps nothing between calls, so threads may call at the same time, each with buffers of its own.
 *   (Tested and not proved: a call takes less than 48 kB of stack.)
 * - A buffer is a pointer and a length in bytes. The pointer is not null, even where the length is 0, and that many bytes from it on are
 *   valid. The buffers of a call do not overlap. Nothing outside them is read or written.
 * - Words in buffers are 32 bits, big-endian, and need no alignment.
 * - A negative answer is a refusal, and then nothing lent has changed. */
#ifndef BONXIGARTH_H
#define BONXIGARTH_H

#include <stddef.h>
#include <stdint.h>

#ifdef __cplusplus
extern "C" {
#endif

/* Why a call is refused. -1 is tested first; then the records are read in order, and the first bad one is -2 or -3; then come -4 to -8, in this order.
 * Tile bounds test -10 before -8. */
enum {
    BONXIGARTH_BAD_LENGTH = -1,    /* the sheet is empty, not a multiple of 32 bytes, or over 577 records */
    BONXIGARTH_BAD_SHAPE = -2,     /* a kind is wrong at its place, an unnamed word is not 0, records are missing or left over */
    BONXIGARTH_BAD_RANGE = -3,     /* a field is out of range */
    BONXIGARTH_BAD_GRID = -4,      /* a position order whose steps are too large (in order 4, of its own components), or of kinds 4 and 5 in orders 2 and 3 not multiples of the smallest */
    BONXIGARTH_TOO_MANY = -5,      /* the tile needs more than 65,536 marks */
    BONXIGARTH_SHORT_MARKS = -6,   /* marks has fewer bytes than the tile needs */
    BONXIGARTH_SHORT_TABLE = -7,   /* table has fewer than 16 bytes for each resolution */
    BONXIGARTH_SHORT_OUTPUT = -8,  /* output has fewer than 16 bytes for each mark needed; setup, tile bounds: fewer than 16 */
    BONXIGARTH_NO_SUCH_TILE = -10  /* the tile number is not below tw times th, modulo 2^32 */
};

/* Sizes. With a table, marks and output of the largest sizes no sheet is refused as -6, -7 or -8. */
enum {
    BONXIGARTH_RECORD_BYTES = 32,       /* of a record of a sheet: eight words */
    BONXIGARTH_MOST_RECORDS = 577,      /* in a sheet */
    BONXIGARTH_MOST_MARKS = 65536,      /* that a tile may need, a byte each: the largest marks */
    BONXIGARTH_MOST_TABLE = 8448,       /* 16 bytes for each of 33 resolutions of 16 components: the largest table */
    BONXIGARTH_PACKET_BYTES = 16,       /* of a packet in the output: four words */
    BONXIGARTH_MOST_OUTPUT = 1048576,   /* 16 bytes for each of 65,536 marks: the largest output */
    BONXIGARTH_REPORTS_BYTES = 16,      /* of what setup reports: four words */
    BONXIGARTH_BOUNDS_BYTES = 16        /* of a tile's bounds: four words */
};

/* Lists the packets of the tile that a sheet describes: all its progressions in turn, each packet once.
 *
 * sheet    records of eight words, the first of each its kind; words not named are 0:
 *            1 tx0 ty0 tx1 ty1 layers components progressions     the tile: first
 *            2 dx dy resolutions                                  a component, followed by its resolutions, lowest first
 *            3 pdx pdy                                            a resolution
 *            4 prg resno0 compno0 layno1 resno1 compno1           a progression: after the last component, as many as word 8 of the tile says
 *            6 prg resno0 compno0 layno1 resno1 compno1           the same where steps need not be multiples of the smallest; 4 and 6 may be mixed
 *            5 prg                                                or one for the whole tile
 *          It is only read.
 * table    working space, 16 bytes for each resolution: pdx, pdy and the width and height in precincts are written there, component after component
 * marks    working space, a byte for each packet that the tile can have: layers times the largest number of resolutions times components times
 *          the largest number of precincts. A byte has a bit for each of eight viewers, and the whole run is viewer 0's: a packet that is listed has
 *          the byte 1, the others of these 0
 * output   a record of four words for each packet, in order: layer, resolution, component, precinct
 *
 * What table, marks and output hold before the call does not matter. Bytes beyond what is needed stay as they are.
 *
 * Answers the number of packets, 0 to 65,536; or -1 to -8. */
int32_t bonxigarth_whole_run(const uint8_t *sheet, size_t sheet_len,
                             uint8_t *table, size_t table_len,
                             uint8_t *marks, size_t marks_len,
                             uint8_t *output, size_t output_len);

/* Sets a sheet up and lists nothing: what a whole run begins with, which needs no call of this before it.
 *
 * sheet, table and marks are those of the whole run; the marks that the tile needs are all 0 then.
 * reports  four words: the largest number of precincts of a resolution, the largest number of resolutions of a component, and the smallest
 *          steps dx * 2^(pdx + level) and dy * 2^(pdy + level), of those that fit 32 bits, or 0x7fffffff if none is smaller.
 *          Bytes beyond the first 16 stay as they are
 *
 * Answers 0; or -1 to -8. */
int32_t bonxigarth_setup(const uint8_t *sheet, size_t sheet_len,
                         uint8_t *table, size_t table_len,
                         uint8_t *marks, size_t marks_len,
                         uint8_t *reports, size_t reports_len);

/* Writes the bounds of a tile: the part of the image that it covers.
 *
 * x0 y0 x1 y1   the image area on the reference grid; its ends are not in it
 * tx0 ty0       the origin of the tile grid
 * tdx tdy       the size of a tile
 * tw th         how many tiles stand side by side, and one below the other
 * tileno        the tile's number, from 0, row by row
 * output        four words: tx0 ty0 tx1 ty1. Bytes beyond the first 16 stay as they are
 *
 * A tile's start wraps at 2^32, its end saturates there.
 *
 * Answers 0; or -10; or -8. */
int32_t bonxigarth_tile_bounds(uint32_t x0, uint32_t y0, uint32_t x1, uint32_t y1,
                               uint32_t tx0, uint32_t ty0, uint32_t tdx, uint32_t tdy,
                               uint32_t tw, uint32_t th, uint32_t tileno,
                               uint8_t *output, size_t output_len);

#ifdef __cplusplus
}
#endif

#endif

/* A host in C: lists the packets of a sheet, as the listing program does, or the tiles of an example grid.
 *
 *     host FILE       FILE holds a sheet's bytes, as tools/sheet writes them; a refused sheet is a line such as `refused -1`
 *     host --tiles    a line for each tile: its number and its bounds; then how many there are
 *
 * Status 0; 1 where a file cannot be read, memory is short or the output cannot be written, with a line on standard error; 2 for a wrong call.
 *
 * make host builds it here. With an installed library: cc host.c $(pkg-config --cflags --libs bonxigarth) */
#include <errno.h>
#include <inttypes.h>
#include <stdio.h>
#include <stdlib.h>
#include <string.h>

#include <bonxigarth.h>

/* A buffer to lend. */
struct buffer {
    uint8_t *bytes;
    size_t length;
};

static void complain(const char *what)
{
    fprintf(stderr, "host: %s: %s\n", what, strerror(errno));
}

static int allocate(struct buffer *buffer, size_t length)
{
    buffer->bytes = malloc(length);
    buffer->length = length;
    if (buffer->bytes == NULL) {
        complain("memory");
        return -1;
    }
    return 0;
}

static uint32_t word_at(const uint8_t *bytes)
{
    return (uint32_t)bytes[0] << 24 | (uint32_t)bytes[1] << 16 | (uint32_t)bytes[2] << 8 | bytes[3];
}

/* Reads a sheet; the length becomes that of what was read. One byte more than the longest sheet is read, so that a longer file is refused
 * and not cut. */
static int read_sheet(const char *path, struct buffer *sheet)
{
    FILE *file = fopen(path, "rb");

    if (file == NULL) {
        complain(path);
        return -1;
    }
    sheet->length = fread(sheet->bytes, 1, sheet->length, file);
    if (ferror(file)) {
        complain(path);
        fclose(file);
        return -1;
    }
    fclose(file);
    return 0;
}

static void print_packets(const uint8_t *output, int32_t count)
{
    for (int32_t i = 0; i < count; i++) {
        const uint8_t *packet = output + (size_t)i * BONXIGARTH_PACKET_BYTES;

        printf("%" PRIu32 " %" PRIu32 " %" PRIu32 " %" PRIu32 "\n",
               word_at(packet), word_at(packet + 4), word_at(packet + 8), word_at(packet + 12));
    }
    printf("%" PRId32 "\n", count);
}

/* Lends the largest table, marks and output, so that only the sheet itself can be refused. */
static int list_sheet(const char *path)
{
    struct buffer sheet = {NULL, 0}, table = {NULL, 0}, marks = {NULL, 0}, output = {NULL, 0};
    int failed = allocate(&sheet, (size_t)BONXIGARTH_MOST_RECORDS * BONXIGARTH_RECORD_BYTES + 1) != 0
              || allocate(&table, BONXIGARTH_MOST_TABLE) != 0
              || allocate(&marks, BONXIGARTH_MOST_MARKS) != 0
              || allocate(&output, BONXIGARTH_MOST_OUTPUT) != 0
              || read_sheet(path, &sheet) != 0;

    if (!failed) {
        int32_t answer = bonxigarth_whole_run(sheet.bytes, sheet.length, table.bytes, table.length,
                                              marks.bytes, marks.length, output.bytes, output.length);

        if (answer < 0)
            printf("refused %" PRId32 "\n", answer);
        else
            print_packets(output.bytes, answer);
    }
    free(output.bytes);
    free(marks.bytes);
    free(table.bytes);
    free(sheet.bytes);
    return failed;
}

/* An image from (10, 20) to (100, 80) on a grid from (4, 8) of tiles 32 wide and 24 high, 3 by 3: asks for one tile after the other, until there is none. */
static int list_tiles(void)
{
    uint8_t bounds[BONXIGARTH_BOUNDS_BYTES];
    uint32_t tile = 0;

    while (bonxigarth_tile_bounds(10, 20, 100, 80, 4, 8, 32, 24, 3, 3, tile, bounds, sizeof bounds) == 0) {
        printf("%" PRIu32 " %" PRIu32 " %" PRIu32 " %" PRIu32 " %" PRIu32 "\n",
               tile, word_at(bounds), word_at(bounds + 4), word_at(bounds + 8), word_at(bounds + 12));
        tile++;
    }
    printf("%" PRIu32 "\n", tile);
    return 0;
}

int main(int argc, char **argv)
{
    int failed;

    if (argc != 2) {
        fprintf(stderr, "usage: host FILE | host --tiles\n");
        return 2;
    }
    failed = strcmp(argv[1], "--tiles") == 0 ? list_tiles() : list_sheet(argv[1]);
    if (fflush(stdout) != 0 || ferror(stdout)) {
        complain("standard output");
        failed = 1;
    }
    return failed ? 1 : 0;
}

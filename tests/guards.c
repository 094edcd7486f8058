/* guards: what the functions do with lent buffers that are short, exactly long enough, and longer.
 *
 * Every buffer is lent twice: with an inaccessible page right after its last byte, then with one right before its first. Its other side is watched by
 * bytes of a pattern. So any access outside is found: by a signal, which ends this program, or by a byte that has changed.
 * Every call on a sheet is made on a small stack, with an inaccessible page below it: a call that takes more ends this program, too.
 * The last line is 'N passed, M failed'. */
#define _GNU_SOURCE
#include <signal.h>
#include <stdio.h>
#include <stdlib.h>
#include <string.h>
#include <sys/mman.h>
#include <sys/wait.h>
#include <ucontext.h>
#include <unistd.h>

#include <bonxigarth.h>

/* a multiple of every machine's page size */
#define PAGE ((size_t)65536)

/* the stack that the header allows a call */
#define STACK ((size_t)49152)

enum { WATCHED = 0x5a };

static int passed, failed;

static void check(int holds, const char *call, const char *what)
{
    if (holds) {
        passed++;
    } else {
        failed++;
        printf("guards: %s: %s: FAILED\n", call, what);
    }
}

/* A LENT BUFFER: bytes within pages that may be used, between pages that may not */

enum side { PAGE_AFTER, PAGE_BEFORE };

struct lent {
    uint8_t *bytes;
    size_t length;
    uint8_t *usable;   /* the pages around it that may be used */
    size_t usable_length;
    uint8_t *before;   /* all of usable as it was before a call */
    uint8_t *mapped;
    size_t mapped_length;
};

static void *or_stop(void *made)
{
    if (made == NULL || made == MAP_FAILED) {
        perror("guards");
        exit(2);
    }
    return made;
}

static struct lent lend(size_t length, enum side side)
{
    struct lent lent;

    lent.length = length;
    lent.usable_length = (length / PAGE + 1) * PAGE;
    lent.mapped_length = lent.usable_length + 3 * PAGE;
    lent.mapped = or_stop(mmap(NULL, lent.mapped_length, PROT_NONE, MAP_PRIVATE | MAP_ANONYMOUS, -1, 0));
    lent.usable = lent.mapped + PAGE + (PAGE - (uintptr_t)lent.mapped % PAGE) % PAGE;
    if (mprotect(lent.usable, lent.usable_length, PROT_READ | PROT_WRITE) != 0)
        or_stop(NULL);
    lent.before = or_stop(malloc(lent.usable_length));
    lent.bytes = side == PAGE_BEFORE ? lent.usable : lent.usable + lent.usable_length - length;
    memset(lent.usable, WATCHED, lent.usable_length);
    return lent;
}

/* Notes what is there, to be compared after a call. */
static void note(struct lent *lent)
{
    memcpy(lent->before, lent->usable, lent->usable_length);
}

/* Whether nothing has changed but, at most, the first bytes of the buffer. */
static int only_changed(const struct lent *lent, size_t first)
{
    size_t start = (size_t)(lent->bytes - lent->usable);

    return memcmp(lent->usable, lent->before, start) == 0
        && memcmp(lent->usable + start + first, lent->before + start + first, lent->usable_length - start - first) == 0;
}

static int starts_with(const struct lent *lent, const uint8_t *bytes, size_t length)
{
    return memcmp(lent->bytes, bytes, length) == 0;
}

static void give_back(struct lent *lent)
{
    free(lent->before);
    munmap(lent->mapped, lent->mapped_length);
}

static void stopped(int number)
{
    _exit(number);
}

/* A page around a buffer does stop an access: a child that reads there gets a signal, and ends with its number. */
static void check_pages(void)
{
    struct lent ended = lend(100, PAGE_AFTER), started = lend(100, PAGE_BEFORE);
    const volatile uint8_t *outside[2] = {ended.bytes + 100, started.bytes - 1};

    for (int i = 0; i < 2; i++) {
        int status = 0;
        pid_t child = fork();

        if (child == 0) {
            signal(SIGSEGV, stopped);
            _exit(*outside[i] & 0);
        }
        check(child > 0 && waitpid(child, &status, 0) == child && WIFEXITED(status) && WEXITSTATUS(status) == SIGSEGV,
              "a read", i == 0 ? "right after a buffer" : "right before a buffer");
    }
    give_back(&ended);
    give_back(&started);
}

/* A SHEET, and what a call on it is to leave */

struct sheet {
    uint8_t bytes[(BONXIGARTH_MOST_RECORDS + 1) * BONXIGARTH_RECORD_BYTES];
    size_t length;
};

typedef int32_t on_sheet(const uint8_t *, size_t, uint8_t *, size_t, uint8_t *, size_t, uint8_t *, size_t);

struct result {
    on_sheet *call;
    int32_t answer;
    size_t table_length, marks_length, output_length;   /* what is needed, and written */
    const uint8_t *table, *marks, *output;              /* what is then there, or null where it is not compared */
};

static void put_word(uint8_t *bytes, uint32_t word)
{
    for (int i = 0; i < 4; i++)
        bytes[i] = (uint8_t)(word >> (24 - 8 * i));
}

/* Adds a record of these words; the rest are 0. */
static void add(struct sheet *sheet, const uint32_t words[8])
{
    for (int i = 0; i < 8; i++)
        put_word(sheet->bytes + sheet->length + 4 * i, words[i]);
    sheet->length += BONXIGARTH_RECORD_BYTES;
}

#define ADD(sheet, ...) add((sheet), (const uint32_t[8]){__VA_ARGS__})

/* A CALL ON A SMALL STACK */

static struct {
    on_sheet *function;
    const struct lent *records, *table, *marks, *output;
    int32_t answer;
} called;

static void make_call(void)
{
    called.answer = called.function(called.records->bytes, called.records->length, called.table->bytes, called.table->length,
                                    called.marks->bytes, called.marks->length, called.output->bytes, called.output->length);
}

static int32_t call_on_small_stack(on_sheet *function, const struct lent *records, const struct lent *table,
                                   const struct lent *marks, const struct lent *output)
{
    struct lent stack = lend(STACK, PAGE_BEFORE);
    ucontext_t here, there;

    called.function = function;
    called.records = records;
    called.table = table;
    called.marks = marks;
    called.output = output;
    if (getcontext(&there) != 0)
        or_stop(NULL);
    there.uc_stack.ss_sp = stack.bytes;
    there.uc_stack.ss_size = stack.length;
    there.uc_link = &here;
    makecontext(&there, make_call, 0);
    if (swapcontext(&here, &there) != 0)
        or_stop(NULL);
    give_back(&stack);
    return called.answer;
}

/* How many bytes longer than needed a call lends, each; negative for shorter. */
struct lengths {
    const char *name;
    int sheet, table, marks, output;
    int32_t answer;   /* 0: that of the sheet */
};

/* One call, with what it may change compared. */
static void run(const struct sheet *sheet, const struct result *right, const struct lengths *more, enum side side)
{
    struct lent records = lend(sheet->length + (size_t)more->sheet, side);
    struct lent table = lend(right->table_length + (size_t)more->table, side);
    struct lent marks = lend(right->marks_length + (size_t)more->marks, side);
    struct lent output = lend(right->output_length + (size_t)more->output, side);
    int32_t due = more->answer != 0 ? more->answer : right->answer;
    int refused = due < 0;
    int32_t answer;

    memset(records.bytes, 0, records.length);
    memcpy(records.bytes, sheet->bytes, records.length < sheet->length ? records.length : sheet->length);
    note(&records);
    note(&table);
    note(&marks);
    note(&output);
    answer = call_on_small_stack(right->call, &records, &table, &marks, &output);
    if (answer != due)
        printf("guards: %s: answered %d, not %d\n", more->name, (int)answer, (int)due);
    check(answer == due, more->name, "the answer");
    check(only_changed(&records, 0), more->name, "the sheet is only read");
    check(only_changed(&table, refused ? 0 : right->table_length), more->name, "the table beyond what is needed");
    check(only_changed(&marks, refused ? 0 : right->marks_length), more->name, "the marks beyond what is needed");
    check(only_changed(&output, refused ? 0 : right->output_length), more->name, "the output beyond what is written");
    if (!refused && answer == due) {
        check(right->table == NULL || starts_with(&table, right->table, right->table_length), more->name, "the table");
        check(right->marks == NULL || starts_with(&marks, right->marks, right->marks_length), more->name, "the marks");
        check(right->output == NULL || starts_with(&output, right->output, right->output_length), more->name, "the output");
    }
    give_back(&records);
    give_back(&table);
    give_back(&marks);
    give_back(&output);
}

/* All the lengths, with the page on either side. */
static void run_all(const struct sheet *sheet, const struct result *right, const struct lengths *cases, size_t count)
{
    for (size_t i = 0; i < count; i++) {
        run(sheet, right, &cases[i], PAGE_AFTER);
        run(sheet, right, &cases[i], PAGE_BEFORE);
    }
}

#define COUNT(array) (sizeof(array) / sizeof((array)[0]))

/* Document 01's sheet A. */
static void check_sheet_a(void)
{
    static const uint32_t table_words[8] = {4, 4, 2, 1, 5, 5, 2, 1};
    static const uint32_t packets[8][4] = {{0, 0, 0, 0}, {1, 0, 0, 0}, {0, 0, 0, 1}, {1, 0, 0, 1},
                                           {0, 1, 0, 0}, {1, 1, 0, 0}, {0, 1, 0, 1}, {1, 1, 0, 1}};
    static const struct lengths cases[] = {
        {"A, exactly", 0, 0, 0, 0, 0},
        {"A, sheet a byte short", -1, 0, 0, 0, BONXIGARTH_BAD_LENGTH},
        {"A, sheet a byte longer", 1, 0, 0, 0, BONXIGARTH_BAD_LENGTH},
        {"A, sheet empty", -160, 0, 0, 0, BONXIGARTH_BAD_LENGTH},
        {"A, sheet a record short", -32, 0, 0, 0, BONXIGARTH_BAD_SHAPE},
        {"A, sheet a record longer", 32, 0, 0, 0, BONXIGARTH_BAD_SHAPE},
        {"A, marks a byte short", 0, 0, -1, 0, BONXIGARTH_SHORT_MARKS},
        {"A, table a byte short", 0, -1, 0, 0, BONXIGARTH_SHORT_TABLE},
        {"A, output a byte short", 0, 0, 0, -1, BONXIGARTH_SHORT_OUTPUT},
        {"A, no marks", 0, 0, -8, 0, BONXIGARTH_SHORT_MARKS},
        {"A, no table", 0, -32, 0, 0, BONXIGARTH_SHORT_TABLE},
        {"A, no output", 0, 0, 0, -128, BONXIGARTH_SHORT_OUTPUT},
        {"A, all short", 0, -1, -1, -1, BONXIGARTH_SHORT_MARKS},
        {"A, table and output short", 0, -1, 0, -1, BONXIGARTH_SHORT_TABLE},
        {"A, sheet and marks short", -1, 0, -1, 0, BONXIGARTH_BAD_LENGTH},
        {"A, marks a byte longer", 0, 0, 1, 0, 0},
        {"A, table a byte longer", 0, 1, 0, 0, 0},
        {"A, output a byte longer", 0, 0, 0, 1, 0},
        {"A, all much longer", 0, 1000, 1000, 1000, 0},
    };
    struct sheet sheet = {{0}, 0};
    uint8_t table[32], marks[8], output[128];
    const struct result right = {bonxigarth_whole_run, 8, sizeof table, sizeof marks, sizeof output, table, marks, output};

    ADD(&sheet, 1, 0, 0, 64, 32, 2, 1, 1);
    ADD(&sheet, 2, 1, 1, 2);
    ADD(&sheet, 3, 4, 4);
    ADD(&sheet, 3, 5, 5);
    ADD(&sheet, 5, 2);
    for (int i = 0; i < 8; i++) {
        put_word(table + 4 * i, table_words[i]);
        for (int j = 0; j < 4; j++)
            put_word(output + 16 * i + 4 * j, packets[i][j]);
    }
    memset(marks, 1, sizeof marks);
    run_all(&sheet, &right, cases, COUNT(cases));
}

/* A tile without packets needs a table, and neither marks nor output (01's P-f). */
static void check_empty_tile(void)
{
    static const struct lengths cases[] = {
        {"an empty tile, exactly", 0, 0, 0, 0, 0},
        {"an empty tile, table a byte short", 0, -1, 0, 0, BONXIGARTH_SHORT_TABLE},
        {"an empty tile, all longer", 0, 5, 5, 5, 0},
    };
    static const uint8_t table[16] = {0, 0, 0, 4, 0, 0, 0, 4, 0, 0, 0, 0, 0, 0, 0, 1};
    static const struct result right = {bonxigarth_whole_run, 0, sizeof table, 0, 0, table, NULL, NULL};
    struct sheet sheet = {{0}, 0};

    ADD(&sheet, 1, 7, 0, 7, 16, 1, 1, 1);
    ADD(&sheet, 2, 1, 1, 1);
    ADD(&sheet, 3, 4, 4);
    ADD(&sheet, 5, 2);
    run_all(&sheet, &right, cases, COUNT(cases));
}

/* The most packets: as many as there may be marks, one for each layer of each component; and one component more. */
static void check_most_packets(void)
{
    static const struct lengths cases[] = {
        {"65,536 packets, exactly", 0, 0, 0, 0, 0},
        {"65,536 packets, marks a byte short", 0, 0, -1, 0, BONXIGARTH_SHORT_MARKS},
        {"65,536 packets, output a byte short", 0, 0, 0, -1, BONXIGARTH_SHORT_OUTPUT},
        {"65,536 packets, all longer", 0, 1, 1, 1, 0},
    };
    static const struct lengths too_many = {"more than 65,536 packets", 0, 0, 0, 0, BONXIGARTH_TOO_MANY};
    static uint8_t marks[BONXIGARTH_MOST_MARKS], output[BONXIGARTH_MOST_OUTPUT];
    struct result right = {bonxigarth_whole_run, BONXIGARTH_MOST_MARKS, 2 * 16, sizeof marks, sizeof output, NULL, marks, output};

    memset(marks, 1, sizeof marks);
    for (uint32_t i = 0; i < BONXIGARTH_MOST_MARKS; i++) {
        put_word(output + (size_t)16 * i, i / 2);
        put_word(output + (size_t)16 * i + 8, i % 2);
    }
    for (uint32_t components = 2; components <= 3; components++) {
        struct sheet sheet = {{0}, 0};

        ADD(&sheet, 1, 0, 0, 1, 1, 32768, components, 1);
        for (uint32_t i = 0; i < components; i++) {
            ADD(&sheet, 2, 1, 1, 1);
            ADD(&sheet, 3);
        }
        ADD(&sheet, 5);
        right.table_length = components * 16;
        if (components == 2)
            run_all(&sheet, &right, cases, COUNT(cases));
        else
            run_all(&sheet, &right, &too_many, 1);
    }
}

/* The longest sheet, with the largest table: 33 resolutions of 16 components, and 32 progressions, of one resolution each but the last, of two. */
static void check_longest_sheet(void)
{
    static const struct lengths cases[] = {
        {"577 records, exactly", 0, 0, 0, 0, 0},
        {"577 records, table a byte short", 0, -1, 0, 0, BONXIGARTH_SHORT_TABLE},
        {"577 records, a byte more", 1, 0, 0, 0, BONXIGARTH_BAD_LENGTH},
        {"578 records", 32, 0, 0, 0, BONXIGARTH_BAD_LENGTH},
        {"577 records, all longer", 0, 1, 1, 1, 0},
    };
    static uint8_t table[BONXIGARTH_MOST_TABLE], marks[528], output[528 * 16];
    static const struct result right = {bonxigarth_whole_run, 528, sizeof table, sizeof marks, sizeof output, table, marks, output};
    static struct sheet sheet;

    ADD(&sheet, 1, 0, 0, 1, 1, 1, 16, 32);
    for (uint32_t i = 0; i < 16; i++) {
        ADD(&sheet, 2, 1, 1, 33);
        for (uint32_t j = 0; j < 33; j++)
            ADD(&sheet, 3);
    }
    for (uint32_t i = 0; i < 32; i++)
        ADD(&sheet, 4, 0, i, 0, 1, i == 31 ? 33 : i + 1, 16);
    memset(marks, 1, sizeof marks);
    for (uint32_t i = 0; i < 528; i++) {
        put_word(table + 16 * i + 8, 1);
        put_word(table + 16 * i + 12, 1);
        put_word(output + 16 * i + 4, i / 16);
        put_word(output + 16 * i + 8, i % 16);
    }
    run_all(&sheet, &right, cases, COUNT(cases));
}

/* Setup: the marks are cleared and the reports written; reports that are too short come after all else. */
static void check_setup(void)
{
    static const struct lengths cases[] = {
        {"setup, exactly", 0, 0, 0, 0, 0},
        {"setup, all longer", 0, 8, 1, 4, 0},
        {"setup, sheet a byte short", -1, 0, 0, 0, BONXIGARTH_BAD_LENGTH},
        {"setup, sheet a record short", -32, 0, 0, 0, BONXIGARTH_BAD_SHAPE},
        {"setup, marks a byte short", 0, 0, -1, 0, BONXIGARTH_SHORT_MARKS},
        {"setup, table a byte short", 0, -1, 0, 0, BONXIGARTH_SHORT_TABLE},
        {"setup, table and marks short", 0, -1, -1, 0, BONXIGARTH_SHORT_MARKS},
        {"setup, reports a byte short", 0, 0, 0, -1, BONXIGARTH_SHORT_OUTPUT},
        {"setup, no reports", 0, 0, 0, -16, BONXIGARTH_SHORT_OUTPUT},
        {"setup, table and reports short", 0, -1, 0, -1, BONXIGARTH_SHORT_TABLE},
        {"setup, all short", -1, -1, -1, -1, BONXIGARTH_BAD_LENGTH},
    };
    static const uint32_t table_words[8] = {4, 3, 2, 2, 5, 5, 2, 1}, report_words[4] = {4, 2, 32, 16};
    static const uint8_t marks[16];
    uint8_t table[32], reports[16];
    const struct result right = {bonxigarth_setup, 0, sizeof table, sizeof marks, sizeof reports, table, marks, reports};
    struct sheet sheet = {{0}, 0};

    ADD(&sheet, 1, 0, 0, 64, 32, 2, 1, 1);
    ADD(&sheet, 2, 1, 1, 2);
    ADD(&sheet, 3, 4, 3);
    ADD(&sheet, 3, 5, 5);
    ADD(&sheet, 5, 2);
    for (int i = 0; i < 8; i++)
        put_word(table + 4 * i, table_words[i]);
    for (int i = 0; i < 4; i++)
        put_word(reports + 4 * i, report_words[i]);
    run_all(&sheet, &right, cases, COUNT(cases));
}

/* TILE BOUNDS: tile 4 of a grid of 3 by 3, or a tile that there is none of */
static void check_bounds(void)
{
    static const struct {
        const char *name;
        uint32_t tile;
        size_t length;
        int32_t answer;
    } cases[] = {
        {"bounds, 16 bytes", 4, 16, 0},
        {"bounds, 15 bytes", 4, 15, BONXIGARTH_SHORT_OUTPUT},
        {"bounds, 17 bytes", 4, 17, 0},
        {"bounds, no bytes", 4, 0, BONXIGARTH_SHORT_OUTPUT},
        {"bounds, the last tile", 8, 16, 0},
        {"bounds, one tile too far", 9, 16, BONXIGARTH_NO_SUCH_TILE},
        {"bounds, one tile too far and 15 bytes", 9, 15, BONXIGARTH_NO_SUCH_TILE},
        {"bounds, one tile too far and no bytes", 9, 0, BONXIGARTH_NO_SUCH_TILE},
    };
    static const uint8_t middle[16] = {0, 0, 0, 36, 0, 0, 0, 32, 0, 0, 0, 68, 0, 0, 0, 56};
    static const uint8_t last[16] = {0, 0, 0, 68, 0, 0, 0, 56, 0, 0, 0, 100, 0, 0, 0, 80};

    for (size_t i = 0; i < 2 * COUNT(cases); i++) {
        size_t k = i / 2;
        struct lent output = lend(cases[k].length, i % 2 == 0 ? PAGE_AFTER : PAGE_BEFORE);
        int32_t answer;

        note(&output);
        answer = bonxigarth_tile_bounds(10, 20, 100, 80, 4, 8, 32, 24, 3, 3, cases[k].tile, output.bytes, output.length);
        check(answer == cases[k].answer, cases[k].name, "the answer");
        check(only_changed(&output, cases[k].answer == 0 ? 16 : 0), cases[k].name, "the output beyond the bounds");
        if (answer == 0)
            check(starts_with(&output, cases[k].tile == 4 ? middle : last, 16), cases[k].name, "the bounds");
        give_back(&output);
    }
}

int main(void)
{
    check_pages();
    check_sheet_a();
    check_empty_tile();
    check_most_packets();
    check_longest_sheet();
    check_setup();
    check_bounds();
    printf("%d passed, %d failed\n", passed, failed);
    return failed != 0;
}

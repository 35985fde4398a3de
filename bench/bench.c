/* Measures one call on one set: by libmctc.a, or parsing by inih or by GLib's GKeyFile.
 *
 *     bench check SET          prints the sixteen numbers of mctc_judge's answer, then a sum over the places; then those of
 *                              mctc_join's on the drift file, taken twice, and a sum over the output; then of each file
 *                              those of mctc_write's and a sum over the output. Fails where mctc_quote and mctc_commit do
 *                              not give the same
 *     bench parsers SET        prints for each file what ini_parse_string returns, 0 or the first line that it finds
 *                              wrong, then what g_key_file_load_from_data returns, 1 or 0 for a wrong file
 *     bench time WHAT SET      prints the nanoseconds of one call, the least of ROUNDS averages
 *     bench count WHAT SET     makes one call as warm-up, then one in the function `measured`, for callgrind
 *
 * SET is a folder with the files stem, ac2, acc, drift, suspension, gas, identification, opacity. WHAT:
 *
 *     judge          mctc_judge on the whole set
 *     inih           ini_parse_string on each file that is given, but the identification answer
 *     gkeyfile       GKeyFile made, loaded and freed for each of these
 *
 * and with -gas or -opacity behind it that file alone: mctc_read in place of judging. With -join the drift file twice:
 * mctc_join in place of judging. Of a file that was read, by the name that it has in SET:
 *
 *     write-FILE     mctc_write
 *     quote-FILE     mctc_quote
 *     commit-FILE    mctc_commit with the length that was quoted
 *     gkeyfile-write-FILE
 *                    the text made of a GKeyFile that was loaded, and freed
 */
#include <glib.h>
#include <ini.h>
#include <stdint.h>
#include <stdio.h>
#include <stdlib.h>
#include <string.h>
#include <time.h>

#include "mctc.h"

/* Longer than any file of a set; one byte is left for the zero that ini_parse_string needs. */
#define ROOM 20000

/* Longer than any joined file. */
#define JOINED_ROOM 2000

/* Longer than any written file. */
#define WRITTEN_ROOM 4000

#define ROUNDS 20
#define ROUND_NANOSECONDS 10000000.0

struct text {
    char bytes[ROOM];
    size_t length;
};

/* The number of each is that of its slice. */
enum { STEM, AC2, ACC, DRIFT, SUSPENSION, GAS, IDENTIFICATION, OPACITY, TEXTS };

static const char *const names[TEXTS] = {"stem", "ac2",            "acc",    "drift", "suspension",
                                         "gas",  "identification", "opacity"};

static struct text texts[TEXTS];
static uint32_t places[MCTC_PLACES_SIZE];
static uint32_t answer[MCTC_ANSWER_SIZE];
static uint8_t output[WRITTEN_ROOM];

/* The file that is written, and what reading and quoting it gave. */
static int written;
static uint32_t axles;
static uint32_t quoted;
static GKeyFile *loaded;

/* How many entries inih has handed over. */
static size_t found;

static void fail(const char *what, const char *which)
{
    fprintf(stderr, "bench: %s: %s\n", what, which);
    exit(1);
}

static void load(const char *folder)
{
    for (int i = 0; i < TEXTS; i++) {
        char path[4096];
        snprintf(path, sizeof path, "%s/%s", folder, names[i]);
        FILE *file = fopen(path, "rb");
        if (file == NULL)
            fail("cannot be opened", path);
        texts[i].length = fread(texts[i].bytes, 1, ROOM - 1, file);
        if (!feof(file))
            fail("too long", path);
        fclose(file);
        texts[i].bytes[texts[i].length] = 0;
    }
}

static const uint8_t *bytes(int i)
{
    return (const uint8_t *)texts[i].bytes;
}

static void judge(void)
{
    mctc_judge(bytes(STEM), texts[STEM].length,
               bytes(AC2), texts[AC2].length,
               bytes(ACC), texts[ACC].length,
               bytes(DRIFT), texts[DRIFT].length,
               bytes(SUSPENSION), texts[SUSPENSION].length,
               bytes(GAS), texts[GAS].length,
               bytes(IDENTIFICATION), texts[IDENTIFICATION].length,
               bytes(OPACITY), texts[OPACITY].length,
               places, MCTC_PLACES_SIZE, answer, MCTC_ANSWER_SIZE);
}

/* Whether a text is a file of sections and entries. */
static int is_file(int i)
{
    return i != STEM && i != IDENTIFICATION;
}

static void read_text(int i)
{
    mctc_read(i, bytes(i), texts[i].length, places, MCTC_PLACES_SIZE, answer, MCTC_ANSWER_SIZE);
}

static void read_gas(void)
{
    read_text(GAS);
}

static void read_opacity(void)
{
    read_text(OPACITY);
}

static void join(void)
{
    mctc_join(bytes(DRIFT), texts[DRIFT].length,
              bytes(DRIFT), texts[DRIFT].length,
              output, JOINED_ROOM, answer, MCTC_ANSWER_SIZE);
}

static void write_file(void)
{
    mctc_write(bytes(written), texts[written].length, places, MCTC_PLACES_SIZE, written, axles,
               output, WRITTEN_ROOM, answer, MCTC_ANSWER_SIZE);
}

static void quote_file(void)
{
    mctc_quote(bytes(written), texts[written].length, places, MCTC_PLACES_SIZE, written, axles,
               answer, MCTC_ANSWER_SIZE);
}

static void commit_file(void)
{
    mctc_commit(bytes(written), texts[written].length, places, MCTC_PLACES_SIZE, written, axles, quoted,
                output, WRITTEN_ROOM, answer, MCTC_ANSWER_SIZE);
}

/* Reads the file that is to be written, and quotes it. */
static void prepare_file(int i)
{
    written = i;
    read_text(i);
    axles = answer[3];
    quote_file();
    quoted = answer[3];
}

/* The least that inih lets a caller do with an entry. */
static int count_entry(void *user, const char *section, const char *name, const char *value)
{
    (void)user, (void)section, (void)name, (void)value;
    found++;
    return 1;
}

static int inih_text(int i)
{
    return ini_parse_string(texts[i].bytes, count_entry, NULL);
}

static void inih_gas(void)
{
    inih_text(GAS);
}

static void inih_opacity(void)
{
    inih_text(OPACITY);
}

static void inih_join(void)
{
    inih_text(DRIFT);
    inih_text(DRIFT);
}

/* A file that is not given is left out, here and below. */
static void inih(void)
{
    for (int i = 0; i < TEXTS; i++)
        if (is_file(i) && texts[i].length > 0)
            inih_text(i);
}

static gboolean gkeyfile_text(int i)
{
    GKeyFile *file = g_key_file_new();
    gboolean loaded = g_key_file_load_from_data(file, texts[i].bytes, texts[i].length, G_KEY_FILE_NONE, NULL);
    g_key_file_free(file);
    return loaded;
}

static void gkeyfile_gas(void)
{
    gkeyfile_text(GAS);
}

static void gkeyfile_opacity(void)
{
    gkeyfile_text(OPACITY);
}

static void gkeyfile_join(void)
{
    gkeyfile_text(DRIFT);
    gkeyfile_text(DRIFT);
}

static void load_gkeyfile(void)
{
    loaded = g_key_file_new();
    if (!g_key_file_load_from_data(loaded, texts[written].bytes, texts[written].length, G_KEY_FILE_NONE, NULL))
        fail("GKeyFile does not load", names[written]);
}

static void gkeyfile_write(void)
{
    g_free(g_key_file_to_data(loaded, NULL, NULL));
}

static void gkeyfile(void)
{
    for (int i = 0; i < TEXTS; i++)
        if (is_file(i) && texts[i].length > 0)
            gkeyfile_text(i);
}

typedef void call(void);

/* The file whose name stands behind what is done with it; 0 for none. */
static int file_behind(const char *what, const char *done)
{
    size_t length = strlen(done);
    if (strncmp(what, done, length) == 0)
        for (int i = 0; i < TEXTS; i++)
            if (is_file(i) && strcmp(what + length, names[i]) == 0)
                return i;
    return 0;
}

/* Of a call on a file that was read: makes ready what it is lent. */
static call *writing_call_of(const char *what)
{
    static const struct {
        const char *done;
        call *call;
    } calls[] = {{"write-", write_file},
                 {"quote-", quote_file},
                 {"commit-", commit_file},
                 {"gkeyfile-write-", gkeyfile_write}};
    for (size_t i = 0; i < sizeof calls / sizeof *calls; i++) {
        int file = file_behind(what, calls[i].done);
        if (file > 0) {
            prepare_file(file);
            load_gkeyfile();
            return calls[i].call;
        }
    }
    return NULL;
}

static call *call_of(const char *what)
{
    static const struct {
        const char *what;
        call *call;
    } calls[] = {{"judge", judge},
                 {"read-gas", read_gas},
                 {"read-opacity", read_opacity},
                 {"join", join},
                 {"inih", inih},
                 {"inih-gas", inih_gas},
                 {"inih-opacity", inih_opacity},
                 {"inih-join", inih_join},
                 {"gkeyfile", gkeyfile},
                 {"gkeyfile-gas", gkeyfile_gas},
                 {"gkeyfile-opacity", gkeyfile_opacity},
                 {"gkeyfile-join", gkeyfile_join}};
    for (size_t i = 0; i < sizeof calls / sizeof *calls; i++)
        if (strcmp(what, calls[i].what) == 0)
            return calls[i].call;
    call *call = writing_call_of(what);
    if (call == NULL)
        fail("nothing to measure", what);
    return call;
}

/* callgrind counts from the entry of this function to its return. */
__attribute__((noinline, noclone)) void measured(call *call)
{
    call();
    __asm__ volatile("" ::: "memory");
}

static double nanoseconds(void)
{
    struct timespec now;
    clock_gettime(CLOCK_MONOTONIC, &now);
    return now.tv_sec * 1e9 + now.tv_nsec;
}

static double average(call *call, long repetitions)
{
    double start = nanoseconds();
    for (long i = 0; i < repetitions; i++)
        measured(call);
    return (nanoseconds() - start) / repetitions;
}

static void print_time(call *call)
{
    long repetitions = 1;
    while (average(call, repetitions) * repetitions < ROUND_NANOSECONDS)
        repetitions *= 2;
    double least = average(call, repetitions);
    for (int round = 1; round < ROUNDS; round++) {
        double next = average(call, repetitions);
        if (next < least)
            least = next;
    }
    printf("%.0f\n", least);
}

static void print_answer(void)
{
    for (int i = 0; i < MCTC_ANSWER_SIZE; i++)
        printf("%u ", answer[i]);
}

static uint32_t output_sum(size_t length)
{
    uint32_t sum = 0;
    for (size_t i = 0; i < length; i++)
        sum = sum * 31 + output[i];
    return sum;
}

/* Fails where a call on a file answers otherwise than writing it did. */
static void check_answer(call *call, const char *what, const uint32_t *right, uint32_t sum)
{
    call();
    if (memcmp(answer, right, sizeof answer) != 0 || output_sum(WRITTEN_ROOM) != sum)
        fail(what, names[written]);
}

static void print_written(int i)
{
    uint32_t right[MCTC_ANSWER_SIZE];
    prepare_file(i);
    memset(output, 0, sizeof output);
    write_file();
    print_answer();
    uint32_t sum = output_sum(WRITTEN_ROOM);
    printf("%u%c", sum, i < OPACITY ? ' ' : '\n');
    memcpy(right, answer, sizeof right);
    check_answer(quote_file, "the quote differs", right, sum);
    memset(output, 0, sizeof output);
    check_answer(commit_file, "the commit differs", right, sum);
}

static void print_answers(void)
{
    judge();
    print_answer();
    uint32_t sum = 0;
    for (int i = 0; i < MCTC_PLACES_SIZE; i++)
        sum = sum * 31 + places[i];
    printf("%u ", sum);
    join();
    print_answer();
    printf("%u ", output_sum(JOINED_ROOM));
    for (int i = 0; i < TEXTS; i++)
        if (is_file(i))
            print_written(i);
}

int main(int count, char **words)
{
    if (count == 3 && strcmp(words[1], "check") == 0) {
        load(words[2]);
        print_answers();
    } else if (count == 3 && strcmp(words[1], "parsers") == 0) {
        load(words[2]);
        for (int i = 0; i < TEXTS; i++)
            if (is_file(i))
                printf("%d ", inih_text(i));
        for (int i = 0; i < TEXTS; i++)
            if (is_file(i))
                printf("%d%c", gkeyfile_text(i), i < OPACITY ? ' ' : '\n');
    } else if (count == 4 && strcmp(words[1], "time") == 0) {
        load(words[3]);
        print_time(call_of(words[2]));
    } else if (count == 4 && strcmp(words[1], "count") == 0) {
        load(words[3]);
        call *call = call_of(words[2]);
        call();
        measured(call);
    } else {
        fail("usage", "bench check SET | parsers SET | time WHAT SET | count WHAT SET");
    }
    return 0;
}

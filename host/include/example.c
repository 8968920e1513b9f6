/* A worked example: lists an image, moves one of its files to the largest free place, and writes the result to a new file.
 *
 *     cc -std=c99 -I include example.c -L FOLDER_OF_LIBCOUNTER -lcounter -o example
 *     ./example disc.iso /a moved.iso
 */
#include "counter.h"

#include <stdio.h>
#include <stdlib.h>
#include <string.h>

/* Working memory and lists that are enough for every image, lent to one call after another. */
static uint32_t words[COUNTER_MOST_WORDS];
static uint8_t bytes[COUNTER_MOST_TABLE];
static uint32_t list[COUNTER_ENTRY_WORDS * COUNTER_MOST_ENTRIES];

/* Team 0 may take anything, and nothing is kept for any. */
static const uint32_t limits[COUNTER_TEAMS] = {UINT32_MAX};
static const uint32_t shares[COUNTER_TEAMS] = {0};

/* A refusal leaves the image as it was; here it ends the program. */
static void want(const char *what, uint32_t number)
{
    if (number != 0) {
        fprintf(stderr, "%s: refused %u: %s\n", what, (unsigned)number, counter_cause(number));
        exit(1);
    }
}

static uint8_t *load(const char *name, size_t *len)
{
    FILE *file = fopen(name, "rb");
    uint8_t *image = NULL;
    long end = -1;
    if (file != NULL && fseek(file, 0, SEEK_END) == 0)
        end = ftell(file);
    if (end > 0 && fseek(file, 0, SEEK_SET) == 0)
        image = malloc((size_t)end);
    if (image == NULL || fread(image, 1, (size_t)end, file) != (size_t)end) {
        perror(name);
        exit(1);
    }
    fclose(file);
    *len = (size_t)end;
    return image;
}

static void list_entries(const uint8_t *image, size_t len)
{
    uint32_t opened[COUNTER_OPEN_SLOTS];
    uint32_t i;
    want("entries", counter_entries(image, len, words, COUNTER_MOST_WORDS, list, sizeof list / sizeof list[0], opened));
    printf("%u bytes, %u of them used, %u entries\n", (unsigned)opened[2], (unsigned)opened[4], (unsigned)opened[3]);
    for (i = 0; i < opened[3]; i++) {
        const uint32_t *entry = list + COUNTER_ENTRY_WORDS * i;
        const char *name = (const char *)image + entry[4];
        if (entry[0] == 0)
            printf("file %u \"%.*s\" in %u: %u bytes at %u\n", (unsigned)i, (int)entry[5], name, (unsigned)entry[1], (unsigned)entry[3],
                (unsigned)entry[2]);
        else
            printf("directory %u \"%.*s\" in %u\n", (unsigned)i, (int)entry[5], name, (unsigned)entry[1]);
    }
}

static void list_free(const uint8_t *image, size_t len)
{
    uint32_t count[1];
    uint32_t i;
    want("free regions",
        counter_free_regions(image, len, words, COUNTER_MOST_WORDS, list, COUNTER_REGION_WORDS * COUNTER_MOST_REGIONS, count));
    for (i = 0; i < count[0]; i++)
        printf("free: %u bytes at %u\n", (unsigned)list[2 * i + 1], (unsigned)list[2 * i]);
}

static void move_away(uint8_t *image, size_t len, const char *path)
{
    uint32_t entry[COUNTER_ENTRY_SLOTS];
    uint32_t place[COUNTER_ALLOCATE_SLOTS];
    uint32_t record[COUNTER_RECORD_SLOTS];
    const uint32_t *team = record + 2; /* team 0's limit, share, bytes taken and edits */
    want(path, counter_lookup(image, len, words, COUNTER_MOST_WORDS, 0, (const uint8_t *)path, strlen(path), entry));
    if (entry[1] != 0) {
        fprintf(stderr, "%s: a directory\n", path);
        exit(1);
    }
    want("a place", counter_allocate(image, len, words, COUNTER_MOST_WORDS, entry[3], 4, place));
    want("record", counter_make_record(image, len, words, COUNTER_MOST_WORDS, limits, shares, record));
    want("move", counter_move_file(image, len, words, COUNTER_MOST_WORDS, bytes, COUNTER_MOST_TABLE, record, 0, entry[0], place[0]));
    printf("moved %s from %u to %u\n", path, (unsigned)entry[2], (unsigned)place[0]);
    printf("%u bytes used, %u in the largest free region, %u edit\n", (unsigned)record[0], (unsigned)record[1], (unsigned)team[3]);
}

/* The file's bytes, a part at a time, through a window. */
static void sum_up(const uint8_t *image, size_t len, const char *path)
{
    uint32_t entry[COUNTER_ENTRY_SLOTS];
    uint64_t window[COUNTER_WINDOW_SLOTS];
    uint64_t count[1];
    uint8_t part[100];
    unsigned long sum = 0;
    uint64_t i;
    want(path, counter_lookup(image, len, words, COUNTER_MOST_WORDS, 0, (const uint8_t *)path, strlen(path), entry));
    want(path, counter_open_file(image, len, words, COUNTER_MOST_WORDS, entry[0], window));
    do {
        want("read", counter_read(window, image, len, part, sizeof part, count));
        for (i = 0; i < count[0]; i++)
            sum += part[i];
    } while (count[0] != 0);
    printf("the bytes of %s add up to %lu\n", path, sum);
}

int main(int argc, char **argv)
{
    size_t len;
    uint8_t *image;
    FILE *out;
    if (argc != 4) {
        fprintf(stderr, "usage: example IMAGE PATH OUT\n");
        return 64;
    }
    image = load(argv[1], &len);
    list_entries(image, len);
    list_free(image, len);
    sum_up(image, len, argv[2]);
    move_away(image, len, argv[2]);
    list_free(image, len);
    sum_up(image, len, argv[2]);
    out = fopen(argv[3], "wb");
    if (out == NULL || fwrite(image, 1, len, out) != len || fclose(out) != 0) {
        perror(argv[3]);
        return 1;
    }
    free(image);
    return 0;
}

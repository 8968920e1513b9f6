/* Counter: GameCube disc images, read, edited and made.
 *
 * The functions of libcounter.a. Each is proved to meet its contract (crates/counter), which its comment tells in words, on every
 * image, number and amount of lent memory.
 * example.c beside this file is a whole program that lists an image and moves a file; link it with -lcounter.
 *
 * A slice is a pointer and a length, counted in elements. What a caller owes is valid memory: each pointer points to that many elements of
 * its type, properly aligned (with length 0 it is not used); a slice that is not const overlaps no other slice of the same call; nobody
 * else reads or writes them meanwhile. No function keeps a pointer, allocates, prints or stops the program.
 *
 * Every function returns 0 where it is accepted, and else the number of the first test that failed; counter_cause tells it in words.
 *
 * An answer goes into slots that the caller lends, as many as the prototype says, in the order given below; with a number other than 0 they
 * stay as they were, but for the one of counter_sheet. Slots have no length: `uint32_t answer[4]` is a pointer to four words, of which a
 * caller owes the same as of a slice.
 *
 * An entry is a file or a directory, with its number in the table; the root is entry 0. FST is the file table, DOL the program.
 *
 * Names and paths are bytes, cut into units from the start of a name, or of a part of a path: a lead byte (0x81 to 0x9F, 0xE0 to 0xFC) with
 * a trail byte (0x40 to 0x7E, 0x80 to 0xFC) behind it is a pair, as in Shift-JIS, and any other byte a unit by itself. A name holds pairs
 * and the bytes 0x20 to 0x7E and 0xA1 to 0xDF; all else is 12, a lead byte without its trail byte too. It is unsafe (13) if it is empty,
 * "." or "..", or has a unit '/', '\' or ':'; a trail byte 0x5C is no '\'. Two names are equal if their bytes are.
 *
 * Used are the bytes from 0 up to the table's end, those of each file, and the program. A DOL offset other than 0 means a program from
 * there on, as long as its file size and at least 0xE4. It lies wholly between 0x440 and the FST offset, where it counts with the bytes up
 * to the table's end, or wholly from the table's end on, where it is a used region of its own. All else below the disc end is free. No edit
 * alters the program.
 *
 * words, and for edits, parts of edits, edit sheets and a new master bytes, are working memory. Whatever they held, they are zero
 * afterwards, on refusals too. With too little the call returns 9 (counter_fault and counter_report tell it):
 *
 *     words   4 * (n + 2) for an image with n entries (of the new table, if that has more). COUNTER_MOST_WORDS are enough for every image.
 *     bytes   as many as the new table has. No name is shared in it, so it may be larger than the table that is there: 12 for each entry,
 *             and for each but the root its name's length and 1. COUNTER_MOST_TABLE are enough for every edit that is not refused.
 *
 * Lists are sized by the number of entries n, which counter_open tells:
 *
 *     counter_entries        COUNTER_ENTRY_WORDS * n words
 *     counter_free_regions   COUNTER_REGION_WORDS * (n + 1) words: there is at most one free region behind the table, one behind the
 *                            program and one behind each file
 *     counter_free_clusters  COUNTER_CLUSTER_WORDS * (n + 1) words
 *
 * The list of counter_small_tables is one of bytes. How many it must have depends on the `entries` that the call is given: see there.
 *
 * Every call that takes words opens the image first, and refuses what opening refuses (counter_fault tells it instead, and counter_report
 * writes it; counter_sheet reads its sheet before; counter_master asks nothing of what the image holds). Its tests, in this order: the
 * header's fields (1), Wii magic (2), GameCube magic (3); 4; the root (5, 6, 7); more entries than COUNTER_MOST_ENTRIES (9); each further
 * entry in turn (5, 6); 8; more bytes of names than COUNTER_MOST_TEXT (9); too few words (9); a count of 0 (10); then each entry: 11, 12,
 * 13 (not the root's), 10, a directory deeper than COUNTER_MOST_LEVELS (9); then 24, for a DOL offset other than 0: the program's header
 * passes the image, or one of its sums of offset and size passes 2^32 - 1; then 14: two used regions overlap or one passes the disc end, or
 * the program lies in neither of its places. The calls' own tests follow, in the order in which their comments give them.
 */
#ifndef COUNTER_H
#define COUNTER_H

#include <stddef.h>
#include <stdint.h>

#ifdef __cplusplus
extern "C" {
#endif

/* ---- sizes of answers */

#define COUNTER_HEADER_BYTES 0x440
#define COUNTER_OPEN_SLOTS 5
#define COUNTER_TOTALS_SLOTS 2
#define COUNTER_PROGRAM_SLOTS 2
#define COUNTER_ENTRY_SLOTS 4
#define COUNTER_ENTRY_WORDS 6
#define COUNTER_REGION_WORDS 2
#define COUNTER_CLUSTER_WORDS 3
#define COUNTER_CLUSTER_SIZE 0x8000
#define COUNTER_ALLOCATE_SLOTS 2
#define COUNTER_CLEAR_SLOTS 4
#define COUNTER_DOL_SLOTS 57
#define COUNTER_WINDOW_SLOTS 3
#define COUNTER_TEAMS 16
#define COUNTER_TEAM_SLOTS 4
#define COUNTER_RECORD_SLOTS (2 + COUNTER_TEAMS * COUNTER_TEAM_SLOTS)
#define COUNTER_UNIT_SLOTS 2
#define COUNTER_FAULT_SLOTS 4
#define COUNTER_SPAN_SLOTS 2
#define COUNTER_SHEET_HEADER_BYTES 16
#define COUNTER_SHEET_LINE_BYTES 16
#define COUNTER_SMALL_TABLE_BYTES(entries) (14 * (entries) - 2) /* of each table of counter_small_tables */

/* ---- whose a used region is, in the slots of counter_fault: a file's by its number, from 1 on */

#define COUNTER_OF_TABLE 0 /* the bytes from 0 up to the table's end */
#define COUNTER_OF_PROGRAM UINT32_MAX

/* ---- limits of an image that opens and of what an edit makes; of a path, of a sheet, and of the small tables */

#define COUNTER_MOST_ENTRIES 16384 /* with the root */
#define COUNTER_MOST_TEXT 1048576  /* bytes of names, each with a zero byte behind it */
#define COUNTER_MOST_LEVELS 64     /* directories below the root, one in another */
#define COUNTER_MOST_PATH 1024     /* bytes of a path that is passed in, or that a sheet's line has */
#define COUNTER_MOST_LINES 1024    /* lines of an edit sheet */
#define COUNTER_MOST_SMALL 8       /* entries, with the root, of counter_small_tables */
#define COUNTER_MOST_REGIONS (COUNTER_MOST_ENTRIES + 1)
#define COUNTER_MOST_WORDS (4 * (COUNTER_MOST_ENTRIES + 2))
#define COUNTER_MOST_TABLE (12 * COUNTER_MOST_ENTRIES + COUNTER_MOST_TEXT)
#define COUNTER_MOST_SMALL_TABLES 941380 /* bytes: 8,558 tables of COUNTER_MOST_SMALL entries */

/* ---- numbers */

/* What a number means; NULL if no call returns it. */
static inline const char *counter_cause(uint32_t number)
{
    static const char *const causes[] = {
        "accepted",
        "header field past the image",
        "Wii magic",
        "not GameCube magic",
        "FST offset below 0x440, disc end above 2^32 - 1, table end past it, or image shorter than it",
        "entry past the table",
        "kind above 1",
        "root a file",
        "last text unended",
        "limit or memory",
        "next at or before its entry, past the count or past its parent's next",
        "name offset at or past the texts' end",
        "name byte",
        "unsafe or empty name",
        "used regions overlap or pass the disc end",
        "no such entry",
        "file wanted",
        "directory wanted",
        "not found",
        "name exists",
        "move overlaps itself",
        "no space",
        "alignment no power of two",
        "seek",
        "DOL header past the image, or a sum above 2^32 - 1",
        "used bytes or edit count would leave 0 to 2^32 - 1",
        "new table above the maximum",
        "taken bytes above the team's limit",
        "free bytes below the other teams' shares",
        "span to be zeroed not wholly free",
        "no edit sheet: its count, bounds, or a line's kind, fields or path",
    };
    return number < sizeof causes / sizeof causes[0] ? causes[number] : NULL;
}

/* ---- the header, the image, its entries */

/* The disc header alone: read field by field (1, 2, 3), and written back into fields, which is then the image's first 0x440 bytes: a game
 * name, a word at 0x18 and unused bytes come back as they are. */
uint32_t counter_header(const uint8_t *image, size_t image_len, uint8_t fields[COUNTER_HEADER_BYTES]);

/* Opens the image. answer[5]: FST offset, FST size, disc end, entries, used total. */
uint32_t counter_open(const uint8_t *image, size_t image_len, uint32_t *words, size_t words_len, uint32_t answer[COUNTER_OPEN_SLOTS]);

/* What counter_open refuses the image for. It refuses nothing itself: it returns 0. answer[0]: the number that opening refuses the image with,
 * 0 if it opens. answer[1]: what of the image that is about, with answer[2] and answer[3] as said here, and else 0:
 *
 *     0  nothing more to tell
 *     1  entry answer[2], the first behind the root that this test refuses: 5, 6, 9 for its depth, 10 to 13 (a count of 0 names none)
 *     2  two used regions that share a byte, answer[2] and answer[3]: 14
 *     3  used region answer[2], which passes the disc end: 14
 *     4  section answer[2] of the program, 0 to 6 of text and 7 to 17 of data, the first whose offset + size passes 2^32 - 1: 24
 *
 * A used region is named by its file's number, COUNTER_OF_TABLE or COUNTER_OF_PROGRAM. Of the bytes up to the table's end, the program
 * where it is a region of its own, and each file that is not empty, in table order, it is the first that passes the disc end or shares a
 * byte with one before it. One that does both is told as passing the disc end. Else answer[3] is it, and answer[2] the first of those
 * before it that it shares with. */
uint32_t counter_fault(const uint8_t *image, size_t image_len, uint32_t *words, size_t words_len, uint32_t answer[COUNTER_FAULT_SLOTS]);

/* answer[2]: disc end, used total. */
uint32_t counter_totals(const uint8_t *image, size_t image_len, uint32_t *words, size_t words_len, uint32_t answer[COUNTER_TOTALS_SLOTS]);

/* The program's region, before the table or behind it. answer[2]: DOL offset, and the larger of the file size and 0xE4; both 0 where the
 * DOL offset is 0. */
uint32_t counter_program(const uint8_t *image, size_t image_len, uint32_t *words, size_t words_len, uint32_t answer[COUNTER_PROGRAM_SLOTS]);

/* Entry `number`; 15 if there is none. answer[4]: number; kind, 0 a file and 1 a directory; a file's offset, or the directory that a
 * directory is nested in (the root: 0); a file's size, or the number after a directory's last entry. */
uint32_t counter_entry(const uint8_t *image, size_t image_len, uint32_t *words, size_t words_len, uint32_t number,
    uint32_t answer[COUNTER_ENTRY_SLOTS]);

/* The entry that a path leads to from the entry `start`: a path over 1,024 bytes 9, no such start 15, through a file 17, a name that is
 * not there or a step above the start 18. '/' and '\' both cut, where they are units. answer[4] as counter_entry. */
uint32_t counter_lookup(const uint8_t *image, size_t image_len, uint32_t *words, size_t words_len, uint32_t start, const uint8_t *path,
    size_t path_len, uint32_t answer[COUNTER_ENTRY_SLOTS]);

/* All entries in table order, six words each into list: kind, the directory it is nested in, offset (0 for a directory), size or next, the
 * place of its name in the image, the name's length (both 0 for the root). A list with fewer words than that is 9, and nothing is written
 * to it; words behind the entries stay. answer[5] as counter_open. */
uint32_t counter_entries(const uint8_t *image, size_t image_len, uint32_t *words, size_t words_len, uint32_t *list, size_t list_len,
    uint32_t answer[COUNTER_OPEN_SLOTS]);

/* The listing of the image as text, into the front of text: a line with disc end and used total, the entries in table order, the free
 * regions. A text that is too short is 9, and nothing is written to it; bytes behind the listing stay. answer[1]: its length. */
uint32_t counter_list(const uint8_t *image, size_t image_len, uint32_t *words, size_t words_len, uint8_t *text, size_t text_len,
    uint64_t answer[1]);

/* What the listing program writes for an image: the listing, or `refused `, the number and a line feed; an image of more than 65,536 bytes
 * is 9. A text that is too short even for that stays as it was, with length 0. answer[1]: the length. Always returns 0. */
uint32_t counter_report(const uint8_t *image, size_t image_len, uint32_t *words, size_t words_len, uint8_t *text, size_t text_len,
    uint64_t answer[1]);

/* The table that counter_rewrite would write, with no name shared, into the front of table; the image is only read. 9 if the names that are
 * written pass COUNTER_MOST_TEXT or table is too short, and nothing is written to it; bytes behind the table stay. Whether the disc has a
 * place for it (26, 21) is not tested. COUNTER_MOST_TABLE are enough. length[1]: its length in bytes. */
uint32_t counter_table_anew(const uint8_t *image, size_t image_len, uint32_t *words, size_t words_len, uint8_t *table, size_t table_len,
    uint32_t length[1]);

/* ---- names and paths, with no image */

/* The first unit of a text. unit[2]: its length in bytes (0 for an empty text, 1, 2), and what it is refused for in a name: 0, 12 (a byte
 * that no name has), 13 ('/', '\' or ':'). Always returns 0. */
uint32_t counter_unit(const uint8_t *text, size_t text_len, uint32_t unit[COUNTER_UNIT_SLOTS]);

/* The first component of a path: up to the first '/' or '\' that is a unit, or to the end. length[1]: how many bytes it has, without the
 * separator. Always returns 0. */
uint32_t counter_component(const uint8_t *path, size_t path_len, uint64_t length[1]);

/* Whether opening refuses an entry for this name: 0, or 12, then 13. */
uint32_t counter_name(const uint8_t *name, size_t name_len);

/* ---- free space */

/* The free regions, rising, offset and size of each into list. A short list is 9, and nothing is written to it; words behind the regions
 * stay. answer[1]: how many regions. */
uint32_t counter_free_regions(const uint8_t *image, size_t image_len, uint32_t *words, size_t words_len, uint32_t *list, size_t list_len,
    uint32_t answer[1]);

/* The same regions, counted in clusters of COUNTER_CLUSTER_SIZE bytes: three words for each into list, the bytes before its first multiple
 * of 0x8000, the whole clusters from there on, and the exact rest: before + 0x8000 * clusters + rest is its size. A region whose first
 * multiple is at or past its end is all "before". A short list is 9, and nothing is written to it; words behind the regions stay.
 * answer[1]: how many regions. */
uint32_t counter_free_clusters(const uint8_t *image, size_t image_len, uint32_t *words, size_t words_len, uint32_t *list, size_t list_len,
    uint32_t answer[1]);

/* answer[1]: the size that a region at `offset` with `size` bytes can have. If a free region starts at offset, that region's size; else, if
 * it ends before the end of a free region that starts before it, the bytes from offset to that end; else, if the first
 * free region behind offset starts at its end, both sizes together; else `size`. */
uint32_t counter_max_region_size(const uint8_t *image, size_t image_len, uint32_t *words, size_t words_len, uint32_t offset, uint32_t size,
    uint32_t answer[1]);

/* answer[1]: the size that file `number` can grow to where it is; 15 if there is no such entry, 16 if it is a directory. */
uint32_t counter_max_file_size(const uint8_t *image, size_t image_len, uint32_t *words, size_t words_len, uint32_t number,
    uint32_t answer[1]);

/* The largest free place for `size` bytes at a multiple of `align`, the last among equals: 22 if align is no power of two, 21 exactly if no
 * free multiple of it starts that many free bytes. answer[2]: offset, size. */
uint32_t counter_allocate(const uint8_t *image, size_t image_len, uint32_t *words, size_t words_len, uint32_t size, uint32_t align,
    uint32_t answer[COUNTER_ALLOCATE_SLOTS]);

/* Where the least has to be moved away for `size` bytes in a row. A run is so many bytes between the table's end and the disc end, with no
 * byte of the program. It costs the sizes of the files that have a byte of it, each file whole; an empty file has none. The candidates are
 * the runs that start where a used region ends, rising: at the table's end, and behind each file that is not empty and a program behind the
 * table. The first `budget` of them are tried. 21, whatever the budget, exactly if size is 0 or no start at all gives a run.
 *
 * answer[4]: how many were tried; where the cheapest of them starts, of equals the first; its cost; and a bound, so that no run costs less
 * than cost - bound, wherever it starts. The bound is 0 if all candidates were tried, and else cost - floor: the floor is 0 if some free
 * region has `size` bytes, else the greater of size - all free bytes and 1. All four are 0 if none was tried, for a budget of 0. */
uint32_t counter_clear(const uint8_t *image, size_t image_len, uint32_t *words, size_t words_len, uint32_t size, uint32_t budget,
    uint32_t answer[COUNTER_CLEAR_SLOTS]);

/* ---- windows: three slots of 64 bits, start, length and position, which the caller may also fill by himself */

/* The window that shows file `number`; 15, 16 as above. window[3]: its offset, its size, 0. */
uint32_t counter_open_file(const uint8_t *image, size_t image_len, uint32_t *words, size_t words_len, uint32_t number,
    uint64_t window[COUNTER_WINDOW_SLOTS]);

/* The executable at the DOL offset; at 0, which opening takes for no program, too: 24 if a sum of offset and size there passes 2^32 - 1.
 * header[57]: 7 text and 11 data offsets, 7 and 11 addresses, 7 and 11 sizes, BSS address, BSS size, entry point. window[3]: DOL offset,
 * file size (the largest sum; it may be below 0xE4), 0. */
uint32_t counter_open_dol(const uint8_t *image, size_t image_len, uint32_t *words, size_t words_len, uint32_t header[COUNTER_DOL_SLOTS],
    uint64_t window[COUNTER_WINDOW_SLOTS]);

/* Move a window's position: to `position`; by `distance` from where it is; by `distance` from its end. A distance is added modulo 2^64. 23,
 * with the window as it was, if start + position passes 2^64 - 1; counter_seek_current with distance 0 always succeeds. */
uint32_t counter_seek_start(uint64_t window[COUNTER_WINDOW_SLOTS], uint64_t position);
uint32_t counter_seek_current(uint64_t window[COUNTER_WINDOW_SLOTS], int64_t distance);
uint32_t counter_seek_end(uint64_t window[COUNTER_WINDOW_SLOTS], int64_t distance);

/* Reads into buf the least of the bytes that buf has, that are left in the window and that are left in the image; the rest of buf stays.
 * The position moves on by as many. answer[1]: how many bytes. Always returns 0. */
uint32_t counter_read(uint64_t window[COUNTER_WINDOW_SLOTS], const uint8_t *image, size_t image_len, uint8_t *buf, size_t buf_len,
    uint64_t answer[1]);

/* ---- the record: used bytes, the size of the largest free region (0 if there is none), and COUNTER_TEAM_SLOTS slots for each team, team 0
 * first: its limit, its share, how many bytes it has taken, and how many of its edits were accepted.
 *
 * The teams edit one image by turns. None takes more bytes than its limit. Of the free bytes, what a team has not yet taken of its share is
 * kept for it. */

/* Makes a record of the image: its used total, its largest free region, and teams with these limits and shares, which have taken nothing
 * and made no edit. Any limit and any share is accepted. With a number other than 0 the slots are as they were. */
uint32_t counter_make_record(const uint8_t *image, size_t image_len, uint32_t *words, size_t words_len,
    const uint32_t limits[COUNTER_TEAMS], const uint32_t shares[COUNTER_TEAMS], uint32_t record[COUNTER_RECORD_SLOTS]);

/* ---- edits: each opens the image, makes all its tests, and only then writes it; with a number other than 0 image and record are as they
 * were. The table is written anew: limits of the new tree or too few working bytes 9, larger than the FST maximum 26, no place for it 21.
 *
 * The FST maximum is the header's word at 0x42C: the memory that a game on two discs has for the table of either. 0 states none. It binds
 * the table that an edit would write, in which no name is shared, and no other: an image whose table is larger opens, and an edit whose
 * table is no larger than the maximum is not refused for it. A resize to the present size and a clip of the file's own size write no table.
 * No edit writes the field.
 *
 * A record goes into every edit and comes back, and every edit carries a team: above 15 is 15, the first test after opening. An edit costs
 * as many bytes as the image uses more after it than before; where it uses fewer, the cost is below 0. Where the edit is accepted, used
 * bytes have moved by the cost, and the largest region is the new image's. What the team has taken has moved by the cost too, to 0 at least,
 * and its count is larger by one; the other teams are as they were. All this also where the image stays as it was, as after a resize to the
 * present size. So a record that counter_make_record made, and that went through every edit since, holds the image's totals and the number
 * of each team's edits accepted since. It may hold other numbers too, which then move from there; what an edit costs is told by the image
 * alone.
 *
 * The last tests of all, whatever the edit costs, in this order: 27 if what the team has taken and the cost together pass its limit. 28 if
 * fewer bytes would be free than are kept for the other teams: added up as whole numbers, what each has not taken of its share, which is
 * nothing where it has taken more. 25 if used bytes, or the team's count, would leave 0 to 2^32 - 1. */

/* Adds an empty file (offset 0, size 0), or an empty directory, as last child of the directory `parent`: 15; 13 unsafe name; 17; 19 name
 * exists; 12 name byte. answer[1]: the new entry's number in the new table. */
uint32_t counter_insert_file(uint8_t *image, size_t image_len, uint32_t *words, size_t words_len, uint8_t *bytes, size_t bytes_len,
    uint32_t record[COUNTER_RECORD_SLOTS], uint32_t team, uint32_t parent, const uint8_t *name, size_t name_len, uint32_t answer[1]);
uint32_t counter_insert_directory(uint8_t *image, size_t image_len, uint32_t *words, size_t words_len, uint8_t *bytes, size_t bytes_len,
    uint32_t record[COUNTER_RECORD_SLOTS], uint32_t team, uint32_t parent, const uint8_t *name, size_t name_len, uint32_t answer[1]);

/* Walks a path from the entry `start` and makes each directory that is missing, all or none: a path over 1,024 bytes 9; 15; then the first
 * of 17, 18, 13 along the path, 12 last. Writes the table even if all exist. answer[1]: the number, in the new table, of the entry where
 * the walk ends. */
uint32_t counter_make_directories(uint8_t *image, size_t image_len, uint32_t *words, size_t words_len, uint8_t *bytes, size_t bytes_len,
    uint32_t record[COUNTER_RECORD_SLOTS], uint32_t team, uint32_t start, const uint8_t *path, size_t path_len, uint32_t answer[1]);

/* Moves file `number` to `new_offset`: 15, 16; 20 if the place overlaps its own; 21 if it is not free. An empty file may go anywhere. The
 * bytes are copied and the old place is zeroed. */
uint32_t counter_move_file(uint8_t *image, size_t image_len, uint32_t *words, size_t words_len, uint8_t *bytes, size_t bytes_len,
    uint32_t record[COUNTER_RECORD_SLOTS], uint32_t team, uint32_t number, uint32_t new_offset);

/* Gives file `number` the size `new_size`: 15, 16; where it cannot grow where it is it goes to the largest free place at a multiple of
 * 0x8000, 21 if there is none, 20 as above. A lost end is zeroed; grown bytes are what the free space held. The present size is accepted,
 * and nothing is written to the image. */
uint32_t counter_resize_file(uint8_t *image, size_t image_len, uint32_t *words, size_t words_len, uint8_t *bytes, size_t bytes_len,
    uint32_t record[COUNTER_RECORD_SLOTS], uint32_t team, uint32_t number, uint32_t new_size);

/* Fills file `number` with the clip: 15, 16; a clip above 2^32 - 1 bytes 21; then as counter_resize_file to the clip's length, which may
 * move the file. Afterwards the file is exactly the clip. A clip of the file's own size is written, and no table: that wants no bytes. The
 * clip is only read; as for every slice, it may not overlap the image, the words, the bytes or the record. */
uint32_t counter_fill_file(uint8_t *image, size_t image_len, uint32_t *words, size_t words_len, uint8_t *bytes, size_t bytes_len,
    uint32_t record[COUNTER_RECORD_SLOTS], uint32_t team, uint32_t number, const uint8_t *clip, size_t clip_len);

/* Writes the table anew, with no name shared. */
uint32_t counter_rewrite(uint8_t *image, size_t image_len, uint32_t *words, size_t words_len, uint8_t *bytes, size_t bytes_len,
    uint32_t record[COUNTER_RECORD_SLOTS], uint32_t team);

/* ---- parts of edits: a move or a resize in three calls, for a station that may lose its drive between two of them. Each opens the image
 * and makes all its tests before it writes. Each writes its own part of what the single edit writes, and no other; with a number other than
 * 0 it writes nothing.
 *
 * In this order, of an edit that is accepted, with the same arguments and then the span that the second gave, each on the image that the one
 * before left, record and team too: the second and the third are accepted, and image and record are at last those of counter_move_file or
 * counter_resize_file, every byte and every slot. After the first the image opens with as many words, to the same tree, with every file's
 * bytes; after the second to the new tree, with every file as the single edit gives it. Nothing is promised of a cut inside a call.
 *
 * Any of them may be called at any time: a second call that no first one came before writes its part all the same. */

/* The copy: writes the bytes that file `number` keeps at its new place; nothing where it stays where it is. Refused exactly where
 * counter_move_file or counter_resize_file is, with the same number: all their tests are made, the last three too. The record is only
 * read. */
uint32_t counter_move_copy(uint8_t *image, size_t image_len, uint32_t *words, size_t words_len, uint8_t *bytes, size_t bytes_len,
    const uint32_t record[COUNTER_RECORD_SLOTS], uint32_t team, uint32_t number, uint32_t new_offset);
uint32_t counter_resize_copy(uint8_t *image, size_t image_len, uint32_t *words, size_t words_len, uint8_t *bytes, size_t bytes_len,
    const uint32_t record[COUNTER_RECORD_SLOTS], uint32_t team, uint32_t number, uint32_t new_size);

/* The table: makes the same tests again, on the image as it is now. Writes the new table, zeros up to the old one's end if that is further
 * on, and the FST size, four bytes; the record comes back as from the single edit. span[2]: offset and size in bytes of what is left to be
 * zeroed, the place that the file left or the end that it lost; 0 and 0 where that has no byte, as of a file that grows where it is, of an
 * empty one that is moved, and of a resize to the present size, which writes nothing. With a number other than 0 image, record and span
 * are as they were. */
uint32_t counter_move_table(uint8_t *image, size_t image_len, uint32_t *words, size_t words_len, uint8_t *bytes, size_t bytes_len,
    uint32_t record[COUNTER_RECORD_SLOTS], uint32_t team, uint32_t number, uint32_t new_offset, uint32_t span[COUNTER_SPAN_SLOTS]);
uint32_t counter_resize_table(uint8_t *image, size_t image_len, uint32_t *words, size_t words_len, uint8_t *bytes, size_t bytes_len,
    uint32_t record[COUNTER_RECORD_SLOTS], uint32_t team, uint32_t number, uint32_t new_size, uint32_t span[COUNTER_SPAN_SLOTS]);

/* The zeros: writes 0 into `size` bytes from `offset` on. 29 if not each of them is free and below the disc end (the end is a whole number,
 * and never wraps); the image then is as it was. With size 0 any offset is accepted. It takes no bytes, no record and no team. */
uint32_t counter_zero(uint8_t *image, size_t image_len, uint32_t *words, size_t words_len, uint32_t offset, uint32_t size);

/* ---- an edit sheet: a list of edits in one piece of bytes */

/* Runs a sheet: its lines in order, up to the first that is refused. line[1], which is written whatever the answer is: the number of that
 * line, from 1; 0 where all ran, and for a refusal before the first. Image and record are those after the lines before it, so the line that
 * is refused has changed nothing. One team goes with all of them, and words and bytes are lent to each, as many as the edits want.
 *
 * A sheet holds numbers of 32 bits, the highest byte first. Its header has four: how many lines; where they begin in the sheet; where the
 * texts begin in the sheet; how many bytes the texts have. A line has four: its kind; where its path begins in the texts, up to the next
 * zero byte; the new offset, 0 but for kind 3; the new size, 0 but for kind 4. Lines, texts and header may overlap each other.
 *
 *     1  counter_insert_directory    the path is cut at its last byte '/' alone: what is before leads to the parent, as a counter_lookup
 *     2  counter_insert_file         from the root (17, 18), and what is behind is the name; without a '/' the root is the parent
 *     3  counter_move_file           of the entry that the whole path leads to, as a counter_lookup from the root
 *     4  counter_resize_file
 *
 * The whole sheet is checked before the image is looked at: 30, with line 0, for fewer bytes than a header; more than COUNTER_MOST_LINES
 * lines; lines or texts, also none, that end past the sheet; and of any line, also one behind a line that would be refused, a kind that is
 * none of these, a new offset or size that is not 0 where it must be, or a path with no zero byte from where it begins to the texts' end. Then
 * opening, and then 15 for a team above 15, both with line 0, of a sheet without lines too. Then each line in turn: a path over
 * COUNTER_MOST_PATH bytes, its zero byte not counted, 9; 17, 18 along it; then as the edit. */
uint32_t counter_sheet(uint8_t *image, size_t image_len, uint32_t *words, size_t words_len, uint8_t *bytes, size_t bytes_len,
    uint32_t record[COUNTER_RECORD_SLOTS], uint32_t team, const uint8_t *sheet, size_t sheet_len, uint32_t line[1]);

/* ---- a new master */

/* Writes a fresh image over what `image` holds below `disc_end`, whatever that is: the header, with the game code, the GameCube magic, FST
 * offset 0x440, the FST size and the disc end as user size; the table at 0x440; and 0 in every other byte. Bytes at the disc end and behind
 * it stay. It takes no record.
 *
 * paths are the full paths of the files, from the root, without a '/' in front, each ended by a zero byte; sizes[k] is the size of file k.
 * They are cut at '/' alone, and rise in the order of their bytes, unsigned. The table has the files in this order, each directory just
 * before the first file in it, and no other directory. A file that is not empty begins on a multiple of COUNTER_CLUSTER_SIZE, in this order
 * from the first multiple at or behind the table's end; but the first file with the largest unused rest of its last cluster, which is 0 of
 * an empty file, lies last. An empty file has offset 0.
 *
 * 8 if not exactly one path is ended for each size, or bytes are left behind the last. Then path by path: over COUNTER_MOST_PATH bytes 9; a
 * part that is empty or unsafe 13; a part with a byte that no name has 12; not behind the path before it, or an earlier file used as a
 * directory, 19. Then 9 for the limits of the new tree, too few words (4 * (n + 2), for its n entries), fewer bytes than its table, or an
 * image shorter than the disc end. Then 21, exactly if header, table and files have no place below the disc end, wherever they lie. With a
 * number other than 0 the image is as it was. */
uint32_t counter_master(uint8_t *image, size_t image_len, uint32_t *words, size_t words_len, uint8_t *bytes, size_t bytes_len,
    const uint8_t game_code[4], uint32_t disc_end, const uint32_t *sizes, size_t sizes_len, const uint8_t *paths, size_t paths_len);

/* ---- every small table, with no image */

/* Writes a table for each shape of so many entries, the root among them, into the front of list, one behind the other. A shape is which of
 * the entries are directories, and the next of each: behind itself, at most `entries`, and at most that of the directory around it. Each is
 * there once, by the entries from 1 on: a file before a directory, then the smaller next first. In its table files have offset and size 0,
 * and entry k is named by the k-th lower-case letter; put at the FST offset of an image that has a good header, no program and room for it,
 * with the FST size set, it opens. It takes no words.
 *
 *     entries    1    2    3      4      5       6        7        8
 *     tables     1    2    6     22     90     394    1,806    8,558    COUNTER_SMALL_TABLE_BYTES(entries) bytes each
 *     bytes     12   52  240  1,188  6,120  32,308  173,376  941,380    together: the length that list must have
 *
 * 9 if `entries` is not 1 to COUNTER_MOST_SMALL, or if list has fewer bytes, and nothing is written to it; bytes behind the last table stay.
 * COUNTER_MOST_SMALL_TABLES are enough. answer[1]: how many tables. */
uint32_t counter_small_tables(uint32_t entries, uint8_t *list, size_t list_len, uint32_t answer[1]);

#ifdef __cplusplus
}
#endif

#endif

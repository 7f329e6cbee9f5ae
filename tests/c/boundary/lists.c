/* The position list file: lists both ways with every too short buffer, lists that do not rise, and damaged files. */
#include <mitongory.h>
#include <string.h>

#include "bounds.h"
#include "calls.h"
#include "check.h"
#include "parts.h"

enum { MORE = 9, MOST_CELLS = 9, LONGEST_FILE = 7 }; /* MORE: elements more than needed */

static void list_size(const char *name, const uint32_t *list, size_t list_len, size_t answer_len, uint32_t result,
                      uint64_t told)
{
    struct call c = {LIST_SIZE, list, list_len, NULL, 0, 0, 0, 0, answer_len};
    calling(name, c, result, told, NULL);
}

/* Expects of an accepted call that the file is the front of the target and its size is told. */
static void list_write(const char *name, const uint32_t *list, size_t list_len, size_t target_len, size_t answer_len,
                       uint32_t result, const uint8_t *file, size_t file_len)
{
    struct call c = {LIST_WRITE, list, list_len, NULL, 0, 0, 0, target_len, answer_len};
    calling(name, c, result, file_len, file);
}

/* Expects of an accepted call that the list is the front of the cells and its count is told. */
static void list_read(const char *name, const uint8_t *file, size_t file_len, size_t cells_len, size_t answer_len,
                      uint32_t result, const uint32_t *list, size_t list_len)
{
    struct call c = {LIST_READ, file, file_len, NULL, 0, 0, 0, cells_len, answer_len};
    calling(name, c, result, list_len, list);
}

/* A bad file gets its fault with any number of cells. */
static void with_any_cells(const char *name, const uint8_t *file, size_t bytes, uint32_t fault)
{
    size_t room;
    for (room = 0; room < MOST_CELLS; room++)
        list_read(name, file, bytes, room, 1, fault, NULL, 0);
}

/* A list with its file. */
static void both_ways(const char *name, const uint32_t *list, size_t count, const void *file, size_t bytes)
{
    uint8_t longer[LONGEST_FILE + 1];
    size_t room;
    list_size(name, list, count, 1, MITONGORY_OK, bytes);
    list_size(name, list, count, 3, MITONGORY_OK, bytes);
    list_size(name, list, count, 0, MITONGORY_ANSWER_CELLS_MISSING, 0);
    for (room = 0; room < bytes; room++)
        list_write(name, list, count, room, 1, MITONGORY_TARGET_TOO_SHORT, NULL, 0);
    list_write(name, list, count, bytes, 1, MITONGORY_OK, file, bytes);
    list_write(name, list, count, bytes + MORE, 2, MITONGORY_OK, file, bytes);
    list_write(name, list, count, bytes, 0, MITONGORY_ANSWER_CELLS_MISSING, NULL, 0);
    for (room = 0; room < count; room++)
        list_read(name, file, bytes, room, 1, MITONGORY_CELLS_MISSING, NULL, 0);
    list_read(name, file, bytes, count, 1, MITONGORY_OK, list, count);
    list_read(name, file, bytes, bytes - 1, 1, MITONGORY_OK, list, count); /* the header: these cells are enough */
    list_read(name, file, bytes, count + MORE, 2, MITONGORY_OK, list, count);
    list_read(name, file, bytes, count, 0, MITONGORY_ANSWER_CELLS_MISSING, NULL, 0);
    for (room = 0; room < bytes; room++)
        with_any_cells(name, file, room, MITONGORY_FILE_ENDS_EARLY);
    check(bytes < sizeof longer, "the length of the test's own file");
    memcpy(longer, file, bytes);
    longer[bytes] = 0;
    with_any_cells(name, longer, bytes + 1, MITONGORY_BYTES_LEFT_OVER);
}

static void not_rising(const char *name, const uint32_t *list, size_t count)
{
    const size_t enough = 20;
    list_size(name, list, count, 1, MITONGORY_LIST_NOT_RISING, 0);
    list_size(name, list, count, 0, MITONGORY_ANSWER_CELLS_MISSING, 0);
    list_write(name, list, count, enough, 1, MITONGORY_LIST_NOT_RISING, NULL, 0);
    list_write(name, list, count, 0, 1, MITONGORY_LIST_NOT_RISING, NULL, 0);
    list_write(name, list, count, enough, 0, MITONGORY_ANSWER_CELLS_MISSING, NULL, 0);
}

static void bad_file(const char *name, const char *file, size_t bytes, uint32_t fault)
{
    with_any_cells(name, (const uint8_t *)file, bytes, fault);
    list_read(name, (const uint8_t *)file, bytes, 1, 0, MITONGORY_ANSWER_CELLS_MISSING, NULL, 0);
}

static void good_lists(void)
{
    static const uint32_t paper[] = {0, 6, 12}, late[] = {300}, last[] = {LARGEST_POSITION};
    static const uint32_t ends[] = {0, LARGEST_POSITION};
    both_ways("list 0, 6, 12", paper, 3, "\x03\x00\x05\x05", 4);
    both_ways("list 300", late, 1, "\x01\xac\x02", 3);
    both_ways("the empty list", NULL, 0, "\x00", 1);
    both_ways("the largest position", last, 1, "\x01\xff\xff\xff\xff\x03", 6);
    both_ways("the smallest and the largest position", ends, 2, "\x02\x00\xfe\xff\xff\xff\x03", 7);
}

static void bad_lists(void)
{
    static const uint32_t same[] = {6, 6}, falls[] = {5, 4}, large[] = {LARGEST_POSITION + 1};
    static const uint32_t largest[] = {UINT32_MAX}, largest_last[] = {1, UINT32_MAX};
    not_rising("6, 6", same, 2);
    not_rising("5, 4", falls, 2);
    not_rising("2^30", large, 1);
    not_rising("the largest number", largest, 1);
    not_rising("the largest number after 1", largest_last, 2);
}

static void bad_files(void)
{
    bad_file("an empty file", "", 0, MITONGORY_FILE_ENDS_EARLY);
    bad_file("01", "\x01", 1, MITONGORY_FILE_ENDS_EARLY);
    bad_file("01 80 00", "\x01\x80\x00", 3, MITONGORY_NUMBER_NOT_SHORTEST);
    bad_file("01 80 80 80 80 04", "\x01\x80\x80\x80\x80\x04", 6, MITONGORY_NUMBER_TOO_LARGE);
    bad_file("a sixth group", "\xff\xff\xff\xff\xff\x01", 6, MITONGORY_NUMBER_TOO_LARGE);
    bad_file("the largest number of five groups", "\xff\xff\xff\xff\x7f", 5, MITONGORY_NUMBER_TOO_LARGE);
    bad_file("00 00", "\x00\x00", 2, MITONGORY_BYTES_LEFT_OVER);
    bad_file("two positions, the second missing", "\x02\x05", 2, MITONGORY_FILE_ENDS_EARLY);
    bad_file("two positions, the second too long", "\x02\x05\x80\x00", 4, MITONGORY_NUMBER_NOT_SHORTEST);
    bad_file("two positions, the second a large number", "\x02\x05\x81\x80\x80\x80\x04", 7, MITONGORY_NUMBER_TOO_LARGE);
    bad_file("two positions, the second 2^30", "\x02\xff\xff\xff\xff\x03\x00", 7, MITONGORY_NUMBER_TOO_LARGE);
    bad_file("two positions and a byte", "\x02\x05\x05\x00", 4, MITONGORY_BYTES_LEFT_OVER);
    bad_file("a count of 2^30", "\x80\x80\x80\x80\x04", 5, MITONGORY_FILE_ENDS_EARLY);
    bad_file("a count of 2^30 and one position", "\x80\x80\x80\x80\x04\x00", 6, MITONGORY_FILE_ENDS_EARLY);
    list_read("01 05 and no cell", (const uint8_t *)"\x01\x05", 2, 0, 1, MITONGORY_CELLS_MISSING, NULL, 0);
}

void lists(void)
{
    good_lists();
    bad_lists();
    bad_files();
}

// Makes a file around a stream, which is its types, its ids and its string table, for the calls that take a file.
#ifndef MADE_H
#define MADE_H

#include <stdint.h>
#include <string.h>

// The bytes of the file before those of the stream: pages of its header, of its directory's page, of its directory, and of
// its stream 1. It ends with the stream.
enum { MADE_PAGE = 8192, MADE_FRONT = 4 * MADE_PAGE, MADE_MOST = 1000 * MADE_PAGE };

// Writes them, before a stream of at most MADE_MOST bytes.
static inline void make_front(uint8_t *front, size_t stream_length) {
    // A version, a signature, an age and a GUID; and the names: "/names" at 0, of stream 2.
    static const char named[] = "\x94.1\1\1\0\0\0\1\0\0\0a GUID, 16 bytes\7\0\0\0/names\0\1\0\0\0\1\0\0\0\1\0\0\0\1\0\0\0\0\0\0\0\0\0\0\0\2\0\0";
    uint32_t length = (uint32_t)stream_length, pages = (length + MADE_PAGE - 1) / MADE_PAGE;
    uint32_t header[] = {MADE_PAGE, 1, 4 + pages, 4 * (7 + 2 * pages), 0, 1};
    uint32_t directory[7 + 2 * MADE_MOST / MADE_PAGE] = {5, 0, sizeof named, length, UINT32_MAX, length, 3};
    for (uint32_t n = 0; n < 2 * pages; n++) directory[7 + n] = 4 + n % pages;
    memset(front, 0, MADE_FRONT);
    memcpy(front, "Microsoft C/C++ MSF 7.00\r\n\x1a" "DS\0\0", 32);
    memcpy(front + 32, header, sizeof header);
    front[MADE_PAGE] = 2;
    memcpy(front + 2 * MADE_PAGE, directory, sizeof directory);
    memcpy(front + 3 * MADE_PAGE, named, sizeof named);
}

#endif

/* The map of a network file, for programs in C. */
#ifndef HAZHGITI_H
#define HAZHGITI_H

#include <stddef.h>
#include <stdint.h>

/* The most bytes that a page can have. */
#define HAZHGITI_MOST_BYTES 1248

/*
 * Reads the network file of file_length bytes, opens a session over its support clauses, and writes the
 * session's page into the page_length bytes at page. Answers the page's length, or minus the number of what
 * went wrong: 1 to 11 for a refused file, 21 where the page does not fit, 99 where there is no memory.
 * Nothing is written then, and bytes behind the page stay as they were. Both pointers must be valid for
 * their lengths (not null, also where a length is 0), and the two must not overlap.
 */
int64_t hazhgiti_map(const uint8_t *file, size_t file_length, uint8_t *page, size_t page_length);

#endif

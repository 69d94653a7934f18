/* Memory to lend: each piece lies against a page that can neither be read nor written. */
#ifndef MEMORY_H
#define MEMORY_H

#include <stddef.h>
#include <stdint.h>

/* Readable and writable bytes with an unreadable page on either side, the piece of them that is lent, and what they were when it was lent. */
struct lent {
    unsigned char *from, *to;
    unsigned char *at;
    size_t bytes;
    unsigned char *before;
};

/* Room for so many bytes, a multiple of the page's size at least. */
void reserve(struct lent *lent, size_t bytes);

/* The last bytes before the unreadable page, or the first after one, and filled, with what lies near them, by one byte. Where `drawn` is no null pointer, each
   eight of the lent bytes are a number that it gives. */
void lend(struct lent *lent, size_t bytes, int at_end, unsigned char fill, uint64_t (*drawn)(void));

/* The same, with bytes of the caller's in the place of the fill. */
void lend_copy(struct lent *lent, const void *bytes, size_t count, int at_end, unsigned char fill);

/* Whether the lent bytes past the first `used`, and what lies near the lent bytes, are as they were lent. */
int untouched(const struct lent *lent, size_t used);

/* Bytes that can be read and not written, at the end of readable memory. */
const void *read_only(const void *bytes, size_t count);

/* Zero bytes that can be read and not written, as many as there are. */
const void *zeros(size_t count);

#endif

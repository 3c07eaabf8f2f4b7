/* Memory to lend to a call, of exactly the size asked for. */
#ifndef LENT_H
#define LENT_H

#include <stddef.h>

/* Where it lies: on the heap; right before a page that nobody may touch; right after one. The library is compiled
 * without the sanitizers' checks, so they see of its accesses only calls of memcpy and memset. The pages stop every
 * access. */
enum place { ON_HEAP, BEFORE_PAGE, AFTER_PAGE };

/* For all that is lent from here on. */
void lend_at(enum place place);

/* So many bytes, each of them LENT. */
enum { LENT = 0xA5 };
void *lend(size_t size);

/* A copy. NULL for NULL. */
void *lend_copy(const void *from, size_t size);

/* Ends every loan. */
void take_back(void);

/* Whether the pages stop a read one byte off either end. */
int pages_stop_reads(void);

#endif

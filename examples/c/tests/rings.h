/* A guest's memory in several regions, with gaps, or behind an IOMMU's table, and a driver whose
 * chains are mostly of some use, and often wrong. For listed.c. */
#ifndef RINGS_H
#define RINGS_H
#include <pitskhomu.h>
#include <stdbool.h>

enum { PAGE = 0x1000, PAGES = 40, REGIONS = 4, NOWHERE = PAGES };

extern unsigned long world; /* the number of this memory */
extern struct pk_region regions[REGIONS];
extern size_t region_count;
extern bool has_iommu;
extern unsigned mapped[PAGES]; /* the guest's page of an I/O page, or NOWHERE */

/* Ends the test, unless the numbers are the same. */
void expect(const char *what, uint64_t found, uint64_t wanted);

/* Memory that ends at a page which can't be read. Returns its end. */
uint8_t *guarded(size_t len);

/* Other regions than before, with nothing but zeros. */
void lay_regions(void);

/* Whether the device may load or store these bytes: they lie in one region. */
bool is_mapped(uintptr_t at, size_t len);

/* Puts a number at an address of the driver, as far as memory is there. */
void put(uint64_t at, uint64_t value, size_t len);

/* Indirect tables, and a new share of entries that end a chain. */
void lay_tables(void);

/* The driver makes more chains available in a queue. Sometimes it is wrong. */
void offer(const struct pk_queue *queue);

/* The guest writes over rings and buffers. */
void scribble(const struct pk_queue *queue);

#endif

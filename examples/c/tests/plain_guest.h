/* A guest's memory, byte by byte, and a driver, for plain.c. Each byte of the device's addresses is
 * looked up by itself: through pages of an IOMMU, if there is one, and through regions. */
#ifndef PLAIN_GUEST_H
#define PLAIN_GUEST_H
#include <pitskhomu.h>
#include <stdbool.h>

enum { PAGE = 0x1000, PAGES = 40, REGIONS = 40, IO_PAGES = 48, LONGEST = 32 };
enum { READS = PK_ACCESS_READ, WRITES = PK_ACCESS_WRITE };

/* A descriptor that joins a chain. */
struct part {
    uint64_t at;
    uint32_t len;
    bool is_written;
};

extern unsigned long world; /* the number of this memory */
extern struct pk_device device;
extern struct pk_region regions[REGIONS];
extern size_t region_count;
extern bool has_iommu;
extern bool is_lent;  /* the IOMMU's table: else it maps nothing */
extern uint64_t base; /* of the device's addresses: the guest's, or I/O addresses */

/* Ends the test, unless the numbers are the same. */
void expect(const char *what, uint64_t found, uint64_t wanted);

/* Other regions than before, which hold zeros, and no mapping. */
void lay_memory(void);

/* What a mapping does: an access, or that there is none (`is_there` is false). */
void map_page(uint64_t page, bool is_there, uint64_t guest, uint32_t access);

/* A guest address in a page of the regions, or in a gap. */
uint64_t guest_page(uint64_t page);

/* The host's byte at an address of the device, or NULL. */
uint8_t *place(uint64_t at, uint32_t access);

/* Whether the device reaches all bytes, whose end is an address. */
bool reaches(uint64_t at, uint64_t len, uint32_t access);

/* The first addresses among these that have no mapping; false if there are none, or if one of the
 * bytes is in the last page, which nobody can map. */
bool misses(uint64_t at, uint64_t len, uint64_t *miss_at, uint64_t *miss_len);

/* How many bytes of the region or of the page of I/O addresses follow from a byte on. */
uint64_t left_at(uint64_t at);

/* The number at an address that the device reads. */
uint64_t number_at(uint64_t at, size_t len);

/* Puts a number at an address, as far as memory is there. */
void put(uint64_t at, uint64_t value, size_t len);

/* An address of the device: mostly in a page that is there, often at its end. */
uint64_t some_address(uint64_t len);

/* The driver makes chains available in a queue, from a position on. Sometimes it is wrong. */
void offer(const struct pk_queue *queue);

#endif

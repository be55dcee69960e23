/* Compiled by tools/archive, and added to the library's archive. The library in Rattle keeps no
 * state of the process, so this gives numbers: a new handle its first ticket, and each queue that
 * is reset its `reset_count`. */
#include <pitskhomu.h>

/* The library's functions. Tickets begin at 1 there, and `reset_count` grows by 1. */
uint32_t pk_chain_set_memory_unnumbered(struct pk_chain *chain, const struct pk_device *device,
                                        const struct pk_region *regions, size_t region_count);
uint32_t pk_queue_begin_unnumbered(struct pk_queue *queue, uint16_t next_avail);
uint32_t pk_restore_unnumbered(struct pk_device *device, struct pk_queue *queues,
                               size_t queue_count, const uint8_t *saved, size_t saved_len,
                               size_t *count);

/* How many were given in this process. They are apart, so that a guest's resets bring no tickets
 * nearer. */
static uint32_t handles, resets;

/* The next number, which isn't 0. Of 2^32 - 1 successive ones no two are equal. Of n successive
 * ones, n up to 10,000, no two are nearer than 2^32 / (3 * n), since the factor is 2^32 by the
 * golden ratio. */
static uint32_t next_of(uint32_t *given) {
    uint32_t next;
    do
        next = __atomic_add_fetch(given, 1, __ATOMIC_RELAXED) * 2654435769u;
    while (next == 0);
    return next;
}

uint32_t pk_chain_set_memory(struct pk_chain *chain, const struct pk_device *device,
                             const struct pk_region *regions, size_t region_count) {
    int is_new = pk_chain_state(chain) == PK_STATE_NONE;
    uint32_t status = pk_chain_set_memory_unnumbered(chain, device, regions, region_count);
    if (is_new && status == PK_DONE) status = pk_chain_set_ticket(chain, next_of(&handles));
    return status;
}

uint32_t pk_queue_begin(struct pk_queue *queue, uint16_t next_avail) {
    uint32_t status = pk_queue_begin_unnumbered(queue, next_avail);
    if (status == PK_DONE) queue->reset_count = next_of(&resets);
    return status;
}

uint32_t pk_restore(struct pk_device *device, struct pk_queue *queues, size_t queue_count,
                    const uint8_t *saved, size_t saved_len, size_t *count) {
    uint32_t status =
        pk_restore_unnumbered(device, queues, queue_count, saved, saved_len, count);
    for (size_t k = 0; status == PK_DONE && k < *count; k++)
        queues[k].reset_count = next_of(&resets);
    return status;
}

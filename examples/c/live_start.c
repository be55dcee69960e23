/* Starts and stops the threads of live.c. */
#include "live.h"
#include <errno.h>
#include <stdlib.h>
#include <string.h>
#include <unistd.h>

enum { PAGE_SIZE = 4096, LIMIT = PK_REQUEST_MAX };

struct pk_device live_device(uint64_t options) {
    return (struct pk_device){PAGE_SIZE, LIMIT, options};
}

void live_signal(int event) {
    uint64_t one = 1;
    if (write(event, &one, sizeof one) < 0) return; /* a full counter wakes as well */
}

static int start_worker(struct live *live, size_t region_count) {
    struct worker *worker = &live->workers[live->count];
    struct pk_device device = live_device(0);
    int error = EINVAL;
    *worker = (struct worker){.live = live, .request = malloc(PK_REQUEST_MAX)};
    if (!worker->request) return ENOMEM;
    if (pk_chain_set_memory(&worker->chain, &device, live->regions, region_count) == PK_DONE)
        error = pthread_create(&worker->thread, NULL, live_work, worker);
    if (error) {
        pk_chain_free(&worker->chain);
        free(worker->request);
    } else {
        live->count++;
    }
    return error;
}

int live_start(struct live *live, const struct pk_region *regions, size_t region_count,
               size_t thread_count) {
    live->stops = false;
    live->workers = calloc(thread_count, sizeof *live->workers);
    live->regions = calloc(region_count, sizeof *regions);
    live->queue.max_in_flight =
        thread_count < live->queue.size ? (uint16_t)thread_count : live->queue.size;
    pk_turns_begin(&live->turns, live->queue.event_index);
    int error = pthread_mutex_init(&live->lock, NULL);
    if (!error && !(live->workers && live->regions)) error = ENOMEM;
    if (!error && pk_queue_begin(&live->queue, live->queue.next_avail) != PK_DONE) error = EINVAL;
    if (!error) {
        memcpy(live->regions, regions, region_count * sizeof *regions);
        pk_ring_find(&live->ring, &live->queue, live->regions, region_count);
    }
    for (size_t k = 0; !error && k < thread_count; k++) error = start_worker(live, region_count);
    if (error) live_stop(live);
    return error;
}

uint32_t live_refusal(struct live *live) {
    pthread_mutex_lock(&live->lock);
    uint32_t refused = live->refused;
    pthread_mutex_unlock(&live->lock);
    return refused;
}

void live_stop(struct live *live) {
    pthread_mutex_lock(&live->lock);
    live->stops = true;
    pthread_mutex_unlock(&live->lock);
    live_signal(live->kick); /* a thread that ends wakes the next one */
    for (size_t k = 0; k < live->count; k++) {
        pthread_join(live->workers[k].thread, NULL);
        pk_chain_free(&live->workers[k].chain);
        free(live->workers[k].request);
    }
    free(live->workers);
    free(live->regions);
    live->workers = NULL;
    live->regions = NULL;
    live->count = 0;
}

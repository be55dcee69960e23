/* What VIRTIO 1.2, 2.7, says of a pop, plainly, for plain.c. */
#ifndef PLAIN_MODEL_H
#define PLAIN_MODEL_H
#include "plain_guest.h"

/* A handle, and what the model knows of its chain. */
struct bench {
    struct pk_chain chain;
    struct pk_queue *queue; /* NULL: no chain is in flight */
    struct part parts[LONGEST];
    size_t count;                   /* of the parts that were read */
    uint64_t request, room;         /* bytes */
    uint32_t fault, ticket, popped; /* the queue's pop_count then */
    uint16_t head, position;
    uint8_t *used_index;
    bool replied, pushing, has_ticket;
    uint64_t len;              /* of the reply */
    uint64_t table, table_len; /* the indirect table, if the walk came to one */
};

enum { QUEUES = 2, CHAINS = 3 };
extern struct pk_queue queues[QUEUES];
extern struct bench benches[CHAINS];
extern struct pk_iotlb table;

/* A pop by the model: a status, and what it tells. */
struct told {
    uint32_t status, access;
    uint64_t miss_at, miss_len;
};

uint64_t used_event(const struct pk_queue *q);
uint64_t avail_event(const struct pk_queue *q);
uint16_t in_flight(const struct pk_queue *q);

/* The address of the used ring's element at a position. */
uint64_t element(const struct pk_queue *q, uint16_t at);

/* What a pop of a queue by a free handle tells. A chain is kept in the bench. */
struct told model_pop(struct bench *b, const struct pk_queue *q);

/* Each chain takes the next ticket, modulo 2^32. A faulty one doesn't tell it. */
void check_ticket(struct bench *b, uint32_t ticket);

/* While one handle has the table, no other gets one, and the place has none. */
void lend_once(const struct bench *b);

/* A pop by the library. `again`: it was interrupted, and has to begin again. */
uint32_t pop(struct bench *b, struct pk_queue *q, struct pk_pop_result *step, bool *again);

#endif

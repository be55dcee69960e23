#include "plain_model.h"

enum { NEXT = 1, WRITE = 2, INDIRECT = 4 };

uint64_t used_event(const struct pk_queue *q) { return q->avail + 4 + 2 * (uint64_t)q->size; }
uint64_t avail_event(const struct pk_queue *q) { return q->used + 4 + 8 * (uint64_t)q->size; }
uint16_t in_flight(const struct pk_queue *q) { return (uint16_t)(q->next_avail - q->next_used); }
uint64_t element(const struct pk_queue *q, uint16_t at) {
    return q->used + 4 + 8 * (uint64_t)(at % q->size);
}

/* Whether bytes can't be had: a miss, or else a refusal. */
static bool lacks(uint64_t at, uint64_t len, uint32_t access, uint32_t refusal, struct told *told) {
    if (reaches(at, len, access)) return false;
    told->status = misses(at, len, &told->miss_at, &told->miss_len) ? PK_MISS : refusal;
    told->access = told->status == PK_MISS ? access : 0;
    return true;
}

/* The same of several fields: the first refusal counts, unless one of them all is missing. */
struct field {
    uint64_t at, len;
    uint32_t access, refusal;
};
static bool lacks_one(const struct field *fields, size_t count, struct told *told) {
    struct told other;
    told->status = 0;
    for (size_t k = 0; k < count; k++) {
        const struct field *f = &fields[k];
        if (!lacks(f->at, f->len, f->access, f->refusal, &other)) continue;
        if (other.status == PK_MISS || told->status == 0) *told = other;
        if (other.status == PK_MISS) break;
    }
    return told->status != 0;
}

/* Reads the entry of a table. Returns a fault, or tells of a miss or a refusal. */
static uint32_t read_entry(uint64_t at, bool inside, struct part *part, uint64_t *more,
                           struct told *told) {
    if (lacks(at, 16, READS, PK_DESCRIPTOR_UNREACHABLE, told)) {
        if (told->status == PK_MISS || !inside) return 0;
        told->status = 0;
        return PK_FAULT_TABLE_UNREACHABLE;
    }
    part->at = number_at(at, 8);
    part->len = (uint32_t)number_at(at + 8, 4);
    more[0] = number_at(at + 12, 2);
    more[1] = number_at(at + 14, 2);
    part->is_written = more[0] & WRITE;
    return 0;
}

/* Whether a descriptor may name a table (2.7.5.3). */
static uint32_t table_fault(const struct part *part, uint64_t flags, bool inside) {
    if (flags & NEXT) return PK_FAULT_INDIRECT_WITH_NEXT;
    if (inside) return PK_FAULT_INDIRECT_NESTED;
    if (part->len == 0 || part->len % 16) return PK_FAULT_INDIRECT_LENGTH;
    return part->len > UINT64_MAX - part->at ? PK_FAULT_ADDRESS_OVERFLOW : 0;
}

/* Walks the chain of a head (2.7.5). Returns its fault, or tells of a miss or a refusal. */
static uint32_t walk(struct bench *b, const struct pk_queue *q, struct told *told) {
    uint64_t at = q->desc, of = q->size, index = b->head, more[2] = {0};
    bool inside = false;
    b->table_len = 0;
    for (b->count = 0;;) {
        struct part part;
        if (index >= of) return PK_FAULT_NEXT_OUT_OF_TABLE;
        uint32_t fault = read_entry(at + 16 * index, inside, &part, more, told);
        if (fault || told->status) return fault;
        if (more[0] & INDIRECT) {
            if ((fault = table_fault(&part, more[0], inside))) return fault;
            at = b->table = part.at, of = part.len / 16, index = 0, inside = true;
            b->table_len = part.len;
            continue;
        }
        if (b->count == q->size) return PK_FAULT_TOO_LONG;
        if (part.len > UINT64_MAX - part.at) return PK_FAULT_ADDRESS_OVERFLOW;
        b->parts[b->count++] = part;
        if (!(more[0] & NEXT)) return 0;
        index = more[1];
    }
}

/* The bytes of one direction. */
static uint64_t total(const struct bench *b, bool is_written) {
    uint64_t sum = 0;
    for (size_t k = 0; k < b->count; k++)
        if (b->parts[k].is_written == is_written) sum += b->parts[k].len;
    return sum;
}

/* The fault of a chain's buffers. *told gets a miss, the request's before the reply buffer's. */
static uint32_t buffers_fault(const struct bench *b, struct told *told) {
    uint32_t fault = 0;
    if (total(b, false) > device.limit || total(b, true) > device.limit) return PK_FAULT_OVER_LIMIT;
    for (int is_written = 0; is_written < 2; is_written++)
        for (size_t k = 0; k < b->count; k++) {
            const struct part *p = &b->parts[k];
            struct told other;
            if (p->is_written != is_written) continue;
            if (p->len == 0 || !lacks(p->at, p->len, is_written ? WRITES : READS, 1, &other))
                continue;
            if (other.status == PK_MISS) return *told = other, 0;
            if (!fault)
                fault = is_written ? PK_FAULT_ROOM_UNREACHABLE : PK_FAULT_REQUEST_UNREACHABLE;
        }
    return fault;
}

/* The rings' part of a pop. */
static bool find_head(struct bench *b, const struct pk_queue *q, struct told *told) {
    const struct field events[] = {{used_event(q), 2, READS, PK_AVAIL_FLAGS_UNREACHABLE},
                                   {avail_event(q), 2, WRITES, PK_USED_UNREACHABLE}};
    const struct field back[] = {{element(q, q->next_avail), 8, WRITES, PK_USED_UNREACHABLE},
                                 {q->used + 2, 2, WRITES, PK_USED_UNREACHABLE},
                                 {q->avail, 2, READS, PK_AVAIL_FLAGS_UNREACHABLE}};
    uint64_t slot = q->avail + 4 + 2 * (uint64_t)(q->next_avail % q->size);
    if (q->event_index && lacks_one(events, 2, told)) return false;
    if (lacks(q->avail + 2, 2, READS, PK_AVAIL_INDEX_UNREACHABLE, told)) return false;
    uint16_t waiting = (uint16_t)(number_at(q->avail + 2, 2) - q->next_avail);
    told->status = waiting == 0 ? PK_IDLE : waiting > q->size ? PK_AVAIL_TOO_FAR : 0;
    if (told->status || lacks(slot, 2, READS, PK_RING_ENTRY_UNREACHABLE, told)) return false;
    b->head = (uint16_t)number_at(slot, 2);
    if (b->head >= q->size) return told->status = PK_HEAD_OUT_OF_TABLE, false;
    return !lacks_one(back, 3, told);
}

struct told model_pop(struct bench *b, const struct pk_queue *q) {
    struct told told = {0};
    if (in_flight(q) >= (q->max_in_flight ? q->max_in_flight : 1))
        return told.status = PK_CHAIN_IN_FLIGHT, told;
    if (q->stopped) return told.status = PK_STOPPED, told;
    b->count = 0, b->fault = 0;
    if (!find_head(b, q, &told)) return told;
    b->fault = walk(b, q, &told);
    if (told.status == 0 && b->fault == 0) b->fault = buffers_fault(b, &told);
    b->request = b->fault ? 0 : total(b, false);
    b->room = b->fault ? 0 : total(b, true);
    if (b->fault) b->count = 0;
    return told;
}

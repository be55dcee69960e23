#include "answers.h"
#include "driver.h"
#include <sched.h>
#include <string.h>

enum { DATA_LEN = 4096, PERMISSION = 1 };

static const struct pk_entry entry = {
    .node = 2, .entry_secs = 1, .attr = {.ino = 2, .mode = 0100644, .nlink = 1}};

/* Names and values lie in the loaded bytes of the request, over which the guest can't write. */
static void look_at(const struct pk_call *call, const uint8_t *request) {
    const struct pk_span *names[] = {&call->name, &call->name2};
    for (size_t k = 0; k < 2; k++) {
        const uint8_t *name = request + names[k]->at;
        if (names[k]->len && (memchr(name, 0, names[k]->len) || name[names[k]->len]))
            die("a name has another end");
    }
}

static uint32_t reply_data(struct pk_chain *chain, const struct pk_call *call) {
    static const uint8_t data[DATA_LEN];
    uint64_t len = call->data_len < DATA_LEN ? call->data_len : DATA_LEN;
    if (call->kind == PK_CALL_READ && len > call->size) len = call->size;
    scatter(chain, call->data_at, data, len);
    return pk_reply_data(chain, call->ticket, len);
}

/* The data of a WRITE is copied out. */
static uint32_t reply_write(struct pk_chain *chain, const struct pk_call *call) {
    uint8_t data[DATA_LEN];
    uint64_t len = call->data_len < DATA_LEN ? call->data_len : DATA_LEN;
    if (call->kind != PK_CALL_WRITE) return pk_reply_write(chain, call->ticket, 0);
    gather(chain, call->data_at, data, len);
    return pk_reply_write(chain, call->ticket, (uint32_t)len);
}

static uint32_t reply_entries(struct pk_chain *chain, const struct pk_call *call) {
    uint8_t list[DATA_LEN];
    uint64_t len;
    const uint8_t *name = (const uint8_t *)"an entry";
    uint32_t status = PK_DONE;
    for (uint64_t k = 1; k < 20 && status == PK_DONE; k++)
        status =
            call->kind == PK_CALL_READDIR
                ? pk_add_direntry(chain, call->ticket, list, sizeof list, name, 8, 2, k, 8)
                : pk_add_direntry_plus(chain, call->ticket, list, sizeof list, name, 8, &entry, k);
    status = pk_reply_entries(chain, call->ticket, &len);
    if (status == PK_DONE) scatter(chain, call->data_at, list, len);
    return status;
}

uint32_t answer_some(void *files, struct pk_chain *chain, struct pk_device *device,
                     const struct pk_call *call, const uint8_t *request) {
    static const struct pk_statfs statfs = {.blocks = 1, .bsize = 4096};
    struct answers *answers = files;
    look_at(call, request);
    if (answers->yields && answers->calls++ % 16 == 0) sched_yield();
    switch (call->answer) {
    case PK_ANSWER_NONE: return PK_DONE;
    case PK_ANSWER_ENTRY: return pk_reply_entry(chain, call->ticket, &entry);
    case PK_ANSWER_ATTR: return pk_reply_attr(chain, call->ticket, &entry.attr, 1, 0);
    case PK_ANSWER_OPEN: return pk_reply_open(chain, call->ticket, 1, 0);
    case PK_ANSWER_CREATE: return pk_reply_create(chain, call->ticket, &entry, 1, 0);
    case PK_ANSWER_DATA: return reply_data(chain, call);
    case PK_ANSWER_XATTR: return pk_reply_xattr(chain, call->ticket, 5);
    case PK_ANSWER_STATFS: return pk_reply_statfs(chain, call->ticket, &statfs);
    case PK_ANSWER_WRITE: return reply_write(chain, call);
    case PK_ANSWER_LSEEK: return pk_reply_lseek(chain, call->ticket, 5);
    case PK_ANSWER_ENTRIES: return reply_entries(chain, call);
    case PK_ANSWER_INIT: return pk_reply_init(chain, call->ticket, device, call->options);
    default:
        return pk_reply_err(chain, call->ticket,
                            call->kind == PK_CALL_DESTROY || call->node % 2 ? 0 : PERMISSION);
    }
}

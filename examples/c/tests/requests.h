/* The parts of `requests`: the reader of the files, the file system, and the chains. */
#ifndef REQUESTS_H
#define REQUESTS_H
#include "../access.h"

enum { NAME = 32, ROWS = 64, TEXT = 0x1000, ROOM = 0x102000, MEMORY = 0x8000 + 2 * ROOM };

struct bytes {
    size_t len, capacity;
    uint8_t *at;
};

/* The file system's answers. */
enum mood { DEFAULT, GOOD, OTHER, NO_NODE, WIDE, WIDE_FAILING, FAILING, MOODS };

enum variant { SAME, SHORT_REQUEST, SHORT_BUFFER, FAILS, LACKS, VARIANTS };
extern const char *const variants[VARIANTS];

/* A request, and the lines of its calls and of its end. */
struct row {
    unsigned line;
    struct bytes request, reply;
    enum mood mood;
    size_t buffer;
    char calls[TEXT], fault[NAME]; /* the fault's name without its numbers, or nothing */
    bool has_agreed;
    uint64_t agreed;
};

/* The group that is read. */
struct group {
    uint64_t options;
    uint32_t page_size; /* or 0: 4096 */
    bool has[VARIANTS];
    size_t count;
    struct row rows[ROWS];
};
extern struct group group;
extern const char *file;
extern unsigned line;

/* Reports that a file or a call is wrong, and ends the program. */
_Noreturn void stop(const char *format, ...);

void append(struct bytes *to, const uint8_t *bytes, size_t len);

/* The byte of the large file at an offset. */
uint8_t pattern(uint64_t offset);

/* Reads a file, and plays its groups. */
void play_file(const char *path);

/* Plays the group that was read, and begins the next. */
void play_group(void);

extern uint8_t memory[MEMORY]; /* the guest's, from its address 0 on */
extern struct pk_device device;
extern struct pk_chain chain;
extern uint8_t request[PK_REQUEST_MAX];
extern enum mood mood;
extern char calls[TEXT];
extern const char *fault;

/* Makes a call, prints it to `calls`, and answers it. */
void perform(const struct pk_call *c);

#endif

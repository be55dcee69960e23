/* Reads files of vectors/requests (vectors/README.md has their format). */
#include "requests.h"
#include <errno.h>
#include <stdarg.h>
#include <stdio.h>
#include <stdlib.h>
#include <string.h>

enum { LETS = 32 };
static const char *const moods[MOODS] = {"default", "good",         "other",  "no_node",
                                         "wide",    "wide_failing", "failing"};
const char *const variants[VARIANTS] = {"as it is written", "short_request", "short_buffer",
                                        "failing", "default"};

struct group group;
static struct {
    char name[NAME];
    struct bytes bytes;
} lets[LETS];
static size_t let_count;
const char *file;
unsigned line;

_Noreturn void stop(const char *format, ...) {
    va_list args;
    va_start(args, format);
    fputs("requests: ", stderr);
    vfprintf(stderr, format, args);
    fputc('\n', stderr);
    va_end(args);
    exit(2);
}

void append(struct bytes *to, const uint8_t *bytes, size_t len) {
    if (len > to->capacity - to->len) {
        to->capacity = 2 * to->capacity + len;
        to->at = realloc(to->at, to->capacity);
        if (!to->at) stop("%s:%u: out of memory", file, line);
    }
    memcpy(to->at + to->len, bytes, len), to->len += len;
}

uint8_t pattern(uint64_t offset) { return (uint8_t)((uint32_t)offset * 0x9e3779b1u >> 24); }

/* `@OFFSET:COUNT`: bytes of the large file. */
static void spell_pattern(struct bytes *to, const char *word) {
    unsigned long long offset, count;
    if (sscanf(word, "@%llu:%llu", &offset, &count) != 2)
        stop("%s:%u: no offset and count: %s", file, line, word);
    for (; count > 0; count--, offset++) append(to, &(uint8_t){pattern(offset)}, 1);
}

/* Digits, or digits and how often their bytes are repeated: `HEX*N`. */
static void spell_digits(struct bytes *to, const char *word) {
    const char *star = strchr(word, '*'), *end = star ? star : word + strlen(word);
    for (unsigned long count = star ? strtoul(star + 1, NULL, 10) : 1; count > 0; count--)
        for (const char *at = word; at < end; at += 2) {
            unsigned byte;
            if (strspn(at, "0123456789abcdef") < 2 || sscanf(at, "%2x", &byte) != 1)
                stop("%s:%u: no digits: %s", file, line, word);
            append(to, &(uint8_t){(uint8_t)byte}, 1);
        }
}

static void spell_word(struct bytes *to, const char *word) {
    for (size_t k = 0; k < let_count; k++)
        if (!strcmp(lets[k].name, word)) {
            append(to, lets[k].bytes.at, lets[k].bytes.len);
            return;
        }
    if (*word == '@')
        spell_pattern(to, word);
    else
        spell_digits(to, word);
}

static void spell(struct bytes *to, char *words) {
    for (char *word = strtok(words, " "); word; word = strtok(NULL, " ")) spell_word(to, word);
}

static enum mood mood_of(const char *word) {
    for (enum mood m = DEFAULT; m < FAILING; m++)
        if (!strcmp(moods[m], word)) return m;
    stop("%s:%u: no such answers: %s", file, line, word);
}

static void read_variants(char *words) {
    for (char *word = strtok(words, " "); word; word = strtok(NULL, " ")) {
        enum variant v = SHORT_REQUEST;
        while (v < VARIANTS && strcmp(variants[v], word)) v++;
        if (v == VARIANTS) stop("%s:%u: no such variant: %s", file, line, word);
        group.has[v] = true;
    }
}

static void read_row_line(struct row *row, const char *key, char *words) {
    size_t len = strlen(row->calls);
    if (!strcmp(key, "files"))
        row->mood = mood_of(words);
    else if (!strcmp(key, "buffer"))
        row->buffer = strtoul(words, NULL, 0);
    else if (!strcmp(key, "call"))
        snprintf(row->calls + len, TEXT - len, "%s\n", words);
    else if (!strcmp(key, "reply"))
        spell(&row->reply, words);
    else if (!strcmp(key, "fault"))
        sscanf(words, "%31s", row->fault);
    else if (!strcmp(key, "agreed"))
        row->has_agreed = true, row->agreed = strtoull(words, NULL, 0);
    else if (strcmp(key, "silent"))
        stop("%s:%u: no such line: %s", file, line, key);
}

static void read_let(char *words) {
    char *name = strtok(words, " ");
    if (let_count == LETS || !name) stop("%s:%u: too many names", file, line);
    snprintf(lets[let_count].name, NAME, "%s", name);
    lets[let_count].bytes = (struct bytes){0};
    for (char *word; (word = strtok(NULL, " "));) spell_word(&lets[let_count].bytes, word);
    let_count++;
}

/* A whole line, with those that continue it. */
static void read_line(char *text) {
    char *words = strchr(text, ' ');
    const char *key = text;
    words = words ? (*words = 0, words + 1) : text + strlen(text);
    if (!*key || *key == '#') return;
    if (!strcmp(key, "let"))
        read_let(words);
    else if (!strcmp(key, "group"))
        play_group();
    else if (!strcmp(key, "options"))
        group.options = strtoull(words, NULL, 0);
    else if (!strcmp(key, "pages"))
        group.page_size = (uint32_t)strtoul(words, NULL, 0);
    else if (!strcmp(key, "variants"))
        read_variants(words);
    else if (strcmp(key, "request") == 0) {
        if (group.count == ROWS) stop("%s:%u: too many requests", file, line);
        struct row *row = &group.rows[group.count++];
        *row = (struct row){.line = line};
        spell(&row->request, words);
    } else if (group.count > 0)
        read_row_line(&group.rows[group.count - 1], key, words);
    else
        stop("%s:%u: a line before a request: %s", file, line, key);
}

void play_file(const char *path) {
    static char text[0x10000];
    char next[0x400];
    FILE *stream = fopen(path, "r");
    if (!stream) stop("%s: %s", path, strerror(errno));
    file = path, line = 1, *text = 0;
    while (let_count > 0) free(lets[--let_count].bytes.at);
    for (unsigned number = 1; fgets(next, sizeof next, stream); number++) {
        next[strcspn(next, "\n")] = 0;
        if (strncmp(next, "  ", 2) == 0 && strlen(text) + strlen(next) < sizeof text) {
            strcat(text, next + 1);
            continue;
        }
        read_line(text);
        line = number, strcpy(text, next);
    }
    read_line(text);
    play_group();
    fclose(stream);
}

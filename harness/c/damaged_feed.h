// Feeds for feed_damage.c and feed_runs.c: random bytes, and good feeds with bytes changed, cut or inserted; and what the rules of the
// feed (docs/RULES.md) settle of a feed's text without a residual: which lines there are, and the refusal or the number of blocks.
#include <ctype.h>
#include <stdint.h>
#include <stdio.h>
#include <stdlib.h>
#include <string.h>

static uint64_t state;
static unsigned char feed[65536];
static size_t length;

static uint32_t below(uint32_t n) {
    state = state * 6364136223846793005u + 1442695040888963407u;
    return (uint32_t)(state >> 33) % n;
}

static void put(unsigned byte) { feed[length++] = (unsigned char)byte; }

static unsigned size_of(unsigned kind) { return kind >= 4 && kind <= 7 ? 1u << (kind - 2) : 0; }

static size_t body_of(unsigned kind) {
    unsigned n = size_of(kind);
    return n ? (size_t)4 * n * n : kind == 1 ? 4 : kind == 2 ? 65 : kind == 8 ? 6 : 0;
}

// what the records before have left: the mode, or 3 where no parameters came; the size of the block that edits change, or 0; the
// entries of the list in force with its DC number behind them, or none
struct held {
    unsigned mode, size;
    uint64_t blocks;
    const unsigned char *list;
};

static void take(struct held *held, const unsigned char *record) {
    unsigned kind = record[0];
    if (kind >= 8) return;
    if (kind == 1) held->mode = record[4];
    if (kind == 2 || kind == 3) held->list = kind == 2 ? record + 1 : NULL;
    held->size = held->mode == 2 ? 0 : size_of(kind);
    held->blocks += size_of(kind) != 0;
}

// ---- feeds
static void put_level(void) {
    uint32_t level = below(3) ? 0 : below(9) ? below(200) - 100 : (uint32_t)(state >> 20);
    for (int k = 0; k < 4; k++) put(level >> 8 * k & 255);
}

static void put_record(unsigned kind, unsigned held) {
    size_t cells = (size_t)size_of(kind) * size_of(kind);
    put(kind);
    if (kind == 1) { put(8 + below(9)); put(below(2)); put(below(100)); put(below(2) ? 0 : below(3)); }
    if (kind == 2) for (int k = 0; k < 65; k++) put(below(256));
    if (kind == 8) { put(below(held)); put(below(held)); put_level(); }
    while (cells--) put_level();
}

// one good feed in eight has blocks above size 8; while a block is held, most records are edits and readings, and else one in 16 is, to be refused
static void make_good(void) {
    unsigned records = 1 + below(12), kinds = below(8) ? 2 : 4;
    struct held held = { 3, 0, 0, NULL };
    length = 0;
    for (unsigned i = 0; i < records; i++) {
        unsigned kind = i == 0 ? 1 : (held.size ? below(4) : !below(16)) ? 8 + below(2) : 1 + below(3 + kinds);
        size_t at = length;
        if (held.mode == 1 && kind > 4 && kind < 8) kind = 4;
        put_record(kind, held.size ? held.size : 4);
        take(&held, feed + at);
    }
}

static void damage(void) {
    size_t at = below((uint32_t)length);
    switch (below(4)) {
    case 0: feed[at] = (unsigned char)below(256); break;
    case 1: length = at; break;
    case 2: memmove(feed + at, feed + at + 1, length - at - 1); length--; break;
    default: memmove(feed + at + 1, feed + at, length - at); feed[at] = (unsigned char)below(256); length++;
    }
}

static void make(void) {
    unsigned way = below(8);
    if (way > 1) {
        make_good();
        if (way > 2) damage();
        return;
    }
    length = below(300);
    for (size_t i = 0; i < length; i++) feed[i] = (unsigned char)below(below(2) ? 11 : 256);
}

// ---- texts
static unsigned refusal(struct held held, const unsigned char *record, size_t left) {
    unsigned kind = record[0];
    if (kind == 0 || kind > 9) return 20;
    if (left <= body_of(kind)) return 21;
    if (kind == 1) return record[1] < 8 || record[1] > 16 ? 2 : record[2] > 1 || record[4] > 2 ? 23 : 0;
    if (size_of(kind)) return held.mode == 3 ? 22 : held.mode == 1 && kind != 4 ? 4 : 0;
    if (kind >= 8 && !held.size) return 24;
    return kind == 8 && (record[1] >= held.size || record[2] >= held.size) ? 8 : 0;
}

// a decimal number at `*at` without needless zeros, followed by `end`
static int number(const char **at, int64_t low, int64_t high, char end) {
    const char *p = *at;
    char *stop;
    int64_t value = strtoll(p, &stop, 10);
    if (!isdigit((unsigned char)p[*p == '-']) || (p[*p == '-'] == '0' && stop != p + 1) || *stop != end) return 0;
    *at = stop + 1;
    return low <= value && value <= high;
}

static int has_rows(const char **at, unsigned n) {
    for (unsigned i = 0; i < n * n; i++)
        if (!number(at, INT32_MIN, INT32_MAX, i % n + 1 < n ? ' ' : '\n')) return 0;
    return 1;
}

static int has_count(const char **at, const char *word, unsigned high) {
    size_t letters = strlen(word);
    if (strncmp(*at, word, letters)) return 0;
    *at += letters;
    return number(at, 0, high, '\n');
}

// whether a text has the lines of the feed: rows and `limited` for levels, rows and `columns` for a reading, then the last line
static int has_lines(const char *p) {
    struct held held = { 3, 0, 0, NULL };
    char last[64];
    size_t at = 0;
    unsigned why = 0;
    while (at < length && !(why = refusal(held, feed + at, length - at))) {
        unsigned kind = feed[at], n = size_of(kind);
        take(&held, feed + at);
        at += 1 + body_of(kind);
        if (n && !(has_rows(&p, n) && has_count(&p, "limited ", n * n))) return 0;
        if (kind == 9 && !(has_rows(&p, held.size) && has_count(&p, "columns ", held.size))) return 0;
    }
    if (why) snprintf(last, sizeof last, "refused %u %zu\n", why, at);
    else snprintf(last, sizeof last, "blocks %llu\n", (unsigned long long)held.blocks);
    return !strcmp(p, last);
}

static void fail(const char *why, uint64_t run) {
    printf("run %llu: %s; the feed:", (unsigned long long)run, why);
    for (size_t i = 0; i < length; i++) printf(" %02x", feed[i]);
    printf("\n");
    exit(1);
}

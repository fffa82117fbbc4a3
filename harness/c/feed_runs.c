// feed_runs COUNT [SEED]: runs `residual_feed_run` and `residual_listing_run` of the archive on COUNT feeds in this process: random
// bytes, and good feeds with bytes changed, cut or inserted. Stops with the feed's bytes at the first whose text does not have the lines
// of its feed or whose listing is not that of the rules, which takes more room than `residual_feed_room` or `residual_listing_room`
// says, or which writes past its text; or where a buffer one byte short is accepted or written to.
#include <residual.h>

#include "damaged_feed.h"

enum { BEHIND = 64, LENT = 0xa5 };

static size_t most;
static char *text;

// makes room for a text and what stands behind it, all of it as lent
static void lend(size_t room) {
    if (room + BEHIND > most) {
        most = 2 * (room + BEHIND);
        free(text);
        text = malloc(most);
        if (!text) { fprintf(stderr, "feed_runs: no memory for %zu bytes of text\n", most); exit(2); }
    }
    memset(text, LENT, room + BEHIND);
}

static int is_lent(size_t from, size_t to) {
    while (from < to && (unsigned char)text[from] == LENT) from++;
    return from == to;
}

// ---- the listing by the rules of docs/RULES.md: the line of one index of a block
static void put_factor(char *line, size_t room, struct held held, unsigned n, unsigned i) {
    unsigned each = n / 8, place = n <= 8 ? i : i / n / each * 8 + i % n / each;
    if (!held.list) snprintf(line, room, "%u 16 none -\n", i);
    else if (held.mode == 2 && n > 4) snprintf(line, room, "%u 16 skip -\n", i);
    else if (n > 8 && i == 0) snprintf(line, room, "%u %u dc -\n", i, held.list[64]);
    else snprintf(line, room, "%u %u %s %u\n", i, held.list[place], n == 4 ? "four" : n == 8 ? "eight" : "repeat", place);
}

static int has_factors(const char **at, struct held held, unsigned n) {
    char line[64];
    for (unsigned i = 0; i < n * n; i++) {
        put_factor(line, sizeof line, held, n, i);
        if (strncmp(*at, line, strlen(line))) return 0;
        *at += strlen(line);
    }
    return 1;
}

// whether a text is the listing of the feed: a line for each index of each block, then that of a refusal
static int is_listing(const char *p) {
    struct held held = { 3, 0, 0, NULL };
    char last[64] = "";
    size_t at = 0;
    unsigned why = 0;
    while (at < length && !(why = refusal(held, feed + at, length - at))) {
        unsigned n = size_of(feed[at]);
        take(&held, feed + at);
        at += 1 + body_of(feed[at]);
        if (!has_factors(&p, held, n)) return 0;
    }
    if (why) snprintf(last, sizeof last, "refused %u %zu\n", why, at);
    return !strcmp(p, last);
}

// ---- runs: one of the two calls, its room, and what its text must be
struct way {
    size_t (*room)(const uint8_t *, size_t);
    residual_ran (*run)(const uint8_t *, size_t, uint8_t *, size_t);
    int (*holds)(const char *);
    const char *wrong;
};

static const struct way text_way = { residual_feed_room, residual_feed_run, has_lines, "a text that does not have the lines of its feed" };
static const struct way listing_way = { residual_listing_room, residual_listing_run, is_listing, "a listing that is not that of its feed" };

static void run_once(const struct way *way, uint64_t run) {
    size_t room = way->room(feed, length);
    lend(room);
    residual_ran ran = way->run(feed, length, (uint8_t *)text, room);
    if (!ran.room || ran.end > room) fail("the room that is asked for is not enough", run);
    if (!is_lent(ran.end, room + BEHIND)) fail("bytes written behind the text", run);
    text[ran.end] = 0;
    if (strlen(text) != ran.end || !way->holds(text)) fail(way->wrong, run);
}

static void run_short(const struct way *way, uint64_t run) {
    size_t room = way->room(feed, length);
    lend(room);
    residual_ran ran = way->run(feed, length, (uint8_t *)text, room - 1);
    if (ran.room || ran.end) fail("a buffer one byte short is accepted", run);
    if (!is_lent(0, room + BEHIND)) fail("bytes written to a buffer one byte short", run);
}

int main(int count, char **words) {
    if (count < 2) { fprintf(stderr, "use: feed_runs COUNT [SEED]\n"); return 2; }
    uint64_t runs = strtoull(words[1], 0, 10), refused = 0, readings = 0;
    state = count > 2 ? strtoull(words[2], 0, 10) : 265;
    for (uint64_t run = 0; run < runs; run++) {
        make();
        if (run % 16 == 0) run_short(&text_way, run), run_short(&listing_way, run);
        run_once(&listing_way, run);
        run_once(&text_way, run);
        refused += strstr(text, "refused") != 0;
        readings += strstr(text, "columns") != 0;
    }
    printf("feed_runs: %llu feeds, %llu refused, %llu with readings, every text has its lines, every listing is its feed's\n", (unsigned long long)runs, (unsigned long long)refused, (unsigned long long)readings);
    return 0;
}

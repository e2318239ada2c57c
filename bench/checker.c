/* Checks a reply as document 01 says, in plain C, for the benchmark: the reply is read byte by byte, its numbers are marked in the
 * working buffer, then every clause is evaluated once, in 01's order. The table is taken as fit. */
#include <stdbool.h>
#include <stddef.h>
#include <stdint.h>
#include <string.h>

enum { STEPS = 100, LEMMAS = 100, NAMES = 64, IF = 4, ASSIGNMENT = 3, MOST_BYTES = 16777216 };

struct table {
    size_t bound;
    uint8_t word;
    size_t steps, variables;
    uint8_t process[STEPS], kind[STEPS];
    uint16_t to[STEPS], other[STEPS];
    uint8_t variable[STEPS], value[STEPS];
    size_t lemmas;
    uint8_t lengths[LEMMAS];
    int16_t items[LEMMAS * NAMES];
};

struct answer {
    bool accepted;
    uint8_t number;
    size_t place;
};

static struct answer refused(int number, size_t place) { return (struct answer){ false, (uint8_t)number, place }; }

/* ---- The reply ------------------------------------------------------------ */

struct reader {
    const char *at, *end;
    size_t line;
    uint8_t *work;               /* 0: nothing said, 1: true, 2: false */
    int total;
};

static bool next_is(const struct reader *r, char byte) { return r->at < r->end && *r->at == byte; }

static bool skip(struct reader *r, char byte) {
    if (!next_is(r, byte)) return false;
    r->at++;
    return true;
}

static bool end_line(struct reader *r) {
    if (!skip(r, '\n')) return false;
    r->line++;
    return true;
}

static bool skip_comments(struct reader *r) {
    while (next_is(r, 'c')) {
        while (r->at < r->end && *r->at != '\n') r->at++;
        if (!end_line(r)) return false;
    }
    return true;
}

static bool skip_line(struct reader *r, const char *text) {
    size_t length = strlen(text);
    if ((size_t)(r->end - r->at) < length || memcmp(r->at, text, length) != 0) return false;
    r->at += length;
    r->line++;
    return true;
}

/* A number is marked; 0 for a good one, -1 for the closing 0, else the number of the fault. */
static int read_number(struct reader *r) {
    bool negative = skip(r, '-');
    const char *start = r->at;
    int x = 0;
    while (r->at < r->end && *r->at >= '0' && *r->at <= '9') {
        if (r->at - start == 7) return 61;
        x = 10 * x + (*r->at++ - '0');
    }
    if (r->at == start || (*start == '0' && (r->at - start > 1 || negative))) return 61;
    if (x == 0) return -1;
    if (x > r->total) return 62;
    if (r->work[x - 1]) return 63;
    r->work[x - 1] = negative ? 2 : 1;
    return 0;
}

/* The lines of `v`, up to the closing 0; 0 or the number of the fault. */
static int read_values(struct reader *r) {
    for (;;) {
        if (!skip_comments(r) || !skip(r, 'v')) return 61;
        int fault = 0;
        do {
            if (!skip(r, ' ')) return 61;
            fault = read_number(r);
        } while (fault == 0 && next_is(r, ' '));
        if (fault > 0) return fault;
        if (!end_line(r)) return 61;
        if (fault < 0) return 0;
    }
}

static int read_reply(struct reader *r) {
    if (!skip_comments(r)) return 61;
    if (r->at + 16 <= r->end && memcmp(r->at, "s UNSATISFIABLE\n", 16) == 0) return 66;
    if (!skip_line(r, "s SATISFIABLE\n")) return 61;
    int fault = read_values(r);
    if (fault) return fault;
    return skip_comments(r) && r->at == r->end ? 0 : 61;
}

/* ---- The clauses ---------------------------------------------------------- */

struct walk {
    const struct table *t;
    const uint8_t *values;       /* values[x - 1] is that of number x */
    int items, own[2][STEPS], count[2], helpers[2];
    int first_turn, first_helper, first_difference;
    size_t clause;               /* the clauses found true so far */
};

static bool is_true(const struct walk *w, int literal) {
    return literal > 0 ? w->values[literal - 1] == 1 : w->values[-literal - 1] == 0;
}

/* One clause; false where it is false. */
static bool holds(struct walk *w, bool truth) {
    if (truth) w->clause++;
    return truth;
}

#define T(literal) is_true(w, literal)

static bool opening(struct walk *w, int p) {
    bool some = false;
    for (int i = 0; i < w->count[p] && !some; i++) some = T(w->own[p][i]);
    return holds(w, some);
}

static bool not_both(struct walk *w, int x, int y) { return holds(w, T(-x) || T(-y)); }

static bool exclusion(struct walk *w, int p, int t) {
    const int *own = w->own[p];
    int k = w->count[p], from = t * w->items;
    int h = w->first_helper + t * (w->helpers[0] + w->helpers[1]) + (p ? w->helpers[0] : 0), x = from + own[k - 1];
    for (; k > 4; k -= 2) {
        int q = from + own[k - 2], s = from + own[k - 3];
        if (!not_both(w, x, q) || !not_both(w, x, s) || !not_both(w, x, h)) return false;
        if (!not_both(w, q, s) || !not_both(w, q, h) || !not_both(w, s, h)) return false;
        x = -h++;
    }
    int q = k > 1 ? from + own[k - 2] : 0, s = k > 2 ? from + own[k - 3] : 0, d = k > 3 ? from + own[k - 4] : 0;
    if (q && !not_both(w, x, q)) return false;
    if (s && (!not_both(w, x, s) || !not_both(w, q, s))) return false;
    return !d || (not_both(w, x, d) && not_both(w, q, d) && not_both(w, s, d));
}

static bool turns(struct walk *w, int p, int t) {
    const struct table *j = w->t;
    int here = t * w->items, next = here + w->items, u = p ? -(w->first_turn + t) : w->first_turn + t;
    for (int i = 0; i < w->count[p]; i++) {
        int c = w->own[p][i], s = here + c, l = next + j->to[c - 1], m = next + j->other[c - 1];
        if (!holds(w, T(u) || T(-s) || T(next + c))) return false;
        if (j->kind[c - 1] != IF) {
            if (!holds(w, T(-u) || T(-s) || T(l))) return false;
            continue;
        }
        int v = here + (int)j->steps + j->variable[c - 1], test = j->value[c - 1] ? v : -v;
        if (j->to[c - 1] == c) {
            if (!holds(w, T(-u) || T(-s) || T(m)) || !holds(w, T(-u) || T(-s) || T(-test))) return false;
        } else if (j->other[c - 1] == c) {
            if (!holds(w, T(-u) || T(-s) || T(l)) || !holds(w, T(-u) || T(-s) || T(test))) return false;
        } else {
            if (!holds(w, T(-u) || T(-s) || T(-test) || T(l)) || !holds(w, T(-u) || T(-s) || T(test) || T(m))) return false;
        }
    }
    return true;
}

static bool assigns(const struct table *j, int c, int variable) {
    return j->kind[c - 1] == ASSIGNMENT && j->variable[c - 1] == variable;
}

static bool kept(struct walk *w, int variable, int value, int p, int t) {
    const struct table *j = w->t;
    int here = t * w->items, at = here + (int)j->steps + variable, u = p ? -(w->first_turn + t) : w->first_turn + t;
    bool some = T(-u) || T(value ? -at : at);
    for (int i = 0; i < w->count[p] && !some; i++)
        if (assigns(j, w->own[p][i], variable)) some = T(here + w->own[p][i]);
    return holds(w, some || T(value ? at + w->items : -at - w->items));
}

static bool variable_at(struct walk *w, int variable, int t) {
    const struct table *j = w->t;
    int here = t * w->items, after = here + w->items + (int)j->steps + variable, u = w->first_turn + t;
    for (int c = 1; c <= (int)j->steps; c++)
        if (assigns(j, c, variable)
            && !holds(w, T(j->process[c - 1] == 1 ? -u : u) || T(-(here + c)) || T(j->value[c - 1] ? after : -after)))
            return false;
    return kept(w, variable, 0, 0, t) && kept(w, variable, 0, 1, t) && kept(w, variable, 1, 0, t) && kept(w, variable, 1, 1, t);
}

static bool differences(struct walk *w, int u, int v) {
    int steps = (int)w->t->steps, items = w->items, d = w->first_difference + (v * (v - 1) / 2 + u) * items;
    for (int c = 1; c <= items; c++) {
        int x = d + c - 1, at_u = u * items + c, at_v = v * items + c;
        if (c <= steps) {
            if (!holds(w, T(-x) || T(at_u)) || !holds(w, T(-x) || T(-at_v))) return false;
        } else {
            if (!holds(w, T(-x) || T(at_u) || T(at_v)) || !holds(w, T(-x) || T(-at_u) || T(-at_v))) return false;
        }
    }
    bool some = false;
    for (int c = 0; c < items && !some; c++) some = T(d + c);
    return holds(w, some);
}

static bool lemma_at(struct walk *w, int k, int t) {
    const int16_t *items = w->t->items + k * NAMES;
    int from = t * w->items;
    bool some = false;
    for (int i = 0; i < w->t->lengths[k] && !some; i++) some = T(items[i] > 0 ? from + items[i] : -(from - items[i]));
    return holds(w, some);
}

static bool all_clauses(struct walk *w) {
    int bound = (int)w->t->bound, variables = (int)w->t->variables;
    if (!opening(w, 0) || !opening(w, 1) || !exclusion(w, 0, 0) || !exclusion(w, 1, 0)) return false;
    for (int t = 0; t < bound; t++) {
        if (!exclusion(w, 0, t + 1) || !exclusion(w, 1, t + 1) || !turns(w, 0, t) || !turns(w, 1, t)) return false;
        for (int v = 1; v <= variables; v++)
            if (!variable_at(w, v, t)) return false;
        for (int u = 0; u <= t; u++)
            if (!differences(w, u, t + 1)) return false;
    }
    for (int k = 0; k < (int)w->t->lemmas; k++)
        for (int t = 0; t <= bound; t++)
            if (!lemma_at(w, k, t)) return false;
    return true;
}

static int numbering(struct walk *w) {
    int r = (int)w->t->bound;
    for (int c = 1; c <= (int)w->t->steps; c++) {
        int p = w->t->process[c - 1] - 1;
        w->own[p][w->count[p]++] = c;
    }
    for (int p = 0; p < 2; p++) w->helpers[p] = w->count[p] <= 4 ? 0 : (w->count[p] - 3) / 2;
    w->items = (int)(w->t->steps + w->t->variables);
    w->first_turn = (r + 1) * w->items + 1;
    w->first_helper = w->first_turn + r;
    w->first_difference = w->first_helper + (r + 1) * (w->helpers[0] + w->helpers[1]);
    return w->first_difference - 1 + r * (r + 1) / 2 * w->items;
}

struct answer check_reply(struct table t, const char *reply, size_t length, uint8_t *work, size_t room) {
    struct walk w = { .t = &t, .values = work };
    int total = numbering(&w);
    if (room < (size_t)total) return refused(51, 0);
    if (length > MOST_BYTES) return refused(60, 0);
    memset(work, 0, (size_t)total);
    struct reader r = { reply, reply + length, 1, work, total };
    int fault = read_reply(&r);
    if (fault) {
        memset(work, 0, (size_t)total);
        return refused(fault, r.line);
    }
    for (int x = 0; x < total; x++) {
        if (!work[x]) {
            memset(work, 0, (size_t)total);
            return refused(64, (size_t)x + 1);
        }
        if (work[x] == 2) work[x] = 0;
    }
    if (!all_clauses(&w)) return refused(65, w.clause + 1);
    return (struct answer){ true, 0, 0 };
}

/* What reading alone takes: one look at each byte, and the library's own search for a byte that is not there. */
size_t read_bytes(const char *reply, size_t length) {
    size_t lines = 0;
    for (size_t i = 0; i < length; i++)
        if (reply[i] == '\n') lines++;
    return lines;
}

size_t find_byte(const char *reply, size_t length) {
    const char *at = memchr(reply, 255, length);
    return at ? (size_t)(at - reply) : length;
}

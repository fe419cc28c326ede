/* The fixpoint in plain C, as the yardstick: the same transform, the same stages and the same sets in two rising runs, nothing proved.
   Reads a well-formed book without days from standard input; with the words `fixpoint PLACES CAPACITY` it prints what pstable prints. */
#include <stdbool.h>
#include <stdint.h>
#include <stdio.h>
#include <stdlib.h>
#include <string.h>

enum { MOST_BYTES = 4096, MOST_RULES = 1120, MOST_WORDS = 65536, RUN = 256, NONE = 64 };

/* the transformed program, and the working slices with their room */
static uint64_t heads[MOST_RULES], bodies[MOST_RULES], slices[2][MOST_WORDS];
static size_t rules, room;
static char text[MOST_BYTES + 1];

static bool subset(uint64_t a, uint64_t b) { return (a & b) == a; }
static uint64_t lowest(uint64_t s) { return s & -s; }

/* ---- the book, transformed: m literals, K of each, then the stand-ins of the clauses with a not-part */
static void push(uint64_t head, uint64_t body) { heads[rules] = head, bodies[rules++] = body; }

static void push_clause(unsigned m, unsigned s, uint64_t head, uint64_t body, uint64_t naf) {
    if (!naf) { push(head, body); return; }
    uint64_t stands = ((1ull << __builtin_popcountll(head)) - 1) << s, t, p, u, q;
    push(stands | naf << m, body);
    for (t = head, p = 1ull << s; t; t &= t - 1, p <<= 1) push(lowest(t), p);
    for (t = head, p = 1ull << s; t; t &= t - 1, p <<= 1)
        for (u = naf; u; u &= u - 1) push(0, p | lowest(u));
    for (t = head, p = 1ull << s; t; t &= t - 1, p <<= 1)
        for (u = head, q = 1ull << s; u; u &= u - 1, q <<= 1)
            if (p != q) push(p, lowest(t) | q);
}

/* The number of names; 0 where the vocabulary has more than 64 members. */
static unsigned read_book(void) {
    static uint64_t head[64], body[64], naf[64];
    text[fread(text, 1, MOST_BYTES, stdin)] = 0;
    unsigned atoms = 1, members, clauses;
    char *at = text;
    for (; *at != '\n'; at++) atoms += *at == ' ';
    members = 4 * atoms;
    at++;
    for (clauses = 0; *at; clauses++) {
        for (unsigned i = 0; i < atoms; i++, at++) {
            uint64_t v = strtoul(at, &at, 10);
            head[clauses] |= (v & 3) << 2 * i, body[clauses] |= (v >> 2 & 3) << 2 * i, naf[clauses] |= (v >> 4) << 2 * i;
        }
        if (naf[clauses]) members += __builtin_popcountll(head[clauses]);
    }
    if (members > 64) return 0;
    for (unsigned k = 0, s = 4 * atoms; k < clauses; k++) {
        push_clause(2 * atoms, s, head[k], body[k], naf[k]);
        if (naf[k]) s += __builtin_popcountll(head[k]);
    }
    return atoms;
}

/* ---- a set in the first places of a slice: the last n % RUN members are a rising run, and those before them another;
   a number of members above the room says that the set is too large */
static size_t place(const uint64_t *set, size_t members, uint64_t x) {
    size_t lo = 0, hi = members;
    while (lo < hi) {
        size_t mid = lo + (hi - lo) / 2;
        if (set[mid] < x) lo = mid + 1;
        else hi = mid;
    }
    return lo;
}

static size_t insert(uint64_t *set, size_t places, size_t members, uint64_t x) {
    size_t at = place(set, members, x);
    if (at < members && set[at] == x) return members;
    if (members == places) return members + 1;
    memmove(set + at + 1, set + at, (members - at) * sizeof *set);
    set[at] = x;
    return members + 1;
}

/* The run of the k words from place m on is merged into the one before it, from behind. */
static void merge(uint64_t *set, size_t m, size_t k) {
    uint64_t tail[RUN];
    memcpy(tail, set + m, k * sizeof *set);
    while (k) {
        if (m && tail[k - 1] < set[m - 1]) set[m + k - 1] = set[m - 1], m--;
        else set[m + k - 1] = tail[k - 1], k--;
    }
}

static void settle(uint64_t *set, size_t n) {
    if (n <= room) merge(set, n - n % RUN, n % RUN);
}

static size_t add(uint64_t *set, size_t members, uint64_t x) {
    size_t m = members - members % RUN, at = place(set, m, x);
    if (at < m && set[at] == x) return members;
    size_t t = insert(set + m, room - m, members - m, x);
    if (t == RUN && m + RUN <= room) merge(set, m, RUN);
    return m + t;
}

/* the place of the least member from x on */
static size_t least_from(const uint64_t *set, size_t n, uint64_t x) {
    size_t m = n - n % RUN, a = place(set, m, x), b = m + place(set + m, n - m, x);
    if (a == m) return b;
    if (b == n) return a;
    return set[a] < set[b] ? a : b;
}

/* ---- every set made of j and a literal of each of the n heads set aside; partner: the head that a literal is matched to */
static uint64_t wide[64];
static size_t partner[64];

static size_t matched(uint64_t s, size_t k) {
    for (; s; s &= s - 1)
        if (partner[__builtin_ctzll(s)] == k) return __builtin_ctzll(s);
    return NONE;
}

/* 0 where there is an augmenting path from the literal t, along which the matching is flipped; otherwise the literals reached */
static uint64_t augment(size_t n, uint64_t s, uint64_t t) {
    size_t from[64], root = __builtin_ctzll(t);
    uint64_t x = t, before;
    do {
        before = x;
        for (size_t k = 0; k < n; k++) {
            if (!(wide[k] & x)) continue;
            size_t at = __builtin_ctzll(wide[k] & x), to = matched(wide[k] & s, k);
            if (to == NONE) {
                for (size_t head = k;; at = from[at]) {
                    size_t old = partner[at];
                    partner[at] = head;
                    if (at == root) return 0;
                    head = old;
                }
            }
            if (!(x >> to & 1)) from[to] = at, x |= 1ull << to;
        }
    } while (x != before);
    return x;
}

static bool infeasible(size_t n, uint64_t j, uint64_t free, uint64_t w, uint64_t t) {
    if (!t) {
        for (size_t k = 0; k < n; k++)
            if (!((w | free) & wide[k])) return true;
        return false;
    }
    uint64_t x = augment(n, w & ~j & ~t, t);
    if (!x) return false;
    x = x & w & ~j;
    int meeting = 0;
    for (size_t k = 0; k < n; k++) meeting += (x & wide[k]) != 0;
    return meeting < __builtin_popcountll(x);
}

static bool made(size_t n, uint64_t w, size_t k, uint64_t j) {
    if (k == n) return w == j;
    for (uint64_t rest = wide[k] & w; rest;) {
        size_t t = matched(rest, k);
        uint64_t bit = t == NONE ? lowest(rest) : 1ull << t;
        if (made(n, w, k + 1, j | bit)) return true;
        rest ^= bit;
    }
    return false;
}

static size_t scan(size_t n, uint64_t j, uint64_t free, uint64_t w, uint64_t t, uint64_t *set, size_t members) {
    if (infeasible(n, j, free, w, t)) return members;
    if (!free) return made(n, w, 0, j) ? add(set, members, w) : members;
    uint64_t top = 1ull << (63 - __builtin_clzll(free));
    size_t m = scan(n, j, free ^ top, w, 0, set, members);
    return room < m ? m : scan(n, j, free ^ top, w | top, top, set, m);
}

static size_t combine(size_t n, uint64_t j, uint64_t *set, size_t members) {
    uint64_t all = 0;
    for (size_t k = 0; k < 64; k++) partner[k] = NONE;
    for (size_t k = 0; k < n; k++) all |= wide[k];
    return scan(n, j, all & ~j, j, 0, set, members);
}

/* ---- what a member gives, and the next stage */
static size_t choose(uint64_t i, size_t k, uint64_t j, size_t n, uint64_t *set, size_t members) {
    if (k == rules) return combine(n, j, set, members);
    if (!subset(bodies[k], i)) return choose(i, k + 1, j, n, set, members);
    if (__builtin_popcountll(heads[k]) > 1 && n < 64) {
        wide[n] = heads[k];
        return choose(i, k + 1, j, n + 1, set, members);
    }
    for (uint64_t rest = heads[k]; rest && members <= room; rest &= rest - 1) members = choose(i, k + 1, j | lowest(rest), n, set, members);
    return members;
}

static size_t give(uint64_t i, uint64_t *set, size_t members) {
    for (size_t k = 0; k < rules; k++)
        if (!heads[k] && subset(bodies[k], i)) return members;
    return choose(i, 0, i, 0, set, members);
}

static size_t step(const uint64_t *stage, size_t members, uint64_t *after) {
    size_t n = 0;
    for (size_t p = 0; p < members && n <= room; p++) n = give(stage[p], after, n);
    settle(after, n);
    return n;
}

/* ---- where every member of a stage is a model, the stages to come only add to it: they are formed in one pass over the members, rising */
static bool satisfied(uint64_t w) {
    for (size_t k = 0; k < rules; k++)
        if (subset(bodies[k], w) && !(heads[k] & w)) return false;
    return true;
}

static bool all_models(const uint64_t *set, size_t members) {
    for (size_t p = 0; p < members; p++)
        if (!satisfied(set[p])) return false;
    return true;
}

/* whether the clauses whose bodies lie in full have them in i already, and i meets their heads */
static bool quiet(uint64_t i, uint64_t full) {
    for (size_t k = 0; k < rules; k++)
        if (subset(bodies[k], full) && (!subset(bodies[k], i) || !(heads[k] & i))) return false;
    return true;
}

static size_t expand(uint64_t i, uint64_t *set, size_t members) {
    uint64_t offered = 0;
    for (size_t k = 0; k < rules; k++)
        if (subset(bodies[k], i)) offered |= heads[k];
    if (!quiet(i, i | offered)) return give(i, set, members);
    for (uint64_t left = offered & ~i; left && members <= room; left &= left - 1) members = add(set, members, i | lowest(left));
    return members;
}

static size_t close(uint64_t *set, size_t members) {
    for (uint64_t from = 0;;) {
        size_t p = least_from(set, members, from);
        if (p == members) break;
        uint64_t i = set[p];
        members = expand(i, set, members);
        if (room < members || i == UINT64_MAX) break;
        from = i + 1;
    }
    settle(set, members);
    return members;
}

/* ---- the stage that ends the run, its minimal models, and their literal parts */
static bool minimal_among(const uint64_t *kept, size_t n, uint64_t w) {
    for (size_t q = 0; q < n; q++)
        if (subset(kept[q], w) && kept[q] != w) return false;
    return true;
}

/* The number of models, which stand in `models`; one more than the room where a stage is too large. */
static uint64_t *models;

static size_t fixpoint(unsigned m) {
    uint64_t *stage = slices[0], *other = slices[1], literals = (1ull << m) - 1;
    size_t members = 1, n;
    if (!room) return 1;
    for (stage[0] = 0; !all_models(stage, members);) {
        n = step(stage, members, other);
        if (room < n) return n;
        if (n == members && !memcmp(stage, other, n * sizeof *stage)) goto ended;
        uint64_t *swap = stage;
        stage = other, other = swap, members = n;
    }
    members = close(stage, members);
    if (room < members) return members;
ended:
    n = 0;
    for (size_t p = 0; p < members; p++)
        if (satisfied(stage[p])) other[n++] = stage[p];
    members = n, n = 0;
    for (size_t p = 0; p < members; p++)
        if (minimal_among(stage, n, other[p])) stage[n++] = other[p];
    members = n, n = 0;
    for (size_t p = 0; p < members; p++)
        if (subset(stage[p] >> m & literals, stage[p] & literals)) n = add(other, n, stage[p] & literals);
    settle(other, n);
    models = other;
    return n;
}

int main(int words, char **word) {
    if (words != 4) return 1;
    size_t places = strtoul(word[2], 0, 10);
    room = strtoul(word[3], 0, 10);
    /* every word of a slice has a value from the start, as in the engine */
    memset(slices, 0, sizeof slices);
    unsigned atoms = read_book();
    if (!atoms) { puts("refused 11"); return 0; }
    size_t n = fixpoint(2 * atoms), written = n < places ? n : places;
    if (room < n) { puts("refused 12"); return 0; }
    printf("%.*s", (int)(strchr(text, '\n') + 1 - text), text);
    for (size_t p = 0; p < written; p++)
        for (unsigned i = 0; i < atoms; i++) {
            putchar('0' + (models[p] >> 2 * i & 3));
            putchar(i + 1 < atoms ? ' ' : '\n');
        }
    printf("%s %zu\n", n <= places ? "complete" : "full", written);
    return 0;
}

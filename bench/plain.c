/* The report and the check in plain C, as the yardstick: the same tree, the same node test, the same leaf test and the same walk, nothing proved.
   Reads a book from standard input and prints what the report prints; with the words `check WORD`, what the check does. */
#include <stdbool.h>
#include <stdint.h>
#include <stdlib.h>
#include <string.h>
#include <unistd.h>

enum { MOST_BYTES = 4096, MOST_LINES = 65, MOST_ATOMS = 12, MOST_CLAUSES = 64, LITERALS = 2 * MOST_ATOMS, PLACES = 4096 };
static const uint64_t LIMIT = 33554431;

static unsigned char in[MOST_BYTES + 1], out[1 << 17];
static size_t in_len, out_len;
static size_t atoms, clauses;
static uint32_t heads[MOST_CLAUSES], bodies[MOST_CLAUSES], nafs[MOST_CLAUSES];
static size_t line_start[MOST_LINES + 1], line_end[MOST_LINES + 1], lines;

/* ---- reading: the refusals 1 to 8, the lowest that applies */
static bool letter(unsigned char c) { return c >= 'a' && c <= 'z'; }
static bool digit(unsigned char c) { return c >= '0' && c <= '9'; }

/* where the item that begins at `at` ends */
static size_t item_end(size_t at, size_t end) {
    while (at < end && in[at] != ' ') at++;
    return at;
}

static bool names_form(void) {
    size_t at = line_start[0], end = line_end[0];
    for (atoms = 0;; atoms++) {
        size_t e = item_end(at, end);
        if (atoms == MOST_ATOMS || e == at || e - at > 8 || !letter(in[at])) return false;
        for (size_t i = at; i < e; i++)
            if (!letter(in[i]) && !digit(in[i])) return false;
        if (e == end) { atoms++; return true; }
        at = e + 1;
    }
}

static bool names_equal(void) {
    size_t start[MOST_ATOMS], length[MOST_ATOMS], at = line_start[0];
    for (size_t i = 0; i < atoms; i++) {
        size_t e = item_end(at, line_end[0]);
        start[i] = at, length[i] = e - at, at = e + 1;
        for (size_t j = 0; j < i; j++)
            if (length[i] == length[j] && !memcmp(in + start[i], in + start[j], length[i])) return true;
    }
    return false;
}

static bool clause_form(size_t k) {
    size_t at = line_start[k + 1], end = line_end[k + 1], i;
    for (i = 0;; i++) {
        size_t e = item_end(at, end);
        if (i == atoms || e == at || e - at > 2) return false;
        uint32_t v = 0;
        for (size_t j = at; j < e; j++) {
            if (!digit(in[j])) return false;
            v = v * 10 + (in[j] - '0');
        }
        if (v > 63 || (e - at == 2 && in[at] == '0')) return false;
        heads[k] |= (v & 3) << (2 * i);
        bodies[k] |= (v >> 2 & 3) << (2 * i);
        nafs[k] |= (v >> 4 & 3) << (2 * i);
        if (e == end) return i + 1 == atoms;
        at = e + 1;
    }
}

static int read_book(void) {
    if (in_len == 0 || in_len > MOST_BYTES) return 1;
    if (in[in_len - 1] != 10) return 2;
    for (size_t i = 0; i < in_len; i++)
        if (!letter(in[i]) && !digit(in[i]) && in[i] != ' ' && in[i] != 10) return 3;
    for (size_t i = 0, from = 0; i < in_len; i++)
        if (in[i] == 10) {
            if (lines == MOST_LINES) return 4;
            line_start[lines] = from, line_end[lines++] = i, from = i + 1;
        }
    if (!names_form()) return 5;
    if (names_equal()) return 6;
    clauses = lines - 1;
    for (size_t k = 0; k < clauses; k++)
        if (!clause_form(k)) return 7;
    for (size_t k = 0; k < clauses; k++)
        if (!(heads[k] | bodies[k] | nafs[k])) return 8;
    return 0;
}

/* ---- the search */
static uint32_t models[PLACES];
static size_t written;
static uint64_t visited;
static enum { COMPLETE, FULL, SPENT } outcome;

/* the rows by column: for each literal the rows that have it in the head, the body, the not-part, bit i for row i */
static uint64_t in_heads[LITERALS], in_bodies[LITERALS], in_nafs[LITERALS], mentions[LITERALS];

static void make_columns(void) {
    for (size_t l = 0; l < LITERALS; l++) {
        for (size_t i = 0; i < clauses; i++) {
            in_heads[l] |= (uint64_t)(heads[i] >> l & 1) << i;
            in_bodies[l] |= (uint64_t)(bodies[i] >> l & 1) << i;
            in_nafs[l] |= (uint64_t)(nafs[i] >> l & 1) << i;
        }
        mentions[l] = in_heads[l] | in_bodies[l] | in_nafs[l];
    }
}

/* whether some row of the set rules out every word from w to reach */
static inline bool rules_out(uint64_t rows, uint32_t by, uint32_t w, uint32_t reach) {
    for (; rows; rows &= rows - 1) {
        int i = __builtin_ctzll(rows);
        if (((bodies[i] & ~w) | (nafs[i] & by) | (heads[i] & reach)) == 0) return true;
    }
    return false;
}

/* whether some literal of w has no row in play that could still support it; a row with one in its head supports no other */
static inline bool unsupported(uint64_t play, uint32_t w) {
    for (uint32_t left = w; left; left &= left - 1) {
        int l = __builtin_ctz(left);
        uint64_t rows = in_heads[l] & play;
        play ^= rows;
        for (; rows; rows &= rows - 1) {
            int i = __builtin_ctzll(rows);
            if ((heads[i] & w) == 1u << l && !(bodies[i] >> l & 1)) break;
        }
        if (!rows) return true;
    }
    return false;
}

static bool has_smaller(uint64_t rows, uint64_t asked, uint32_t by, uint32_t held, uint32_t undecided) {
    if (rules_out(asked, by, held, held | undecided)) return false;
    if (!undecided) return held != by;
    uint32_t l = 31 - __builtin_clz(undecided), rest = undecided ^ 1u << l;
    uint64_t mentioned = mentions[l] & rows;
    return has_smaller(rows, mentioned, by, held, rest) || has_smaller(rows, mentioned, by, held | 1u << l, rest);
}

/* Whether the search goes on. play: the rows in play, without a body literal decided out or a not-literal decided in;
   mentioned: those of the parent that mention the literal just decided. Support is looked for only where it could have been lost. */
static bool visit(uint32_t k, uint32_t w, uint32_t reach, uint64_t play, uint64_t mentioned) {
    if (visited == LIMIT) { outcome = SPENT; return false; }
    visited++;
    if (rules_out(mentioned & play, reach, w, reach)) return true;
    if (((w >> k & 1) || (mentioned & ~play)) && unsupported(play, w)) return true;
    if (k == 0) {
        if (has_smaller(play, play, w, 0, w)) return true;
        if (written == PLACES) { outcome = FULL; return false; }
        models[written++] = w;
        return true;
    }
    uint32_t l = k - 1, bit = 1u << l;
    uint64_t below = mentions[l] & play;
    return visit(l, w, reach ^ bit, play & ~in_bodies[l], below) && visit(l, w | bit, reach, play & ~in_nafs[l], below);
}

/* ---- writing */
static void put(const void *bytes, size_t n) { memcpy(out + out_len, bytes, n); out_len += n; }
static void put_word(const char *s) { put(s, strlen(s)); }
static void put_number(uint64_t n) {
    char s[20];
    size_t i = sizeof s;
    do s[--i] = '0' + n % 10; while (n /= 10);
    put(s + i, sizeof s - i);
}

static void put_numbered(const char *s, uint64_t n) {
    put_word(s);
    put_word(" ");
    put_number(n);
    put_word("\n");
}

/* ---- the check */
static inline size_t first_violated(uint32_t by, uint32_t w) {
    for (size_t i = 0; i < clauses; i++)
        if (((bodies[i] & ~w) | (nafs[i] & by) | (heads[i] & w)) == 0) return i;
    return clauses;
}

static void check(uint32_t candidate) {
    if (candidate >> (2 * atoms)) { put_numbered("refused", 10); return; }
    size_t v = first_violated(candidate, candidate);
    if (v < clauses) { put_numbered("violated", v); return; }
    uint32_t j = 0;
    while (j != candidate && first_violated(candidate, j) < clauses) j = (j - candidate) & candidate;
    if (j != candidate) put_numbered("smaller", j);
    else put_word("stable\n");
}

/* ---- the report */
static void report(void) {
    make_columns();
    uint64_t rows = clauses ? ~0ull >> (MOST_CLAUSES - clauses) : 0;
    visit(2 * atoms, 0, (1u << 2 * atoms) - 1, rows, rows);
    put(in, line_end[0] + 1);
    for (size_t m = 0; m < written; m++)
        for (size_t i = 0; i < atoms; i++) {
            out[out_len++] = '0' + (models[m] >> (2 * i) & 3);
            out[out_len++] = i + 1 < atoms ? ' ' : '\n';
        }
    put_word(outcome == COMPLETE ? "complete " : outcome == FULL ? "full " : "spent ");
    put_number(written);
    put_word(" ");
    put_number(visited);
    put_word("\n");
}

int main(int words, char **word) {
    ssize_t n;
    while (in_len < sizeof in && (n = read(0, in + in_len, sizeof in - in_len)) > 0) in_len += n;
    int refusal = read_book();
    if (refusal) put_numbered("refused", refusal);
    else if (words == 3) check(strtoul(word[2], 0, 10));
    else report();
    for (size_t at = 0; at < out_len && (n = write(1, out + at, out_len - at)) > 0;) at += n;
    return 0;
}

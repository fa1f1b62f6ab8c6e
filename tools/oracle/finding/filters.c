// Counts positions by the filters of studymine, and writes studies with their rows of only moves, from tables of wins, draws and losses of its own, or
// from cells that tools/speed/fast.rs wrote to a folder: `./filters CELLS/ tries KPKP`. It shares no code with the repository.
//
//   cc -O2 -o filters filters.c
//   ./filters counts KRKP KPKP KQKP          a line each: the class, the theme and its filters, and how many there are
//   ./filters rows KRKP win 8                the studies with eight only moves in a row or more, a line each, in no order
//   ./filters rows KRKP win 2 offer          those whose row has a move of this kind
//   ./filters tries KPPK KPKP                how many have a zugzwang try; how many would have one if any zugzwang counted; and those that differ
//   ./filters within KRKP 3                  how many have one, two, three only moves in a row, and how many of their rows have moves of some kinds
//   ./filters families KRKP win 3            how many have three only moves in a row; in which of them no position with one man on another square and the
//                                            same key comes earlier; `underpromotion`, `into win`, `into draw` in place of `win 3` likewise
//
// A class has three men, or four with a pawn, for `counts` and `rows` with one more man a side at most; White has the men named first. A pawn's class takes
// 17 MB for each class that its moves lead to.
#include <stdint.h>
#include <stdio.h>
#include <stdlib.h>
#include <string.h>

typedef uint64_t U;
enum { K, Q, R, B, N, P };
static const char letters[] = "KQRBNP";
// Men in the order: White's king, Black's king, then the others. A side is 0 for White.
typedef struct { int n, stm, ep; int side[4], kind[4], at[4]; } Pos;
typedef struct { int from, to, promoted; } Mv; // promoted: 0 (none), or Q..N
enum { UNKNOWN, WIN, LOSS, DRAW, INVALID };

static U between[64][64], step_king[64], step_knight[64], step_pawn[2][64];
static int line[64][64]; // 1: rank or file, 2: diagonal
static int fx(int s) { return s & 7; }
static int rk(int s) { return s >> 3; }

static void geometry(void) {
    for (int a = 0; a < 64; a++)
        for (int b = 0; b < 64; b++) {
            int df = fx(b) - fx(a), dr = rk(b) - rk(a), af = abs(df), ar = abs(dr);
            if (a == b) continue;
            if (af <= 1 && ar <= 1) step_king[a] |= 1ull << b;
            if (af * ar == 2) step_knight[a] |= 1ull << b;
            if (af == 1 && dr == 1) step_pawn[0][a] |= 1ull << b;
            if (af == 1 && dr == -1) step_pawn[1][a] |= 1ull << b;
            if (!df || !dr) line[a][b] = 1; else if (af == ar) line[a][b] = 2; else continue;
            int d = (dr > 0) * 8 - (dr < 0) * 8 + (df > 0) - (df < 0);
            for (int s = a + d; s != b; s += d) between[a][b] |= 1ull << s;
        }
}

static U occupied(const Pos *p) { U o = 0; for (int i = 0; i < p->n; i++) o |= 1ull << p->at[i]; return o; }

static int reaches(int kind, int side, int a, int b, U occ) {
    switch (kind) {
    case K: return step_king[a] >> b & 1;
    case N: return step_knight[a] >> b & 1;
    case P: return step_pawn[side][a] >> b & 1;
    case R: return line[a][b] == 1 && !(between[a][b] & occ);
    case B: return line[a][b] == 2 && !(between[a][b] & occ);
    default: return line[a][b] && !(between[a][b] & occ);
    }
}

static int in_check(const Pos *p, int side) {
    U occ = occupied(p);
    for (int i = 0; i < p->n; i++)
        if (p->side[i] != side && reaches(p->kind[i], p->side[i], p->at[i], p->at[side], occ)) return 1;
    return 0;
}

// The squares that a man attacks.
static U attacks(int kind, int side, int a, U occ) {
    static const int df[] = {1, -1, 0, 0, 1, 1, -1, -1}, dr[] = {0, 0, 1, -1, 1, -1, 1, -1};
    if (kind == K) return step_king[a];
    if (kind == N) return step_knight[a];
    if (kind == P) return step_pawn[side][a];
    U to = 0;
    for (int d = kind == B ? 4 : 0; d < (kind == R ? 4 : 8); d++)
        for (int f = fx(a) + df[d], r = rk(a) + dr[d]; f >= 0 && f < 8 && r >= 0 && r < 8; f += df[d], r += dr[d]) {
            to |= 1ull << (r * 8 + f);
            if (occ >> (r * 8 + f) & 1) break;
        }
    return to;
}

static int man_at(const Pos *p, int s) { for (int i = 0; i < p->n; i++) if (p->at[i] == s) return i; return -1; }

static Pos play(const Pos *p, Mv m) {
    Pos q = *p;
    int i = man_at(&q, m.from), c = man_at(&q, m.to);
    if (q.kind[i] == P && m.to == p->ep) c = man_at(&q, m.to + (p->stm ? 8 : -8));
    q.at[i] = m.to;
    if (m.promoted) q.kind[i] = m.promoted;
    q.ep = -1;
    if (p->kind[i] == P && abs(m.to - m.from) == 16) q.ep = (m.to + m.from) / 2;
    if (c >= 0) {
        for (int j = c; j + 1 < q.n; j++) { q.side[j] = q.side[j + 1]; q.kind[j] = q.kind[j + 1]; q.at[j] = q.at[j + 1]; }
        q.n--;
    }
    q.stm = !p->stm;
    return q;
}

static int order(const void *a, const void *b) {
    const Mv *x = a, *y = b;
    return x->from != y->from ? x->from - y->from : x->to != y->to ? x->to - y->to : x->promoted - y->promoted;
}

// The squares that a man's moves reach, whether or not they leave its king in check.
static U targets(const Pos *p, int i, U occ) {
    int s = p->side[i], a = p->at[i], up = s ? -8 : 8;
    U own = 0;
    for (int j = 0; j < p->n; j++) if (p->side[j] == s) own |= 1ull << p->at[j];
    U to = attacks(p->kind[i], s, a, occ);
    if (p->kind[i] != P) return to & ~own;
    to &= (occ & ~own) | (p->ep < 0 ? 0 : 1ull << p->ep);
    if (occ >> (a + up) & 1) return to;
    to |= 1ull << (a + up);
    if (rk(a) == (s ? 6 : 1) && !(occ >> (a + 2 * up) & 1)) to |= 1ull << (a + 2 * up);
    return to;
}

// The legal moves, in no order.
static int any_moves(const Pos *p, Mv *out) {
    int n = 0, s = p->stm;
    U occ = occupied(p);
    for (int i = 0; i < p->n; i++) {
        if (p->side[i] != s) continue;
        for (U to = targets(p, i, occ); to; to &= to - 1) {
            int b = __builtin_ctzll(to), last = p->kind[i] == P && rk(b) == (s ? 0 : 7);
            Mv m = {p->at[i], b, last ? Q : 0};
            Pos q = play(p, m);
            if (in_check(&q, s)) continue;
            for (int k = m.promoted; k <= (last ? N : 0); k++) { m.promoted = k; out[n++] = m; }
        }
    }
    return n;
}

// The same, ascending by the squares that they leave and reach.
static int moves(const Pos *p, Mv *out) {
    int n = any_moves(p, out);
    if (n > 1) qsort(out, n, sizeof *out, order);
    return n;
}

// ---- tables: White's king on the files a to d

typedef struct { int n, side[2], kind[2]; uint8_t *cells; } Table;
static Table tables[64];
static int known;

static size_t cell(const Pos *p) {
    int flip = fx(p->at[0]) > 3 ? 7 : 0;
    int w = p->at[0] ^ flip;
    size_t i = (size_t)p->stm * 32 + rk(w) * 4 + fx(w);
    for (int j = 1; j < p->n; j++) i = i * 64 + (p->at[j] ^ flip);
    return i;
}

static size_t size_of(int n) { size_t s = 64; for (int j = 1; j < n; j++) s *= 64; return s; }

// Colours exchanged and the board turned upside down.
static Pos swapped(const Pos *p) {
    Pos q = *p;
    q.stm = !p->stm;
    q.ep = p->ep < 0 ? -1 : p->ep ^ 56;
    for (int i = 0; i < p->n; i++) {
        int j = i < 2 ? !i : i;
        q.side[j] = !p->side[i]; q.kind[j] = p->kind[i]; q.at[j] = p->at[i] ^ 56;
    }
    return q;
}

// The men beside the kings: White's first, then by kind. The class is swapped if Black has the greater men.
static Pos normal(const Pos *p) {
    Pos q = *p;
    if (q.n == 3 && q.side[2]) q = swapped(&q);
    if (q.n == 4) {
        if (q.side[2] == 1 && q.side[3] == 1) q = swapped(&q);
        int turn = q.side[2] != q.side[3] ? q.side[2] : q.kind[2] > q.kind[3];
        if (turn) {
            int s = q.side[2], k = q.kind[2], a = q.at[2];
            q.side[2] = q.side[3]; q.kind[2] = q.kind[3]; q.at[2] = q.at[3];
            q.side[3] = s; q.kind[3] = k; q.at[3] = a;
        }
        if (q.side[2] != q.side[3] && q.kind[2] > q.kind[3]) { q = swapped(&q); return normal(&q); }
    }
    return q;
}

static Table *build(const Pos *like);

static Table *table_of(const Pos *q) {
    for (int i = 0; i < known; i++) {
        Table *t = &tables[i];
        if (t->n != q->n || t->kind[0] != q->kind[2] || t->side[0] != q->side[2]) continue;
        if (t->n == 4 && (t->kind[1] != q->kind[3] || t->side[1] != q->side[3])) continue;
        return t;
    }
    return build(q);
}

static int bare_value(const Pos *p) {
    if (p->n == 2) return DRAW;
    Pos q = normal(p);
    int v = table_of(&q)->cells[cell(&q)];
    return v == UNKNOWN ? DRAW : v;
}

// In a table that is still being made an open cell is UNKNOWN.
static int open_value(const Pos *p, const Table *making) {
    Pos q = normal(p);
    if (p->n == 2) return DRAW;
    Table *t = table_of(&q);
    int v = t->cells[cell(&q)];
    return v == UNKNOWN && t != making ? DRAW : v;
}

static int better(int v, int w) { // for the side to move; an open value may become the best
    int r[] = {[UNKNOWN] = 2, [WIN] = 3, [LOSS] = 0, [DRAW] = 1};
    return r[v] > r[w] ? v : w;
}

static int opposite(int v) { return v == WIN ? LOSS : v == LOSS ? WIN : v; }

// The value with a capture en passant, if one is legal: it is one more move.
static int with_passing(const Pos *p, int bare, const Table *making) {
    if (p->ep < 0) return bare;
    Mv ms[256];
    int n = moves(p, ms), others = 0, v = bare;
    for (int i = 0; i < n; i++) others += !(p->kind[man_at(p, ms[i].from)] == P && ms[i].to == p->ep);
    if (others == n) return bare;
    if (!others) v = LOSS; // neither mate nor stalemate: the capture is what there is
    for (int i = 0; i < n; i++)
        if (p->kind[man_at(p, ms[i].from)] == P && ms[i].to == p->ep) {
            Pos q = play(p, ms[i]);
            v = better(v, opposite(open_value(&q, making)));
        }
    return v;
}

static int value(const Pos *p) { return with_passing(p, bare_value(p), NULL); }

static int decide(const Pos *p, const Table *t) {
    Mv ms[256];
    int n = any_moves(p, ms), v = LOSS;
    for (int i = 0; i < n && v != WIN; i++) {
        Pos q = play(p, ms[i]);
        v = better(v, opposite(with_passing(&q, open_value(&q, t), t)));
    }
    return n ? v : in_check(p, p->stm) ? LOSS : DRAW;
}

static int read_cell(const Table *t, size_t i, Pos *p) {
    memset(p, 0, sizeof *p);
    p->n = t->n; p->ep = -1; p->side[1] = 1;
    for (int j = t->n - 1; j >= 1; j--) { p->at[j] = i & 63; i >>= 6; }
    p->at[0] = (i >> 2 & 7) * 8 + (i & 3); p->stm = i >> 5 & 1;
    for (int j = 2; j < t->n; j++) { p->side[j] = t->side[j - 2]; p->kind[j] = t->kind[j - 2]; }
    for (int j = 0; j < t->n; j++) {
        for (int k = 0; k < j; k++) if (p->at[k] == p->at[j]) return 0;
        if (p->kind[j] == P && (rk(p->at[j]) == 0 || rk(p->at[j]) == 7)) return 0;
    }
    return !in_check(p, !p->stm);
}

static size_t *todo, count, room;
static uint8_t *waits;
static void put(size_t i) {
    if (waits[i]) return;
    waits[i] = 1;
    if (count == room) todo = realloc(todo, (room = room * 2 + 65536) * sizeof *todo);
    todo[count++] = i;
}

// The cells from which a move of the side not to move, neither a capture nor a promotion, leads here.
static void put_before(const Pos *p, const Table *t) {
    U occ = occupied(p);
    int s = !p->stm;
    for (int i = 0; i < p->n; i++) {
        if (p->side[i] != s) continue;
        int b = p->at[i], up = s ? -8 : 8;
        U from = attacks(p->kind[i], s, b, occ) & ~occ;
        if (p->kind[i] == P) {
            from = 0;
            if (!(occ >> (b - up) & 1)) {
                from |= 1ull << (b - up);
                if (rk(b) == (s ? 4 : 3) && !(occ >> (b - 2 * up) & 1)) from |= 1ull << (b - 2 * up);
            }
        }
        for (; from; from &= from - 1) {
            Pos q = *p;
            q.at[i] = __builtin_ctzll(from); q.stm = s;
            size_t c = cell(&q);
            if (t->cells[c] == UNKNOWN) put(c);
        }
    }
}

static const char *cells_from;

// The file of a class: both kings, then its men in this order, a byte for each side to move and placement; one image of each is there.
// With pawns on both sides the positions in which a capture en passant is legal follow, which are not needed.
static void read_cells(Table *t) {
    char name[512], men[16] = "K";
    int like = t->n == 4 && t->side[0] == t->side[1] && t->kind[0] == t->kind[1], pawns = 0;
    for (int i = 0; i < t->n - 2; i++) if (!t->side[i]) strncat(men, &letters[t->kind[i]], 1);
    strcat(men, "K");
    for (int i = 0; i < t->n - 2; i++) { if (t->side[i]) strncat(men, &letters[t->kind[i]], 1); pawns |= t->kind[i] == P; }
    snprintf(name, sizeof name, "%s/%s.cells", cells_from, men);
    FILE *f = fopen(name, "rb");
    if (!f) { perror(name); exit(1); }
    static const int corner[] = {0, 1, 2, 3, 9, 10, 11, 18, 19, 27};
    size_t rest = 1, places = pawns ? 32 : 10;
    for (int j = 1; j < t->n; j++) rest *= 64;
    memset(t->cells, INVALID, size_of(t->n));
    size_t all = 2 * places * rest;
    uint8_t *read = malloc(all);
    if (fread(read, 1, all, f) != all) { fprintf(stderr, "%s is short\n", name); exit(1); }
    for (size_t i = 0; i < all; i++) {
        int c = read[i], place = (int)(i / rest % places);
        Pos p = {t->n, (int)(i / rest / places), -1, {0, 1}, {0}, {0}};
        p.at[0] = pawns ? place / 4 * 8 + place % 4 : corner[place];
        size_t k = i % rest;
        for (int j = t->n - 1; j >= 1; j--) { p.at[j] = k & 63; k >>= 6; }
        for (int g = 0; g < (pawns ? 1 : 8); g++) {
            Pos q = p;
            for (int j = 0; j < q.n; j++) {
                if (g & 1) q.at[j] ^= 7;
                if (g & 2) q.at[j] ^= 56;
                if (g & 4) q.at[j] = q.at[j] % 8 * 8 + q.at[j] / 8;
            }
            for (int w = 0; w <= like; w++) {
                if (w) { int a = q.at[2]; q.at[2] = q.at[3]; q.at[3] = a; }
                uint8_t *to = &t->cells[cell(&q)];
                if (*to == INVALID || *to == DRAW) *to = c == 0 ? DRAW : c % 2 ? LOSS : WIN;
            }
        }
    }
    free(read);
    fclose(f);
}

static Table *build(const Pos *like) {
    Table made = {like->n, {like->side[2], like->side[3]}, {like->kind[2], like->kind[3]}, NULL};
    size_t size = size_of(made.n);
    made.cells = calloc(size, 1);
    if (cells_from) {
        tables[known] = made;
        read_cells(&tables[known]);
        return &tables[known++];
    }
    // the classes that moves lead to first
    for (int i = 2; i < made.n; i++) {
        if (made.n == 4) { Pos q = *like; q.n = 3; q.side[2] = like->side[5 - i]; q.kind[2] = like->kind[5 - i]; q = normal(&q); table_of(&q); }
        if (made.kind[i - 2] == P) for (int k = Q; k <= N; k++) { Pos q = *like; q.kind[i] = k; q = normal(&q); table_of(&q); }
        if (made.kind[i - 2] == P && made.n == 4)
            for (int k = Q; k <= N; k++) { Pos q = *like; q.n = 3; q.side[2] = like->side[i]; q.kind[2] = k; q = normal(&q); table_of(&q); }
    }
    fprintf(stderr, "K%s%cK%s%c\n", "", letters[made.kind[0]], "", made.n == 4 ? letters[made.kind[1]] : '-');
    Table *t = &tables[known++];
    *t = made;
    waits = calloc(size, 1); count = 0;
    Pos p;
    for (size_t i = 0; i < size; i++) if (!read_cell(t, i, &p)) t->cells[i] = INVALID;
    for (size_t i = 0; i < size; i++) if (t->cells[i] == UNKNOWN) put(i);
    while (count) {
        size_t i = todo[--count];
        waits[i] = 0;
        if (t->cells[i] != UNKNOWN) continue;
        read_cell(t, i, &p);
        int v = decide(&p, t);
        if (v == UNKNOWN || v == DRAW) { if (v == DRAW) t->cells[i] = DRAW; else continue; }
        t->cells[i] = v;
        put_before(&p, t);
    }
    free(waits);
    return t;
}

// ---- only moves

// The result of the side to move, and the move that alone keeps it: WIN or DRAW, or 0 if it loses.
static int result(const Pos *p) { int v = value(p); return v == LOSS ? 0 : v; }

static int only_move(const Pos *p, int outcome, Mv *key) {
    Mv ms[256];
    int n = moves(p, ms), kept = 0;
    for (int i = 0; i < n && kept < 2; i++) {
        Pos q = play(p, ms[i]);
        int v = value(&q);
        if (v == LOSS || (outcome == DRAW && v == DRAW)) { kept++; *key = ms[i]; }
    }
    return kept == 1;
}

// Whether the defender can make the hero find n only moves in a row.
static int has_row(const Pos *p, int outcome, int n) {
    Mv key, ms[256];
    if (result(p) != outcome) return 0;
    if (!n) return 1;
    if (!only_move(p, outcome, &key)) return 0;
    if (n == 1) return 1;
    Pos q = play(p, key);
    int replies = moves(&q, ms);
    for (int i = 0; i < replies; i++) { Pos r = play(&q, ms[i]); if (has_row(&r, outcome, n - 1)) return 1; }
    return 0;
}

static void fen(const Pos *p, char *out) {
    for (int r = 7; r >= 0; r--) {
        int empty = 0;
        for (int f = 0; f < 8; f++) {
            int i = man_at(p, r * 8 + f);
            if (i < 0) { empty++; continue; }
            if (empty) *out++ = '0' + empty;
            empty = 0;
            *out++ = letters[p->kind[i]] + (p->side[i] ? 32 : 0);
        }
        if (empty) *out++ = '0' + empty;
        if (r) *out++ = '/';
    }
    out += sprintf(out, " %c - ", p->stm ? 'b' : 'w');
    if (p->ep < 0) sprintf(out, "- 0 1"); else sprintf(out, "%c%c 0 1", 'a' + fx(p->ep), '1' + rk(p->ep));
}

// No side has two like men beside its king in these classes, so no move needs the square that it leaves; a promoted man may have one.
static void san(const Pos *p, Mv m, char *out) {
    int i = man_at(p, m.from);
    int takes = man_at(p, m.to) >= 0 || (p->kind[i] == P && m.to == p->ep);
    if (p->kind[i] != P) *out++ = letters[p->kind[i]]; else if (takes) *out++ = 'a' + fx(m.from);
    for (int j = 2; j < p->n; j++) if (j != i && i > 1 && p->side[j] == p->side[i] && p->kind[j] == p->kind[i]) { fprintf(stderr, "like men\n"); exit(1); }
    if (takes) *out++ = 'x';
    out += sprintf(out, "%c%c", 'a' + fx(m.to), '1' + rk(m.to));
    if (m.promoted) out += sprintf(out, "=%c", letters[m.promoted]);
    Pos q = play(p, m);
    Mv ms[256];
    if (in_check(&q, q.stm)) *out++ = moves(&q, ms) ? '+' : '#';
    *out = 0;
}

// ---- all positions of a class: once up to symmetry, and with like men a side only with White to move

static int like_sides;
static void each(const char *class, void (*look)(const Pos *)) {
    Pos p; Table t = {2, {0, 1}, {0, 0}, NULL};
    int black = 0;
    for (const char *c = class + 1; *c; c++) {
        if (*c == 'K') { black = 1; continue; }
        t.side[t.n - 2] = black; t.kind[t.n - 2] = (int)(strchr(letters, *c) - letters); t.n++;
    }
    like_sides = t.n == 4 && t.side[0] != t.side[1] && t.kind[0] == t.kind[1];
    for (size_t i = 0; i < size_of(t.n); i++) {
        if (!read_cell(&t, i, &p) || (like_sides && p.stm)) continue;
        if (p.n == 4 && p.side[2] == p.side[3] && p.kind[2] == p.kind[3] && p.at[2] > p.at[3]) continue;
        look(&p);
        // a capture en passant that is legal makes it another position
        for (int j = 2; j < p.n; j++) {
            if (p.kind[j] != P || p.side[j] == p.stm || rk(p.at[j]) != (p.stm ? 3 : 4)) continue;
            int behind = p.stm ? -8 : 8, ep = p.at[j] + behind;
            if (man_at(&p, ep) >= 0 || man_at(&p, ep + behind) >= 0) continue;
            Pos q = p; q.ep = ep;
            Mv ms[256]; int n = moves(&q, ms);
            for (int k = 0; k < n; k++) if (ms[k].to == ep && q.kind[man_at(&q, ms[k].from)] == P) { look(&q); break; }
        }
    }
}

static long sums[2][6]; // by result, by promotion: none, Q R B N
static void count_it(const Pos *p) {
    int o = result(p);
    Mv key;
    if (o && only_move(p, o, &key)) sums[o == DRAW][key.promoted]++;
}

// The longest row of only moves, of twelve at most, for a hero who has to find some: each reply is the first that leads on.
static int row_of(const Pos *p, int outcome, Mv *row) {
    int n = 1;
    while (n < 12 && has_row(p, outcome, n + 1)) n++;
    Pos at = *p;
    for (int i = 0; i < 2 * n - 1; i++) {
        Mv ms[256];
        if (i % 2 == 0) only_move(&at, outcome, &row[i]);
        else {
            int k = moves(&at, ms);
            for (int j = 0; j < k; j++) { Pos next = play(&at, ms[j]); if (has_row(&next, outcome, n - (i + 1) / 2)) { row[i] = ms[j]; break; } }
        }
        at = play(&at, row[i]);
    }
    return 2 * n - 1;
}

// ---- mutual zugzwangs

static Pos handed_on(const Pos *p) { Pos q = *p; q.stm = !p->stm; q.ep = -1; return q; }

static int half_points(const Pos *p) { int v = value(p); return v == WIN ? 2 : v == DRAW; }

static int is_zugzwang(const Pos *p) {
    Pos q = handed_on(p);
    Mv ms[256];
    if (in_check(&q, !q.stm) || half_points(p) == 2) return 0;
    int n = moves(p, ms);
    for (int i = 0; i < n; i++) if (p->ep >= 0 && ms[i].to == p->ep && p->kind[man_at(p, ms[i].from)] == P) return 0;
    return n && moves(&q, ms) && half_points(p) + half_points(&q) < 2;
}

// The other move fails to one reply into a zugzwang; in the strict sense the hero would reach his goal there if the opponent were to move.
static int fails_into(const Pos *q, int outcome, int strict) {
    Mv reply;
    if (!only_move(q, outcome == WIN ? DRAW : WIN, &reply)) return 0;
    Pos z = play(q, reply);
    if (!is_zugzwang(&z)) return 0;
    Pos other = handed_on(&z);
    int v = value(&other);
    return !strict || v == LOSS || (outcome == DRAW && v == DRAW);
}

static long tries[2][2];
static void try_it(const Pos *p) {
    int o = result(p), any = 0, strict = 0;
    Mv key, ms[256];
    if (!o || !only_move(p, o, &key)) return;
    Pos next = play(p, key);
    if (!is_zugzwang(&next)) return;
    int n = moves(p, ms);
    for (int i = 0; i < n; i++) { Pos q = play(p, ms[i]); any |= fails_into(&q, o, 0); strict |= fails_into(&q, o, 1); }
    tries[o == DRAW][0] += any;
    tries[o == DRAW][1] += strict;
    if (any != strict) { char text[128]; fen(p, text); printf("# %s %s\n", text, o == WIN ? "win" : "draw"); }
}

// ---- a move of the hero in the row that is shown

enum { UNDERPROMOTION, OFFER, ZUGZWANG, STALEMATE, KINDS };
static const char *kinds[] = {"underpromotion", "offer", "zugzwang", "stalemate"};

// The move that led from p to q promotes to less than a queen; its man can be taken, in passing too; leads into a mutual zugzwang; stalemates.
static int is_such(const Pos *p, Mv m, const Pos *q, int kind) {
    Mv ms[256];
    if (kind == UNDERPROMOTION) return m.promoted > Q;
    if (kind == ZUGZWANG) return is_zugzwang(q);
    int n = moves(q, ms);
    if (kind == STALEMATE) return !n && !in_check(q, q->stm);
    for (int i = 0; i < n; i++) { Pos r = play(q, ms[i]); int k = man_at(&r, m.to); if (k < 0 || r.side[k] != p->stm) return 1; }
    return 0;
}

// The kinds in the row, a bit each.
static unsigned kinds_in(const Pos *p, int outcome) {
    Mv row[23];
    int n = row_of(p, outcome, row);
    unsigned in = 0;
    Pos at = *p;
    for (int i = 0; i < n; i++) {
        Pos next = play(&at, row[i]);
        for (int k = 0; i % 2 == 0 && k < KINDS; k++) in |= (unsigned)is_such(&at, row[i], &next, k) << k;
        at = next;
    }
    return in;
}

static int wanted, length;
static unsigned asked;
static void write_it(const Pos *p) {
    if (!has_row(p, wanted, length) || (kinds_in(p, wanted) & asked) != asked) return;
    char text[128], node[64] = "";
    Mv row[23];
    int n = row_of(p, wanted, row);
    fen(p, text);
    printf("position %s|stipulate %s %s|", text, p->stm ? "black" : "white", wanted == WIN ? "win" : "draw");
    Pos at = *p;
    for (int i = 0; i < n; i++) {
        san(&at, row[i], text);
        printf("insert %s %s|", i ? node : "root", text);
        strcat(node, i ? ".0" : "0");
        at = play(&at, row[i]);
    }
    printf("pgn\n");
}

static int most;
static long withs[2][13][1 << KINDS];
static void row_it(const Pos *p) {
    int o = result(p);
    if (!o || !has_row(p, o, 1)) return;
    unsigned in = kinds_in(p, o);
    for (int n = 1; n <= most && has_row(p, o, n); n++) withs[o == DRAW][n][in]++;
}

// The positions whose row has all of these kinds.
static long with_all(const long *counts, unsigned wanted_kinds) {
    long all = 0;
    for (unsigned in = 0; in < 1 << KINDS; in++) if ((in & wanted_kinds) == wanted_kinds) all += counts[in];
    return all;
}

static void write_withs(const char *class) {
    for (int o = 0; o < 2; o++)
        for (int n = 1; n <= most; n++)
            for (unsigned some = 0; some < 1 << KINDS; some++) {
                long all = with_all(withs[o][n], some);
                if (!all && some & (some - 1)) continue; // no line for two kinds that no row has
                printf("%s\t%s %d", class, o ? "draw" : "win", n);
                for (int k = 0; k < KINDS; k++) if (some >> k & 1) printf(" row-%s", kinds[k]);
                printf("\t%ld\n", all);
            }
}

// ---- families: positions that differ in the square of one man, and have the same key

static int theme_length; // 0: an underpromotion, -1: into a zugzwang, else only moves in a row
static int theme_outcome; // or 0 for either

// Whether the position has the theme; its result and its key.
static int has_theme(const Pos *p, int *o, Mv *key) {
    *o = result(p);
    if (!*o || (theme_outcome && *o != theme_outcome) || !only_move(p, *o, key)) return 0;
    if (!theme_length) return key->promoted > Q;
    Pos q = play(p, *key);
    return theme_length < 0 ? is_zugzwang(&q) : has_row(p, *o, theme_length);
}

static int passes_legally(const Pos *p) {
    Mv ms[256];
    int n = moves(p, ms);
    for (int i = 0; i < n; i++) if (p->ep >= 0 && ms[i].to == p->ep && p->kind[man_at(p, ms[i].from)] == P) return 1;
    return 0;
}

// The place in the order of a class with pawns, of like men the lower square first; those with a capture in passing come last.
static size_t place(const Pos *p) {
    Pos q = *p;
    if (q.n == 4 && q.side[2] == q.side[3] && q.kind[2] == q.kind[3]) { q.at[2] = p->at[3]; q.at[3] = p->at[2]; }
    size_t a = cell(p), b = cell(&q);
    return (a < b ? a : b) + (passes_legally(p) ? 1u << 24 : 0);
}

static int is_position(const Pos *p) {
    for (int j = 0; j < p->n; j++) {
        for (int k = 0; k < j; k++) if (p->at[k] == p->at[j]) return 0;
        if (p->kind[j] == P && (rk(p->at[j]) == 0 || rk(p->at[j]) == 7)) return 0;
    }
    if (p->ep >= 0) {
        int behind = p->stm ? -8 : 8, i = man_at(p, p->ep - behind);
        if (i < 0 || p->kind[i] != P || p->side[i] == p->stm || man_at(p, p->ep) >= 0 || man_at(p, p->ep + behind) >= 0) return 0;
    }
    return !in_check(p, !p->stm);
}

static long with_theme, firsts;
static void family_it(const Pos *p) {
    int o, other;
    Mv key, same;
    if (!has_theme(p, &o, &key)) return;
    with_theme++;
    size_t own = place(p);
    for (int i = 0; i < p->n; i++)
        for (int s = 0; s < 64; s++) {
            Pos q = *p;
            q.at[i] = s;
            if (s == p->at[i] || !is_position(&q) || place(&q) >= own) continue;
            if (has_theme(&q, &other, &same) && other == o && same.from == key.from && same.to == key.to && same.promoted == key.promoted) return;
        }
    firsts++;
}

static void write_families(const char *class, const char *theme, const char *more) {
    theme_length = !strcmp(theme, "underpromotion") ? 0 : !strcmp(theme, "into") ? -1 : atoi(more);
    const char *goal = theme_length > 0 ? theme : more;
    theme_outcome = !theme_length ? 0 : !strcmp(goal, "win") ? WIN : DRAW;
    each(class, family_it);
    printf("%s\t%s%s%s\t%ld\n", class, theme, *more ? " " : "", more, with_theme);
    printf("%s\t%s%s%s families\t%ld\n", class, theme, *more ? " " : "", more, firsts);
}

int main(int argc, char **argv) {
    geometry();
    setvbuf(stdout, NULL, _IOLBF, 0);
    if (argc > 1 && strchr(argv[1], '/')) { cells_from = argv[1]; argc--; argv++; }
    if (argc >= 3 && !strcmp(argv[1], "tries")) {
        for (int a = 2; a < argc; a++) {
            memset(tries, 0, sizeof tries);
            each(argv[a], try_it);
            for (int o = 0; o < 2; o++)
                printf("%s\ttry %s\t%ld\n# %s\ttry %s into any zugzwang\t%ld\n", argv[a], o ? "draw" : "win", tries[o][1], argv[a], o ? "draw" : "win", tries[o][0]);
        }
        return 0;
    }
    if (argc == 4 && !strcmp(argv[1], "within") && (most = atoi(argv[3])) < 13) {
        each(argv[2], row_it);
        write_withs(argv[2]);
        return 0;
    }
    if (argc >= 4 && !strcmp(argv[1], "families")) {
        write_families(argv[2], argv[3], argc > 4 ? argv[4] : "");
        return 0;
    }
    if (argc >= 3 && !strcmp(argv[1], "counts")) {
        for (int a = 2; a < argc; a++) {
            memset(sums, 0, sizeof sums);
            each(argv[a], count_it);
            for (int o = 0; o < 2; o++) {
                const char *name = o ? "draw" : "win";
                long *s = sums[o], low = s[R] + s[B] + s[N];
                printf("%s\t%s 1\t%ld\n", argv[a], name, s[0] + s[Q] + low);
                for (int k = Q; k <= N; k++) printf("%s\t%s 1 =%c\t%ld\n", argv[a], name, letters[k], s[k]);
                printf("%s\tunderpromotion %ss\t%ld\n", argv[a], name, low);
            }
        }
        return 0;
    }
    if (argc >= 5 && !strcmp(argv[1], "rows")) {
        wanted = !strcmp(argv[3], "win") ? WIN : DRAW; length = atoi(argv[4]);
        for (int a = 5; a < argc; a++) for (int k = 0; k < KINDS; k++) asked |= (unsigned)!strcmp(argv[a], kinds[k]) << k;
        each(argv[2], write_it);
        return 0;
    }
    fprintf(stderr, "usage: filters counts CLASS.. | rows CLASS win|draw N [KIND ..] | tries CLASS.. | within CLASS N | families CLASS THEME\n");
    return 2;
}

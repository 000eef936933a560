/* Inference as in crates/table and crates/inference, written in C by hand: the same cells, tests and order, to count what Rattle's code
   costs beside C's. Nothing here is proved. The answer is the code in the low 32 bits and the place, or the count of type words, above. */
#include <stdbool.h>
#include "calls.h"

/* A type cell and the pair beside it: a pending pair while solving, then a mark and a variable's number plus one. */
struct cell { uint32_t tag, a, b, left, right; };
enum { FREE, LINK, UNIT, BOOL, INT, ARROW };
struct answer { uint32_t code, place; };

/* The check of a table. */

static bool is_child(uint32_t n, uint32_t k, uint32_t c) { return k < c && c < n; }

static bool keeps_rule(uint32_t n, uint32_t k, const struct node *w) {
    switch (w->kind) {
    case 0: return w->a == 0 && w->b == 0 && w->c == 0;
    case 1: return w->a <= 1 && w->b == 0 && w->c == 0;
    case 2: return w->b == 0 && w->c == 0;
    case 3: return w->a <= 9 && w->b == 0 && w->c == 0;
    case 4: return w->a <= 65535 && w->b == 0 && w->c == 0;
    case 5: return is_child(n, k, w->a) && is_child(n, k, w->b) && w->c == 0;
    case 6: return is_child(n, k, w->a) && is_child(n, k, w->b) && is_child(n, k, w->c);
    case 7:
    case 9: return w->a <= 65535 && is_child(n, k, w->b) && w->c == 0;
    case 8: return w->a <= 65535 && is_child(n, k, w->b) && is_child(n, k, w->c);
    default: return false;
    }
}

/* In how many fields of a node k stands as a child. */
static uint32_t times_in(const struct node *w, uint32_t k) {
    switch (w->kind) {
    case 5: return (w->a == k) + (w->b == k);
    case 6: return (w->a == k) + (w->b == k) + (w->c == k);
    case 7:
    case 9: return w->b == k;
    case 8: return (w->b == k) + (w->c == k);
    default: return 0;
    }
}

static uint32_t children_in(const struct node *w) {
    switch (w->kind) {
    case 5:
    case 8: return 2;
    case 6: return 3;
    case 7:
    case 9: return 1;
    default: return 0;
    }
}

/* Is each node but 0 a child, of no more children than these? */
static bool placed(const struct node *nodes, uint32_t n) {
    uint64_t children = 0;
    for (uint32_t p = 0; p < n; p++) children += children_in(&nodes[p]);
    if (children + 1 != n) return false;
    for (uint32_t k = 1; k < n; k++) {
        uint32_t p = k;
        while (p > 0 && times_in(&nodes[p - 1], k) == 0) p--;
        if (p == 0) return false;
    }
    return true;
}

/* Does k stand in a field of a node that has children? */
static bool mentions(const struct node *w, uint32_t k) { return w->kind >= 5 && (w->b == k || w->c == k || w->a == k); }

/* The binder of the name x at node k, or -1. */
static int32_t binder(const struct node *nodes, uint32_t x, uint32_t k) {
    uint32_t current = k;
    for (uint32_t p = k; p > 0;) {
        const struct node *w = &nodes[--p];
        if (!mentions(w, current)) continue;
        switch (w->kind) {
        case 5:
            if (w->a == current || w->b == current) current = p;
            break;
        case 6:
            if (w->a == current || w->b == current || w->c == current) current = p;
            break;
        case 7:
        case 9:
            if (w->b == current) {
                if (w->a == x) return (int32_t)p;
                current = p;
            }
            break;
        case 8:
            if (w->b == current) {
                current = p;
            } else if (w->c == current) {
                if (w->a == x) return (int32_t)p;
                current = p;
            }
            break;
        }
    }
    return -1;
}

/* Code 0 with the node count, or 1 to 4 with the smallest place. */
static struct answer check(const uint32_t *words, size_t length) {
    if (length == 0 || length > 2048 || length % 4 != 0) return (struct answer){1, 0};
    const struct node *nodes = (const struct node *)words;
    uint32_t n = (uint32_t)(length / 4);
    for (uint32_t k = 0; k < n; k++)
        if (!keeps_rule(n, k, &nodes[k])) return (struct answer){2, k};
    bool tree = placed(nodes, n);
    for (uint32_t k = 1; k < n && !tree; k++) {
        uint32_t times = 0;
        for (uint32_t p = 0; p < k; p++) {
            times += times_in(&nodes[p], k);
            if (times > 1) return (struct answer){3, k};
        }
        if (times == 0) return (struct answer){3, k};
    }
    for (uint32_t k = 0; k < n; k++)
        if (nodes[k].kind == 4 && binder(nodes, nodes[k].a, k) < 0) return (struct answer){4, k};
    return (struct answer){0, n};
}

/* Solving. Links lead to smaller numbers. */

/* Each second cell on the way is linked past the next. */
static uint32_t find(struct cell *cells, uint32_t i) {
    for (;;) {
        if (cells[i].tag != LINK) return i;
        uint32_t next = cells[i].a;
        if (cells[next].tag != LINK) return next;
        uint32_t over = cells[next].a;
        cells[i].a = over;
        i = over;
    }
}

static void link_to(struct cell *cells, uint32_t j, uint32_t i) {
    cells[j].tag = LINK;
    cells[j].a = i;
    cells[j].b = 0;
}

/* Cells i and j are made equal, and so many pending pairs beside the first cells. */
static bool solve(struct cell *cells, uint32_t i, uint32_t j, uint32_t pending) {
    for (;;) {
        uint32_t p = find(cells, i), q = find(cells, j);
        if (p != q) {
            if (p > q) {
                uint32_t t = p;
                p = q;
                q = t;
            }
            struct cell *low = &cells[p], *high = &cells[q];
            if (low->tag == FREE) {
                low->tag = high->tag;
                low->a = high->a;
                low->b = high->b;
                link_to(cells, q, p);
            } else if (high->tag == FREE) {
                link_to(cells, q, p);
            } else if (low->tag != high->tag) {
                return false;
            } else if (low->tag == ARROW) {
                uint32_t a = high->a, b = high->b;
                link_to(cells, q, p);
                cells[pending].left = low->b;
                cells[pending].right = b;
                pending++;
                i = low->a;
                j = a;
                continue;
            } else {
                link_to(cells, q, p);
            }
        }
        if (pending == 0) return true;
        pending--;
        i = cells[pending].left;
        j = cells[pending].right;
    }
}

static bool join(struct cell *cells, uint32_t i, uint32_t j) { return solve(cells, i, j, 0); }

/* Cell i is a base type or an arrow from a to b. */
static bool say(struct cell *cells, uint32_t i, uint32_t tag, uint32_t a, uint32_t b) {
    struct cell *root = &cells[find(cells, i)];
    if (root->tag == FREE) {
        root->tag = tag;
        root->a = a;
        root->b = b;
        return true;
    }
    if (root->tag != tag) return false;
    if (tag != ARROW) return true;
    cells[0].left = root->b;
    cells[0].right = b;
    return solve(cells, root->a, a, 1);
}

/* The equations of the nodes. */

static uint32_t type_cell(uint32_t k) { return 2 * k + 4; }
static uint32_t name_cell(uint32_t k) { return 2 * k + 5; }

static bool rule(const struct node *nodes, struct cell *cells, uint32_t k) {
    const struct node *w = &nodes[k];
    uint32_t t = type_cell(k);
    switch (w->kind) {
    case 0:
    case 1:
    case 2: return say(cells, t, w->kind + 2, 0, 0);
    case 3: return say(cells, t, ARROW, 1, w->a < 5 ? 2 : 3);
    case 4: return join(cells, t, name_cell((uint32_t)binder(nodes, w->a, k)));
    case 5: return say(cells, type_cell(w->a), ARROW, type_cell(w->b), t);
    case 6:
        return say(cells, type_cell(w->a), BOOL, 0, 0) && join(cells, t, type_cell(w->b)) && join(cells, t, type_cell(w->c));
    case 7: return say(cells, t, ARROW, name_cell(k), type_cell(w->b));
    case 8: return join(cells, t, type_cell(w->c)) && join(cells, name_cell(k), type_cell(w->b));
    case 9: return join(cells, t, name_cell(k)) && join(cells, t, type_cell(w->b));
    default: return say(cells, t, UNIT, 0, 0);
    }
}

static bool solve_table(const struct node *nodes, struct cell *cells, uint32_t n) {
    cells[0].tag = BOOL;
    cells[1].tag = INT;
    cells[2].tag = cells[3].tag = ARROW;
    cells[2].a = cells[2].b = cells[3].a = 1;
    for (uint32_t k = 0; k < n; k++)
        if (!rule(nodes, cells, k)) return false;
    return true;
}

/* Grounding: cells are marked as soon as all that they lean on is marked. */

static bool leans(const struct cell *cells, const struct cell *c) {
    if (c->tag == LINK) return cells[c->a].left == 0;
    if (c->tag == ARROW) return cells[c->a].left == 0 || cells[c->b].left == 0;
    return false;
}

static uint32_t visit(struct cell *cells, uint32_t i) {
    struct cell *c = &cells[i];
    if (c->left != 0 || leans(cells, c)) return 0;
    c->left = 1;
    c->right = 0;
    return 1;
}

static bool grounded(struct cell *cells, uint32_t n) {
    for (uint32_t i = 0; i < n; i++) cells[i].left = cells[i].right = 0;
    for (uint32_t left = n; left > 0;) {
        uint32_t new = 0;
        for (uint32_t i = 0; i < n; i++) {
            new += visit(cells, i);
            new += visit(cells, n - 1 - i);
        }
        if (new == 0) return false;
        left -= new;
    }
    return true;
}

/* The type of a cell, measured and written. */

static const struct cell *root(const struct cell *cells, uint32_t i) {
    while (cells[i].tag == LINK) i = cells[i].a;
    return &cells[i];
}

#define OVER SIZE_MAX

/* What is left of the room after the words of cell i's type, or OVER. */
static size_t measure(const struct cell *cells, uint32_t i, size_t room) {
    if (room == 0) return OVER;
    const struct cell *c = root(cells, i);
    if (c->tag != ARROW) return room - 1;
    size_t rest = measure(cells, c->a, room - 1);
    if (rest == OVER) return OVER;
    return measure(cells, c->b, rest);
}

/* The words of cell i's type at `out`; gives what follows them. */
static uint32_t *write_words(struct cell *cells, uint32_t i, uint32_t *out, uint32_t *numbered) {
    struct cell *c = (struct cell *)root(cells, i);
    if (c->tag == ARROW) {
        *out = 4;
        out = write_words(cells, c->a, out + 1, numbered);
        return write_words(cells, c->b, out, numbered);
    }
    if (c->tag == FREE) {
        if (c->right == 0) c->right = ++*numbered;
        *out = c->right + 15;
    } else {
        *out = c->tag - 1;
    }
    return out + 1;
}

static void clear(uint32_t *words, size_t length) {
    for (size_t i = 0; i < length; i++) words[i] = 0;
}

static struct answer in_cells(const struct node *nodes, uint32_t n, struct cell *cells, uint32_t *out, size_t out_length) {
    clear((uint32_t *)cells, 5 * (2 * n + 4));
    if (!solve_table(nodes, cells, n) || !grounded(cells, 2 * n + 4)) return (struct answer){6, 0};
    size_t left = measure(cells, 4, out_length);
    if (left == OVER) return (struct answer){7, 0};
    uint32_t numbered = 0;
    write_words(cells, 4, out, &numbered);
    return (struct answer){0, (uint32_t)(out_length - left)};
}

static uint64_t packed(struct answer a) { return (uint64_t)a.place << 32 | a.code; }

uint64_t c_check(const uint32_t *words, size_t length) { return packed(check(words, length)); }

uint64_t c_infer(const uint32_t *words, size_t length, uint32_t *work, size_t work_length, uint32_t *out, size_t out_length) {
    struct answer a = check(words, length);
    if (a.code != 0) return packed(a);
    uint32_t n = a.place;
    size_t size = 24 * (size_t)n + 16;
    if (work_length < size) return 5;
    a = in_cells((const struct node *)words, n, (struct cell *)work, out, out_length);
    clear(work, size);
    return packed(a);
}

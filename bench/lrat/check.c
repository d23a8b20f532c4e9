/* A plain checker of LRAT proofs, to compare the time of `knox check` with.
   cc -O2 -o check check.c; ./check FORMULA PROOF
   It stands for the same algorithm: all clauses in one array in order of their ids, marks for each
   literal, the literals that were assumed in a stack, and for each literal the clauses that hold it. It
   trusts the texts to have their format. */
#include <ctype.h>
#include <stdio.h>
#include <stdlib.h>
#include <string.h>

typedef struct { long id; long first; long count; long covered; char live; } Clause;
typedef struct { long *places; long count, room; } List;

static char *text, *at;
static long *literals, used, room;
static Clause *clauses;
static long clause_count, clause_room, formula_count;
static char *marks;
static List *lists;
static long width;
static long *trail, trail_count, trail_room;
static long *hints, hint_count, hint_room;

static void load(const char *name) {
    FILE *file = fopen(name, "rb");
    if (!file) { perror(name); exit(2); }
    fseek(file, 0, SEEK_END);
    long size = ftell(file);
    rewind(file);
    text = malloc(size + 1);
    if (fread(text, 1, size, file) != (size_t)size) exit(2);
    text[size] = 0;
    fclose(file);
    at = text;
}

static long number(void) {
    while (isspace((unsigned char)*at)) at++;
    long sign = 1, value = 0;
    if (*at == '-') { sign = -1; at++; }
    while (*at >= '0' && *at <= '9') value = value * 10 + (*at++ - '0');
    return sign * value;
}

static void push(long **numbers, long *count, long *most, long n) {
    if (*count == *most) *numbers = realloc(*numbers, (*most = *most ? 2 * *most : 4) * sizeof **numbers);
    (*numbers)[(*count)++] = n;
}

static long place(long l) { return l > 0 ? 2 * l : -2 * l + 1; }

static void widen(long count) {
    if (count <= width) return;
    long more = count > 2 * width ? count : 2 * width;
    marks = realloc(marks, more);
    lists = realloc(lists, more * sizeof *lists);
    memset(marks + width, 0, more - width);
    memset(lists + width, 0, (more - width) * sizeof *lists);
    width = more;
}

static void push_literal(long l) {
    push(&literals, &used, &room, l);
    widen(2 * labs(l) + 2);
}

static void push_clause(long id, long first) {
    if (clause_count == clause_room) clauses = realloc(clauses, (clause_room = clause_room ? 2 * clause_room : 1024) * sizeof *clauses);
    for (long i = first; i < used; i++) {
        List *list = &lists[place(literals[i])];
        push(&list->places, &list->count, &list->room, clause_count);
    }
    clauses[clause_count++] = (Clause){id, first, used - first, 0, 1};
}

static Clause *find(long id) {
    if (id >= 1 && id <= formula_count) return &clauses[id - 1];
    long low = formula_count, high = clause_count;
    if (low < high && id >= clauses[low].id) {
        long guess = low + id - clauses[low].id;
        if (guess < high && clauses[guess].id == id) return &clauses[guess];
    }
    while (low < high) {
        long middle = (low + high) / 2;
        if (clauses[middle].id == id) return &clauses[middle];
        if (clauses[middle].id < id) low = middle + 1; else high = middle;
    }
    return 0;
}

static void fail(long line, const char *why, long id) {
    printf("rejected line %ld %s %ld\n", line, why, id);
    exit(1);
}

static Clause *live(long line, long id) {
    Clause *c = find(id);
    if (!c || !c->live) fail(line, "NoSuchClause", id);
    return c;
}

static void assume(long l) {
    if (marks[place(l)]) return;
    marks[place(l)] = 1;
    push(&trail, &trail_count, &trail_room, l);
}

static void undo(long count) {
    while (trail_count > count) marks[place(trail[--trail_count])] = 0;
}

/* Takes hints up to a place, or to a negative one where there is one: whether a clause was false. */
static long take(long line, long *next) {
    long done = 0;
    for (; *next < hint_count && hints[*next] > 0; ++*next) {
        if (done) continue;
        Clause *c = live(line, hints[*next]);
        long left = 0;
        for (long i = 0; i < c->count; i++) {
            long m = literals[c->first + i];
            if (marks[place(-m)]) continue;
            if (left && left != m) fail(line, "NotUnit", c->id);
            left = m;
        }
        if (!left) done = 1; else assume(left);
    }
    return done;
}

/* Takes the group at a place. */
static void take_group(long line, long pivot, long *next) {
    long base = trail_count, held = 0, satisfied = 0;
    Clause *c = live(line, -hints[*next]);
    for (long i = 0; i < c->count; i++) {
        long m = literals[c->first + i];
        if (m == -pivot) held = 1; else if (marks[place(m)]) satisfied = 1;
    }
    if (!held) fail(line, "NotPivot", c->id);
    c->covered = line;
    ++*next;
    if (satisfied) {
        while (*next < hint_count && hints[*next] > 0) ++*next;
        return;
    }
    for (long i = 0; i < c->count; i++)
        if (literals[c->first + i] != -pivot) assume(-literals[c->first + i]);
    if (!take(line, next)) fail(line, "NoConflict", 0);
    undo(base);
}

static void check(long line, long first) {
    long next = 0, done = 0;
    for (long i = first; i < used; i++) {
        if (marks[place(literals[i])]) done = 1;
        assume(-literals[i]);
    }
    if (!done && !take(line, &next)) {
        if (first == used) fail(line, next < hint_count ? "NoPivot" : "NoConflict", 0);
        long pivot = literals[first], grouped = next < hint_count;
        while (next < hint_count) take_group(line, pivot, &next);
        List *list = &lists[place(-pivot)];
        for (long i = 0; i < list->count; i++) {
            Clause *c = &clauses[list->places[i]];
            if (c->live && c->covered != line) fail(line, grouped ? "Uncovered" : "NoConflict", c->id);
        }
    }
    undo(0);
}

int main(int argc, char **argv) {
    if (argc != 3) return 2;
    load(argv[1]);
    at = strstr(at, "p cnf") + 5;
    long variables = number(), count = number(), closed = 0;
    widen(2 * variables + 2);
    for (long i = 0; i < count; i++) {
        long first = used, l;
        while ((l = number())) push_literal(l);
        push_clause(i + 1, first);
        closed |= used == first;
    }
    formula_count = count;
    free(text);
    load(argv[2]);
    for (long line = 1;; line++) {
        while (isspace((unsigned char)*at)) at++;
        if (!*at) break;
        long id = number();
        while (*at == ' ') at++;
        if (*at == 'd') {
            at++;
            while ((id = number())) live(line, id)->live = 0;
            continue;
        }
        if (clause_count && id <= clauses[clause_count - 1].id) fail(line, "IdNotNew", id);
        long first = used, n;
        while ((n = number())) push_literal(n);
        hint_count = 0;
        while ((n = number())) push(&hints, &hint_count, &hint_room, n);
        check(line, first);
        push_clause(id, first);
        closed |= used == first;
    }
    puts(closed ? "verified" : "rejected no empty clause");
    return !closed;
}

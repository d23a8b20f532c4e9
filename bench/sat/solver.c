/* A plain solver of formulas, to compare the time of `knox sat` with.
   cc -O2 -o solver solver.c; ./solver FORMULA [BUDGET]
   It searches by the same rule and so comes to the same lemmas: two watched literals a clause, first unique
   implication points, lemmas without literals that follow from others of them by one clause, variables by
   activity in a heap, phases that are kept, restarts by the same sequence, and no lemma is dropped. It prints
   a model, or an LRAT proof. It trusts the text to have its format, and checks no lemma. */
#include <ctype.h>
#include <stdint.h>
#include <stdio.h>
#include <stdlib.h>
#include <string.h>

enum { NONE = -1 };
static const uint64_t LIMIT = 1ull << 60, SCALE = 1ull << 40;

typedef struct { int *items; long count, room; } List;
typedef struct { long first; int count; } Clause;

/* A literal is twice its variable, and one more where it is negative. */
static int variables, formula_count;
static List literals, hints, trail, decisions, heap;
static Clause *clauses, *derived;
static long clause_count, clause_room, derived_room;
static List *watchers;
static signed char *values;
static char *phases, *seen;
static int *reasons, *places, *heap_places;
static uint64_t *scores;
static long done;
static uint64_t step = 1024, pace = 100, left = 100;
static List kept, cone;

static void *sized(void *room, size_t bytes) {
    void *more = realloc(room, bytes);
    if (!more && bytes) { puts("memory"); exit(9); }
    return more;
}

static void push(List *list, int item) {
    if (list->count == list->room) list->items = sized(list->items, (list->room = list->room ? 2 * list->room : 4) * sizeof(int));
    list->items[list->count++] = item;
}

static int variable(int literal) { return literal >> 1; }
static int number(int literal) { return literal & 1 ? -(literal >> 1) : literal >> 1; }

/* The clause of the literals from a place on. */
static long add_clause(long first) {
    if (clause_count == clause_room) clauses = sized(clauses, (clause_room = clause_room ? 2 * clause_room : 1024) * sizeof *clauses);
    clauses[clause_count] = (Clause){first, (int)(literals.count - first)};
    return clause_count++;
}

static int *lits_of(long clause) { return literals.items + clauses[clause].first; }

static void watch(long clause) {
    if (clauses[clause].count < 2) return;
    push(&watchers[lits_of(clause)[0]], (int)clause);
    push(&watchers[lits_of(clause)[1]], (int)clause);
}

/* Reading. */

static char *load(const char *name) {
    FILE *file = fopen(name, "rb");
    if (!file) { perror(name); exit(2); }
    fseek(file, 0, SEEK_END);
    long size = ftell(file);
    rewind(file);
    char *text = sized(0, size + 1);
    if (fread(text, 1, size, file) != (size_t)size) exit(2);
    text[size] = 0;
    fclose(file);
    return text;
}

static long next_number(char **at) {
    char *p = *at;
    while (isspace((unsigned char)*p)) p++;
    long sign = 1, value = 0;
    if (*p == '-') { sign = -1; p++; }
    while (*p >= '0' && *p <= '9') value = value * 10 + (*p++ - '0');
    *at = p;
    return sign * value;
}

static void read_formula(const char *name) {
    char *text = load(name), *at = strstr(text, "p cnf");
    if (!at) exit(2);
    at += 5;
    variables = (int)next_number(&at);
    formula_count = (int)next_number(&at);
    long width = 2 * (variables + 1l);
    int *last = calloc(width, sizeof *last);
    for (int i = 0; i < formula_count; i++) {
        long first = literals.count, n;
        while ((n = next_number(&at))) {
            int literal = (int)(n > 0 ? 2 * n : -2 * n + 1);
            if (last[literal] == i + 1) continue;
            last[literal] = i + 1;
            push(&literals, literal);
        }
        add_clause(first);
    }
    free(last);
    free(text);
}

static void prepare(void) {
    long width = variables + 1l;
    watchers = calloc(2 * width, sizeof *watchers);
    values = calloc(2 * width, 1);
    phases = calloc(width, 1);
    seen = calloc(width, 1);
    reasons = calloc(width, sizeof *reasons);
    places = calloc(width, sizeof *places);
    heap_places = calloc(width, sizeof *heap_places);
    scores = calloc(width, sizeof *scores);
    for (int v = 0; v < width; v++) { push(&heap, v); heap_places[v] = v; }
    for (long i = 0; i < clause_count; i++) watch(i);
}

/* The order of variables. */

static void put(int at, int v) { heap.items[at] = v; heap_places[v] = at; }

static void rise(int at) {
    int v = heap.items[at];
    while (at > 0) {
        int parent = (at - 1) / 2;
        if (scores[v] <= scores[heap.items[parent]]) break;
        put(at, heap.items[parent]);
        at = parent;
    }
    put(at, v);
}

static void sink(void) {
    int at = 0, v = heap.items[0];
    for (;;) {
        int child = 2 * at + 1;
        if (child >= heap.count) break;
        if (child + 1 < heap.count && scores[heap.items[child]] < scores[heap.items[child + 1]]) child++;
        if (scores[heap.items[child]] <= scores[v]) break;
        put(at, heap.items[child]);
        at = child;
    }
    put(at, v);
}

static int take_first(void) {
    int first = heap.items[0], last = heap.items[--heap.count];
    heap_places[first] = NONE;
    if (heap.count) { put(0, last); sink(); }
    return first;
}

static void bump(int v) {
    scores[v] += step;
    if (scores[v] > LIMIT) {
        for (int k = 0; k <= variables; k++) scores[k] /= SCALE;
        step = step / SCALE + 1024;
    }
    if (heap_places[v] != NONE) rise(heap_places[v]);
}

/* The trail. */

static void make_true(int literal, int reason) {
    values[literal] = 1;
    values[literal ^ 1] = -1;
    reasons[variable(literal)] = reason;
    places[variable(literal)] = (int)trail.count;
    push(&trail, literal);
}

static void go_back(long level) {
    long at = decisions.items[level];
    for (long k = at; k < trail.count; k++) {
        int literal = trail.items[k], v = variable(literal);
        values[literal] = values[literal ^ 1] = 0;
        phases[v] = !(literal & 1);
        if (heap_places[v] == NONE) { push(&heap, v); put((int)heap.count - 1, v); rise((int)heap.count - 1); }
    }
    trail.count = done = at;
    decisions.count = level;
}

/* Visits the clauses that watch a literal which is false by now. The answer is a clause that is false. */
static int visit(int falsified) {
    List *list = &watchers[falsified];
    int conflict = NONE;
    long write = 0;
    for (long read = 0; read < list->count; read++) {
        int clause = list->items[read], *lits = lits_of(clause), count = clauses[clause].count;
        if (lits[0] == falsified) { lits[0] = lits[1]; lits[1] = falsified; }
        int first = lits[0], k = 2;
        if (values[first] > 0) { list->items[write++] = clause; continue; }
        while (k < count && values[lits[k]] < 0) k++;
        if (k < count) {
            lits[1] = lits[k];
            lits[k] = falsified;
            push(&watchers[lits[1]], clause);
            continue;
        }
        list->items[write++] = clause;
        if (values[first] < 0) {
            conflict = clause;
            while (++read < list->count) list->items[write++] = list->items[read];
        } else {
            make_true(first, clause);
        }
    }
    list->count = write;
    return conflict;
}

static int propagate(void) {
    while (done < trail.count) {
        int conflict = visit(trail.items[done] ^ 1);
        if (conflict != NONE) return conflict;
        done++;
    }
    return NONE;
}

/* Makes the literals of clauses true that have no other. */
static int assert_units(void) {
    for (int i = 0; i < clause_count; i++) {
        if (clauses[i].count > 1) continue;
        if (clauses[i].count == 0 || values[lits_of(i)[0]] < 0) return i;
        if (!values[lits_of(i)[0]]) make_true(lits_of(i)[0], i);
    }
    return NONE;
}

/* Lemmas. */

static int by_place(const void *one, const void *other) {
    return places[variable(*(const int *)other)] - places[variable(*(const int *)one)];
}

/* Marks the variables of a clause's false literals: how many are of the last level. */
static int mark(int clause, int own, long at) {
    int count = 0, *lits = lits_of(clause);
    for (int i = 0; i < clauses[clause].count; i++) {
        int v = variable(lits[i]);
        if (lits[i] == own || seen[v]) continue;
        seen[v] = 1;
        if (places[v] >= at) count++; else push(&kept, lits[i]);
    }
    return count;
}

static int follows(int literal) {
    int reason = reasons[variable(literal)];
    if (reason == NONE) return 0;
    int *lits = lits_of(reason);
    for (int i = 0; i < clauses[reason].count; i++)
        if (!seen[variable(lits[i])]) return 0;
    return 1;
}

/* Leaves the lemma in `kept`, and the literals of the trail whose reasons show it in `cone`. */
static void analyze(int conflict) {
    long at = decisions.items[decisions.count - 1], p = trail.count;
    kept.count = cone.count = 0;
    push(&kept, 0);
    int count = mark(conflict, 0, at);
    for (;;) {
        while (!seen[variable(trail.items[--p])]) ;
        if (count == 1) break;
        count--;
        push(&cone, trail.items[p]);
        count += mark(reasons[variable(trail.items[p])], trail.items[p], at);
    }
    kept.items[0] = trail.items[p] ^ 1;
    qsort(kept.items + 1, kept.count - 1, sizeof(int), by_place);
    long write = 1, all = kept.count;
    for (long i = 1; i < all; i++)
        if (follows(kept.items[i])) push(&cone, kept.items[i] ^ 1); else kept.items[write++] = kept.items[i];
    for (long i = 0; i < cone.count; i++) seen[variable(cone.items[i])] = 0;
    for (long i = 0; i < write; i++) seen[variable(kept.items[i])] = 0;
    kept.count = write;
    for (long i = 0, k = cone.count - 1; i < k; i++, k--) {
        int literal = cone.items[i];
        cone.items[i] = cone.items[k];
        cone.items[k] = literal;
    }
}

/* Adds the lemma in `kept`, whose hints are the reasons of `cone` and a clause that is false. */
static long add_lemma(int conflict) {
    long first = literals.count, number = clause_count - formula_count;
    for (long i = 0; i < kept.count; i++) push(&literals, kept.items[i]);
    if (number == derived_room) derived = sized(derived, (derived_room = derived_room ? 2 * derived_room : 1024) * sizeof *derived);
    derived[number] = (Clause){hints.count, (int)cone.count + 1};
    for (long i = 0; i < cone.count; i++) push(&hints, reasons[variable(cone.items[i])] + 1);
    push(&hints, conflict + 1);
    return add_clause(first);
}

static void learn(int conflict) {
    analyze(conflict);
    long lemma = add_lemma(conflict);
    for (long i = 0; i < kept.count; i++) bump(variable(kept.items[i]));
    for (long i = 0; i < cone.count; i++) bump(variable(cone.items[i]));
    step += step / 16;
    long level = 0;
    if (kept.count > 1) {
        level = decisions.count - 1;
        while (level > 0 && decisions.items[level - 1] > places[variable(kept.items[1])]) level--;
    }
    go_back(level);
    watch(lemma);
    make_true(kept.items[0], (int)lemma);
}

static void refute(int conflict) {
    kept.count = cone.count = 0;
    for (long i = 0; i < trail.count; i++) push(&cone, trail.items[i]);
    add_lemma(conflict);
}

/* Answers. */

static void print_proof(void) {
    puts("c unsat");
    for (long i = formula_count; i < clause_count; i++) {
        Clause own = derived[i - formula_count];
        /* (watches have moved, so the first literals may stand in another order than when it was learned) */
        printf("%ld ", i + 1);
        for (int k = 0; k < clauses[i].count; k++) printf("%d ", number(lits_of(i)[k]));
        printf("0 ");
        for (int k = 0; k < own.count; k++) printf("%d ", hints.items[own.first + k]);
        puts("0");
    }
}

static void print_model(void) {
    puts("sat");
    printf("v ");
    for (int v = 1; v <= variables; v++) printf("%d ", values[2 * v] > 0 ? v : -v);
    puts("0");
}

/* A literal of the next variable that isn't assigned, or 0. */
static int choose(void) {
    while (heap.count) {
        int v = take_first();
        if (v && !values[2 * v]) return 2 * v + !phases[v];
    }
    return 0;
}

/* Goes on to the next false clause, or to a model. */
static int explore(void) {
    for (;;) {
        int conflict = propagate(), literal;
        if (conflict != NONE) return conflict;
        if (!(literal = choose())) return NONE;
        push(&decisions, (int)trail.count);
        make_true(literal, NONE);
    }
}

static void solve(unsigned long long budget) {
    int conflict = assert_units();
    for (unsigned long long turn = 0; turn < budget; turn++) {
        if (--left == 0) {
            pace += pace / 8;
            left = pace;
            if (decisions.count) go_back(0);
        }
        if (conflict == NONE) conflict = explore();
        if (conflict == NONE) { print_model(); return; }
        if (!decisions.count) { refute(conflict); print_proof(); return; }
        learn(conflict);
        conflict = NONE;
    }
    printf("spent %llu\n", budget);
}

int main(int argc, char **argv) {
    if (argc < 2) return 2;
    read_formula(argv[1]);
    prepare();
    for (long i = 0; i < clause_count; i++)
        if (clauses[i].count == 0) { puts("c unsat"); return 0; }
    solve(argc > 2 ? strtoull(argv[2], 0, 10) : ~0ull);
    return 0;
}

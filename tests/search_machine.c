/* The search machine of this repository as a plain C program: what a C programmer would write for speed, with no proof.
 *
 * It reads what crates/dimacs reads, and answers the same text and the same status: the cost, the model or the lines of
 * the refutation, byte for byte. Of a file that it can't read it says no more than that. With the word `check` it then
 * looks at the answer itself: whether each clause has a true literal, or whether each line is what its chain gives.
 *
 *     cc -O2 -std=c99 -o search_machine search_machine.c && ./search_machine < FILE
 *
 * Variable v has the literals 2 v and, negated, 2 v + 1. Clauses lie one behind the other in one array and are named by
 * the place of their first word, so the order of the places is the order of the numbers. Each has its literals twice: with
 * the lowest variables first, which change least often, for the watches, and as they were written, for the resolutions. */

#include <stdint.h>
#include <stdio.h>
#include <stdlib.h>
#include <string.h>

enum { UNSET, TRUE, FALSE };
enum { NUMBER, LENGTH, FIRST, SECOND, LITERALS }; /* the words of a clause: two literals are watched */
enum { MOST = 1000000, BUDGET = 4000000 };
#define NONE UINT32_MAX

typedef struct { uint32_t clause, blocker; } Watch;
typedef struct { Watch *items; uint32_t length, room; } List;
typedef struct { uint32_t clause, chain, chain_end; } Line;
typedef struct { uint32_t *items; size_t length, room; } Words;

static uint32_t variables, given, budget, wants_lines;
static Words clauses, chains, clause_in_hand;
static uint32_t clause_count;
static Line *lines;
static size_t line_count, line_room;
static List *watches;
static unsigned char *value, *seen;
static uint32_t *trail, *level, *cause;
static uint32_t trail_length, decisions, lowest_unset;
static uint64_t *units; /* a heap of clauses that became unit, each above the literal that it has left */
static size_t unit_count, unit_room;
static uint32_t falsified; /* the lowest falsified clause */

static void end(int status, const char *complaint) {
    fputs(complaint, stderr);
    exit(status);
}

static void *room_for(void *items, size_t *room, size_t length, size_t size) {
    if (length < *room) return items;
    *room = length < 8 ? 16 : 2 * length;
    items = realloc(items, *room * size);
    if (!items) end(13, "search_machine: out of memory\n");
    return items;
}

static void *zeros(size_t length, size_t size) {
    void *items = calloc(length + 1, size);
    if (!items) end(13, "search_machine: out of memory\n");
    return items;
}

static void push(Words *words, uint32_t word) {
    words->items = room_for(words->items, &words->room, words->length, sizeof(uint32_t));
    words->items[words->length++] = word;
}

static void push_unit(uint32_t clause, uint32_t literal) {
    uint64_t unit = (uint64_t)clause << 32 | literal;
    units = room_for(units, &unit_room, unit_count, sizeof(uint64_t));
    size_t place = unit_count++;
    for (; place > 0 && units[(place - 1) / 2] > unit; place = (place - 1) / 2) units[place] = units[(place - 1) / 2];
    units[place] = unit;
}

static uint64_t pop_unit(void) {
    uint64_t lowest = units[0], last = units[--unit_count];
    size_t place = 0, child;
    while ((child = 2 * place + 1) < unit_count) {
        if (child + 1 < unit_count && units[child + 1] < units[child]) child++;
        if (units[child] >= last) break;
        units[place] = units[child];
        place = child;
    }
    units[place] = last;
    return lowest;
}

static void watch(uint32_t literal, uint32_t clause, uint32_t blocker) {
    List *list = &watches[literal];
    if (list->length == list->room) {
        list->room = list->room ? 2 * list->room : 4;
        list->items = realloc(list->items, list->room * sizeof(Watch));
        if (!list->items) end(13, "search_machine: out of memory\n");
    }
    list->items[list->length++] = (Watch){clause, blocker};
}

/* The literals in the order in which they were written. */
static uint32_t *written(uint32_t *clause) {
    return clause + LITERALS + clause[LENGTH];
}

static int by_size(const void *first, const void *second) {
    uint32_t a = *(const uint32_t *)first, b = *(const uint32_t *)second;
    return (a > b) - (a < b);
}

static uint32_t append_clause(const uint32_t *literals, uint32_t length, uint32_t first, uint32_t second) {
    uint32_t place = clauses.length;
    push(&clauses, clause_count++);
    push(&clauses, length);
    push(&clauses, first);
    push(&clauses, second);
    for (uint32_t i = 0; i < length; i++) push(&clauses, literals[i]);
    for (uint32_t i = 0; i < length; i++) push(&clauses, literals[i]);
    if (length > 2) qsort(clauses.items + place + LITERALS, length, sizeof(uint32_t), by_size);
    if (length > 0) watch(first, place, second);
    if (length > 1) watch(second, place, first);
    return place;
}

/* A clause that watches a false literal gets another one to watch, unless it is satisfied, unit or falsified. Clauses
 * behind one that is falsified need no look: the literal is unset before they are needed again. */
static void visit_all(uint32_t literal) {
    List *list = &watches[literal];
    Watch *kept = list->items, *last = list->items + list->length;
    for (Watch *seat = list->items; seat < last; seat++) {
        if (value[seat->blocker] == TRUE || seat->clause >= falsified) {
            *kept++ = *seat;
            continue;
        }
        uint32_t *clause = clauses.items + seat->clause;
        uint32_t other = clause[FIRST] ^ clause[SECOND] ^ literal;
        uint32_t *next = clause + LITERALS, *behind = next + clause[LENGTH];
        if (value[other] != TRUE) {
            while (next < behind && (value[*next] == FALSE || *next == other)) next++;
            if (next < behind) {
                clause[FIRST] = *next;
                clause[SECOND] = other;
                watch(*next, seat->clause, other);
                continue;
            }
            if (value[other] == FALSE) falsified = seat->clause;
            else push_unit(seat->clause, other);
        }
        *kept++ = (Watch){seat->clause, other};
    }
    list->length = kept - list->items;
}

static void assign(uint32_t literal, uint32_t because) {
    value[literal] = TRUE;
    value[literal ^ 1] = FALSE;
    level[literal >> 1] = decisions;
    cause[literal >> 1] = because;
    trail[trail_length++] = literal;
    visit_all(literal ^ 1);
}

static void cut(uint32_t back) {
    while (trail_length > 0 && level[trail[trail_length - 1] >> 1] > back) {
        uint32_t literal = trail[--trail_length];
        value[literal] = value[literal ^ 1] = UNSET;
        if (literal >> 1 < lowest_unset) lowest_unset = literal >> 1;
    }
    decisions = back;
    unit_count = 0;
    falsified = NONE;
}

/* The literals of a clause that the one in hand doesn't have yet join it, and its number joins the chain. A literal that
 * is resolved away keeps its place, unmarked, till the end, and never comes back: causes go back along the trail. */
static uint32_t join(uint32_t place, uint32_t resolved) {
    uint32_t *clause = clauses.items + place, *literals = written(clause), current = 0;
    push(&chains, clause[NUMBER]);
    for (uint32_t i = 0; i < clause[LENGTH]; i++) {
        uint32_t literal = literals[i], variable = literal >> 1;
        if (variable == resolved || seen[variable]) continue;
        seen[variable] = 1;
        push(&clause_in_hand, literal);
        current += level[variable] == decisions;
    }
    return current;
}

static void analyse(void) {
    uint32_t keep = decisions > 0, place = trail_length;
    clause_in_hand.length = 0;
    uint32_t current = join(falsified, NONE);
    while (current > keep) {
        do place--; while (!seen[trail[place] >> 1]);
        uint32_t variable = trail[place] >> 1;
        seen[variable] = 0;
        current += join(cause[variable], variable) - 1;
    }
    size_t left = 0;
    for (size_t i = 0; i < clause_in_hand.length; i++) {
        uint32_t literal = clause_in_hand.items[i];
        if (seen[literal >> 1]) clause_in_hand.items[left++] = literal;
        seen[literal >> 1] = 0;
    }
    clause_in_hand.length = left;
}

/* The first rule; the clause that is learnt watches the literal that it asserts and one of the highest level beside it. */
static uint32_t resolve_conflict(void) {
    uint32_t chain = chains.length, asserted = NONE, second = NONE;
    analyse();
    for (size_t i = 0; i < clause_in_hand.length; i++) {
        uint32_t literal = clause_in_hand.items[i];
        if (level[literal >> 1] == decisions) asserted = literal;
        else if (second == NONE || level[literal >> 1] > level[second >> 1]) second = literal;
    }
    uint32_t back = second == NONE ? 0 : level[second >> 1];
    uint32_t refuted = clause_in_hand.length == 0;
    if (!refuted) cut(back);
    if (second == NONE) second = asserted;
    uint32_t clause = append_clause(clause_in_hand.items, clause_in_hand.length, asserted, second);
    lines = room_for(lines, &line_room, line_count, sizeof(Line));
    lines[line_count++] = (Line){clause, chain, chains.length};
    if (!refuted) assign(asserted, clause);
    return chains.length - chain + clause_in_hand.length;
}

enum { GOES_ON, SATISFIED, REFUTED, SPENT };

/* The second rule, or else the third or the fourth. */
static int advance(void) {
    while (unit_count > 0) {
        uint64_t unit = pop_unit();
        if (value[(uint32_t)unit] != UNSET) continue;
        assign((uint32_t)unit, unit >> 32);
        return GOES_ON;
    }
    while (lowest_unset < variables && value[2 * lowest_unset] != UNSET) lowest_unset++;
    if (lowest_unset == variables) return SATISFIED;
    decisions++;
    assign(2 * lowest_unset + 1, NONE);
    return GOES_ON;
}

static int search(uint32_t *cost) {
    for (*cost = 0;;) {
        int found = GOES_ON;
        uint32_t step = 1;
        if (falsified != NONE) {
            found = decisions == 0 ? REFUTED : GOES_ON;
            step = resolve_conflict();
        } else {
            found = advance();
        }
        if (step > budget - *cost) {
            *cost = budget;
            return SPENT;
        }
        *cost += step;
        if (found != GOES_ON) return found;
    }
}

static char *whole_input(void) {
    size_t room = 1 << 16, length = 0, got;
    char *text = zeros(room, 1);
    while ((got = fread(text + length, 1, room - length, stdin)) > 0) {
        length += got;
        if (length < room) continue;
        text = realloc(text, (room *= 2) + 1);
        if (!text) end(13, "search_machine: out of memory\n");
    }
    if (ferror(stdin)) end(6, "search_machine: read fault\n");
    text[length] = 0;
    return text;
}

static void take_header(const char *line) {
    if (value || sscanf(line, "p cnf %u %u", &variables, &given) != 2 || variables > MOST || given > MOST)
        end(5, "search_machine: refused\n");
    value = zeros(2 * variables, 1);
    seen = zeros(2 * variables, 1);
    watches = zeros(2 * variables, sizeof(List));
    trail = zeros(variables, sizeof(uint32_t));
    level = zeros(variables, sizeof(uint32_t));
    cause = zeros(variables, sizeof(uint32_t));
}

static void close_clause(void) {
    uint32_t length = clause_in_hand.length, *literals = clause_in_hand.items;
    if (clause_count == given) end(5, "search_machine: refused\n");
    uint32_t clause = append_clause(literals, length, length ? literals[0] : 0, length ? literals[length > 1] : 0);
    if (length == 0 && falsified == NONE) falsified = clause;
    if (length == 1) push_unit(clause, literals[0]);
    for (uint32_t i = 0; i < length; i++) seen[literals[i]] = 0;
    clause_in_hand.length = 0;
}

static void take_numbers(const char *line, const char *behind) {
    while (line < behind) {
        if (*line == ' ' || *line == '\t' || *line == '\r') {
            line++;
            continue;
        }
        uint32_t negative = *line == '-', number = 0;
        const char *digit = line + negative;
        for (; *digit >= '0' && *digit <= '9' && number <= MOST; digit++) number = 10 * number + (*digit - '0');
        if (digit == line + negative || number > variables || !value) end(5, "search_machine: refused\n");
        line = digit;
        if (number == 0) {
            close_clause();
        } else if (!seen[2 * (number - 1) + negative]) {
            seen[2 * (number - 1) + negative] = 1;
            push(&clause_in_hand, 2 * (number - 1) + negative);
        }
    }
}

static void read_clauses(char *line) {
    budget = 1000000;
    falsified = NONE;
    for (char *behind; *line; line = behind) {
        char *stop = line + strcspn(line, "\n");
        behind = stop + (*stop != 0);
        *stop = 0;
        line += strspn(line, " \t");
        if (*line == 'p') take_header(line);
        else if (*line != 'c') take_numbers(line, stop);
        else if (!strncmp(line, "c lrat", 6)) wants_lines = 1;
        else sscanf(line, "c budget %u", &budget);
    }
    if (budget < 1 || budget > BUDGET) end(5, "search_machine: refused\n");
    if (!value || clause_count != given || clause_in_hand.length) end(5, "search_machine: refused\n");
}

static int number_of(uint32_t literal) {
    int variable = (literal >> 1) + 1;
    return literal & 1 ? -variable : variable;
}

static void print_answer(int found, uint32_t cost) {
    printf("c cost %u\n", cost);
    puts(found == SATISFIED ? "s SATISFIABLE" : found == REFUTED ? "s UNSATISFIABLE" : "s UNKNOWN");
    if (found == SATISFIED) {
        putchar('v');
        for (uint32_t v = 0; v < variables; v++) printf(" %d", number_of(2 * v + (value[2 * v] != TRUE)));
        puts(" 0");
    }
    for (size_t i = 0; found == REFUTED && wants_lines && i < line_count; i++) {
        uint32_t *clause = clauses.items + lines[i].clause;
        printf("%u ", clause[NUMBER] + 1);
        for (uint32_t k = 0; k < clause[LENGTH]; k++) printf("%d ", number_of(written(clause)[k]));
        printf("0 ");
        for (uint32_t k = lines[i].chain_end; k-- > lines[i].chain;) printf("%u ", chains.items[k] + 1);
        puts("0");
    }
}

/* The places of all clauses, by their numbers. */
static uint32_t *places(void) {
    uint32_t *by_number = zeros(clause_count, sizeof(uint32_t)), place = 0;
    for (uint32_t i = 0; i < clause_count; i++) {
        by_number[i] = place;
        place += LITERALS + 2 * clauses.items[place + LENGTH];
    }
    return by_number;
}

static int is_satisfied(const uint32_t *clause) {
    for (uint32_t i = 0; i < clause[LENGTH]; i++)
        if (value[clause[LITERALS + i]] == TRUE) return 1;
    return 0;
}

/* Resolves the marked literals with a clause, on the one variable with opposite signs in both. Answers how many literals
 * are marked afterwards, or NONE where there isn't exactly one such variable. */
static uint32_t resolve(unsigned char *marks, uint32_t marked, const uint32_t *clause) {
    uint32_t on = NONE;
    for (uint32_t i = 0; i < clause[LENGTH]; i++) {
        uint32_t literal = clause[LITERALS + i];
        if (!marks[literal ^ 1]) continue;
        if (on != NONE || marks[literal]) return NONE;
        on = literal;
    }
    if (on == NONE) return NONE;
    marks[on ^ 1] = 0;
    marked--;
    for (uint32_t i = 0; i < clause[LENGTH]; i++) {
        uint32_t literal = clause[LITERALS + i];
        if (literal == (on ^ 1)) return NONE;
        if (literal == on || marks[literal]) continue;
        marks[literal] = 1;
        marked++;
    }
    return marked;
}

static int is_right(const Line *line, const uint32_t *by_number, unsigned char *marks) {
    const uint32_t *own = clauses.items + line->clause;
    const uint32_t *first = clauses.items + by_number[chains.items[line->chain]];
    uint32_t marked = first[LENGTH];
    memset(marks, 0, 2 * variables);
    for (uint32_t i = 0; i < marked; i++) marks[first[LITERALS + i]] = 1;
    for (uint32_t k = line->chain; k < line->chain_end; k++) {
        if (chains.items[k] >= own[NUMBER]) return 0;
        if (k > line->chain) marked = resolve(marks, marked, clauses.items + by_number[chains.items[k]]);
        if (marked == NONE) return 0;
    }
    for (uint32_t i = 0; i < own[LENGTH]; i++)
        if (!marks[own[LITERALS + i]]) return 0;
    return marked == own[LENGTH];
}

static int is_checked(int found) {
    uint32_t *by_number = places();
    unsigned char *marks = zeros(2 * variables, 1);
    for (uint32_t i = 0; found == SATISFIED && i < given; i++)
        if (!is_satisfied(clauses.items + by_number[i])) return 0;
    for (size_t i = 0; found == REFUTED && i < line_count; i++)
        if (!is_right(&lines[i], by_number, marks)) return 0;
    return found != REFUTED || clauses.items[lines[line_count - 1].clause + LENGTH] == 0;
}

int main(int count, char **words) {
    static const int statuses[] = {[SATISFIED] = 10, [REFUTED] = 20, [SPENT] = 0};
    uint32_t cost;
    read_clauses(whole_input());
    int found = search(&cost);
    print_answer(found, cost);
    if (count > 1 && !strcmp(words[1], "check") && !is_checked(found)) end(1, "search_machine: the answer is wrong\n");
    return statuses[found];
}

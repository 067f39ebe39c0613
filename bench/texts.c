/* texts agree EXAMPLES: library and plain C answer alike; prints on how many texts, and how often each number was answered. EXAMPLES has lines as
 * docs/LITMUS.md: four blanks, a text, an arrow, its number and place.
 * texts time: prints the CPU time of both, as tables in Markdown. */
#define _POSIX_C_SOURCE 199309L
#include "text.h"

#include <ctype.h>
#include <stdio.h>
#include <stdlib.h>
#include <string.h>
#include <time.h>

static uint64_t seed = 88172645463325252u;

static unsigned below(unsigned n)
{
    seed ^= seed << 13;
    seed ^= seed >> 7;
    seed ^= seed << 17;
    return (unsigned)((seed >> 20) % n);
}

static int one_in(unsigned n)
{
    return n != 0 && below(n) == 0;
}

enum { SIZE = 10000000 };

struct text {
    unsigned letters, wrong, blanks; /* so many locations; one in so many numbers is too large; blanks before one in so many tokens */
    size_t length;
    uint8_t bytes[SIZE + 1];
};

static void put(struct text *t, unsigned byte)
{
    if (t->length == sizeof t->bytes)
        abort();
    t->bytes[t->length++] = (uint8_t)byte;
}

static void add(struct text *t, const char *bytes)
{
    while (*bytes != 0)
        put(t, (uint8_t)*bytes++);
}

static void add_number(struct text *t, long long number)
{
    char digits[32];
    sprintf(digits, "%lld", number);
    add(t, digits);
}

static void add_constant(struct text *t)
{
    static const long long edges[] = {0, 4294967295, -2147483648, 4294967296, -2147483649, 1000000000000000000};
    if (one_in(t->wrong))
        add_number(t, edges[3 + below(3)]);
    else if (below(8) == 0)
        add_number(t, edges[below(3)]);
    else if (below(8) == 0)
        add(t, below(2) ? "-0" : "007");
    else
        add_number(t, (long long)below(2000) - 1000);
}

/* Tokens, between blanks, where @ is a location, # a register's letter, ? a processor, % a constant. */
static void add_tokens(struct text *t, const char *tokens)
{
    for (const char *at = tokens; *at != 0; at++) {
        if (*at == ' ')
            continue;
        if (at == tokens || at[-1] == ' ') {
            int parted = t->length == 0 || !isalnum(t->bytes[t->length - 1]) || ispunct((unsigned char)*at);
            if (!parted && !one_in(t->wrong))
                put(t, ' ');
            while (one_in(t->blanks))
                put(t, " \n\r "[below(4)]);
        }
        if (*at == '@')
            put(t, 'z' - below(t->letters + one_in(t->wrong)));
        else if (*at == '#')
            put(t, 'A' + below(4));
        else if (*at == '?')
            add_number(t, one_in(t->wrong) ? 4 + below(20) : below(4));
        else if (*at == '%')
            add_constant(t);
        else
            put(t, (uint8_t)*at);
    }
}

static void add_initial(struct text *t)
{
    add_tokens(t, below(2) ? "@ = % ;" : "? : E#X = % ;");
}

static void add_instruction(struct text *t)
{
    static const char *const instructions[] = {
        "MOV [ @ ] , $%", "MOV [ @ ] , E#X", "MOV E#X , [ @ ]", "MOV E#X , $%", "MFENCE",
        "XCHG [ @ ] , E#X", "LOCK XCHG [ @ ] , E#X", "XADD [ @ ] , E#X", "LOCK XADD [ @ ] , E#X",
    };
    add_tokens(t, instructions[below(9)]);
}

/* One cell in so many is empty. */
static void add_row(struct text *t, unsigned cells, unsigned empty)
{
    for (unsigned i = 1; i <= cells; i++) {
        if (!one_in(empty))
            add_instruction(t);
        add_tokens(t, i == cells ? ";" : "|");
    }
}

/* The long texts. */

/* The 24 cells, each once. */
static void add_cells(struct text *t)
{
    char cell[32];
    for (int i = 0; i < 8; i++) {
        sprintf(cell, "%c=%d; ", 's' + i, i - 4);
        add(t, cell);
    }
    for (int i = 0; i < 16; i++) {
        sprintf(cell, "%d:E%cX=%d; ", i / 4, 'A' + i % 4, 1000 * i);
        add(t, cell);
    }
}

static void fill(struct text *t, size_t length, const char *bytes)
{
    for (const char *at = bytes; t->length < length; at = at[1] == 0 ? bytes : at + 1)
        put(t, (uint8_t)*at);
}

/* Full rows first, as many as a table may have. */
static void fill_rows(struct text *t, size_t length)
{
    enum { LONGEST = 256 };
    add(t, "}\n P0 | P1 | P2 | P3 ;\n");
    for (unsigned i = 0; t->length + LONGEST < length; i++) {
        add_row(t, 4, i < 16 ? 0 : 16);
        put(t, '\n');
    }
    fill(t, length, " ");
}

static void late_seventeenth(struct text *t, size_t size)
{
    add(t, "X86 rows\n{ ");
    add_cells(t);
    fill_rows(t, size - 6);
    add(t, "exists");
}

static void cell_twice(struct text *t, size_t size)
{
    add(t, "X86 rows\n{ ");
    add_cells(t);
    add(t, "0:EAX=1; ");
    fill_rows(t, size - 6);
    add(t, "exists");
}

static void no_end(struct text *t, size_t size)
{
    add(t, "X86 rows\n{ ");
    fill_rows(t, size);
}

/* The middle again and again. */
static void stretched(struct text *t, size_t size, const char *head, const char *middle, const char *tail)
{
    add(t, head);
    fill(t, size - strlen(tail), middle);
    add(t, tail);
}

static void blanks(struct text *t, size_t size)
{
    stretched(t, size, "X86 t{}P0;", "  \n \r\n   ", "MFENCE;exists");
}

static void zeros(struct text *t, size_t size)
{
    stretched(t, size, "X86 t{}P0;MOV [x],$-", "0", "7;exists");
}

static void digits(struct text *t, size_t size)
{
    stretched(t, size, "X86 t{}P0;MOV [x],$", "3141592653589793", ";exists");
}

static void name(struct text *t, size_t size)
{
    stretched(t, size, "X86 ", "name\t|;$}\xc3\x9f\x01-~", "{}P0;exists");
}

static void empty_cells(struct text *t, size_t size)
{
    stretched(t, size, "X86 t{}P0;", ";", "exists");
}

static void initial_cells(struct text *t, size_t size)
{
    enum { LONGEST = 64 };
    add(t, "X86 t{ ");
    add_cells(t);
    while (t->length + LONGEST < size)
        add_initial(t);
    fill(t, size - 10, " ");
    add(t, "}P0;exists");
}

/* One cell again and again: of the texts that were tried, those with the largest ratios. */
static void same_cell(struct text *t, size_t size, const char *cell)
{
    add(t, "X86 t{");
    while (t->length + strlen(cell) + 10 <= size)
        add(t, cell);
    fill(t, size - 10, " ");
    add(t, "}P0;exists");
}

static void same_location(struct text *t, size_t size)
{
    same_cell(t, size, "x=0;");
}

static void same_register(struct text *t, size_t size)
{
    same_cell(t, size, "0:EAX=0;");
}

struct kind {
    const char *says;
    void (*make)(struct text *t, size_t size);
    uint64_t number, place; /* the answer, from docs/LITMUS.md */
};

enum { KINDS = 11 };

static const struct kind kinds[KINDS] = {
    {"rows of instructions, 7 at the last record that can be", late_seventeenth, AMBERCELL_SEVENTEENTH, 88},
    {"rows of instructions, a cell twice before them", cell_twice, AMBERCELL_CELL_TWICE, 24},
    {"rows of instructions, then no end", no_end, AMBERCELL_TEXT_GRAMMAR, SIZE},
    {"initial cells", initial_cells, AMBERCELL_CELL_TWICE, 24},
    {"`x=0;` again and again", same_location, AMBERCELL_CELL_TWICE, 1},
    {"`0:EAX=0;` again and again", same_register, AMBERCELL_CELL_TWICE, 1},
    {"empty cells: a row a byte", empty_cells, AMBERCELL_DONE, 0},
    {"one run of blanks", blanks, AMBERCELL_DONE, 1},
    {"one constant, of zeros and a 7", zeros, AMBERCELL_DONE, 1},
    {"one constant, far out of range", digits, AMBERCELL_TEXT_CONSTANT, 18},
    {"one name", name, AMBERCELL_DONE, 0},
};

static void make(struct text *t, const struct kind *k, size_t size)
{
    t->letters = 8;
    t->wrong = 0;
    t->blanks = 8;
    t->length = 0;
    k->make(t, size);
    if (t->length != size)
        abort();
}

/* Agreement. */

enum { IMPLEMENTATIONS = 2 };

static const struct {
    const char *name;
    litmus_call *litmus;
} implementations[IMPLEMENTATIONS] = {{"ambercell", ambercell_litmus}, {"gcc", gcc_litmus}};

enum { NUMBERS = AMBERCELL_TEXT_CONSTANT + 1 };

static unsigned long answers[NUMBERS];

static void show(const struct text *t)
{
    enum { MOST = 2000 };
    size_t shown = t->length < MOST ? t->length : MOST;
    printf("text, %zu bytes%s:\n", t->length, shown < t->length ? ", of which the first" : "");
    for (size_t i = 0; i < shown; i++)
        printf(isprint(t->bytes[i]) && t->bytes[i] != '\\' ? "%c" : "\\x%02x", t->bytes[i]);
    printf("\n");
}

/* Ends the program where the two differ in number, place or a byte of the room. */
static ambercell_answer same(const struct text *t, size_t room)
{
    enum { ROOM = AMBERCELL_LITMUS_BYTES + 64 };
    static uint8_t left[IMPLEMENTATIONS][ROOM];
    ambercell_answer given[IMPLEMENTATIONS];

    for (int i = 0; i < IMPLEMENTATIONS; i++) {
        memset(left[i], 0xa5, ROOM);
        given[i] = implementations[i].litmus(t->bytes, t->length, left[i], room);
    }
    if (given[0].number != given[1].number || given[0].place != given[1].place || memcmp(left[0], left[1], ROOM) != 0) {
        printf("litmus with a room of %zu differs:\n", room);
        for (int i = 0; i < IMPLEMENTATIONS; i++) {
            printf("%s: %llu at %llu", implementations[i].name, (unsigned long long)given[i].number, (unsigned long long)given[i].place);
            for (size_t at = 0; at < room; at++)
                printf(at % 8 ? " %02x" : "\n %02x", left[i][at]);
            printf("\n");
        }
        show(t);
        exit(1);
    }
    answers[given[0].number]++;
    return given[0];
}

static void stated(const struct text *t, uint64_t number, uint64_t place)
{
    ambercell_answer a = same(t, AMBERCELL_LITMUS_BYTES);
    if (a.number != number || a.place != place) {
        printf("%llu at %llu, and stated is %llu at %llu:\n", (unsigned long long)a.number, (unsigned long long)a.place,
               (unsigned long long)number, (unsigned long long)place);
        show(t);
        exit(1);
    }
}

static void random_text(struct text *t)
{
    static const char *const ends[] = {"exists", "~exists", "forall"};
    unsigned headings = 1 + below(4) + one_in(t->wrong), cells = below(4) == 0 ? 30 : below(6), rows = below(4) == 0 ? 40 : below(6);
    char heading[4] = "P0";

    t->length = 0;
    add_tokens(t, "X86");
    put(t, " \n\r-"[below(4)]);
    for (unsigned i = 1 + below(6); i > 0; i--)
        put(t, below(4) == 0 ? below(256) : 'a' + below(26));
    add_tokens(t, "{");
    for (unsigned i = below(cells + 1); i > 0; i--)
        add_initial(t);
    add_tokens(t, "}");
    for (unsigned i = 0; i < headings; i++) {
        heading[1] = (char)('0' + i);
        add_tokens(t, heading);
        add_tokens(t, i + 1 == headings ? ";" : "|");
    }
    for (unsigned i = below(rows + 1); i > 0; i--)
        add_row(t, headings, 4);
    add_tokens(t, ends[below(3)]);
    if (below(2))
        add(t, " (x=1)");
}

/* At least one byte is there. */
static void damage(struct text *t)
{
    static const char known[] = "X86{}P01234=:;|[],$-~ \n\rMOVFENCXHGADLKEBxyabexistforl\t";
    size_t at = below((unsigned)t->length);
    uint8_t byte = (uint8_t)(below(8) == 0 ? below(256) : (uint8_t)known[below(sizeof known - 1)]);

    switch (below(4)) {
    case 0: /* another byte */
        t->bytes[at] = byte;
        break;
    case 1: /* a byte more */
        memmove(t->bytes + at + 1, t->bytes + at, t->length - at);
        t->bytes[at] = byte;
        t->length++;
        break;
    case 2: /* some bytes less */
    {
        size_t gone = 1 + below(t->length - at < 4 ? (unsigned)(t->length - at) : 4);
        memmove(t->bytes + at, t->bytes + at + gone, t->length - at - gone);
        t->length -= gone;
        break;
    }
    case 3: /* cut off, or two neighbours turned */
        if (below(2) || at == 0) {
            t->length = at;
        } else {
            byte = t->bytes[at];
            t->bytes[at] = t->bytes[at - 1];
            t->bytes[at - 1] = byte;
        }
        break;
    }
}

static void agree_random(void)
{
    enum { SMALL = 5000, DAMAGED = 8 };
    static struct text text, other;

    for (int i = 0; i < SMALL; i++) {
        text.letters = 1 + below(8);
        text.wrong = below(3) == 0 ? 40 : 0;
        text.blanks = below(8) == 0 ? 0 : 2 + below(6);
        random_text(&text);
        same(&text, AMBERCELL_LITMUS_BYTES);
        same(&text, below(200));
        for (int j = 0; j < DAMAGED; j++) {
            other.length = text.length;
            memcpy(other.bytes, text.bytes, text.length);
            damage(&other);
            same(&other, below(4) == 0 ? below(AMBERCELL_LITMUS_BYTES) : AMBERCELL_LITMUS_BYTES);
        }
    }
}

static void agree_examples(const char *path)
{
    static const char arrow[] = "\xe2\x86\x92 ";
    static struct text text;
    char line[4096];
    unsigned long found = 0;
    FILE *file = fopen(path, "r");

    if (file == NULL) {
        perror(path);
        exit(2);
    }
    while (fgets(line, sizeof line, file) != NULL) {
        char *end = strstr(line, arrow), word[8];
        unsigned long long number, place;
        if (end == NULL || strncmp(line, "    ", 4) != 0 || sscanf(end + strlen(arrow), "%llu %7s %llu", &number, word, &place) != 3)
            continue;
        if (end > line + 4)
            end--;
        text.length = 0;
        for (const char *at = line + 4; at < end; at++) {
            unsigned byte = (uint8_t)*at;
            if (byte == '\\') {
                static const char names[] = "nrt0", meant[] = "\n\r\t";
                const char *name = strchr(names, *++at);
                if (name != NULL)
                    byte = (uint8_t)meant[name - names];
                else if (sscanf(at, "x%2x", &byte) == 1)
                    at += 2;
            }
            put(&text, byte);
        }
        stated(&text, number, place);
        found++;
    }
    fclose(file);
    if (found == 0) {
        printf("no examples in %s\n", path);
        exit(1);
    }
}

static void agree(const char *examples)
{
    static struct text text;
    unsigned long all = 0;

    agree_examples(examples);
    for (const struct kind *k = kinds; k < kinds + KINDS; k++) {
        make(&text, k, SIZE);
        stated(&text, k->number, k->place);
    }
    agree_random();
    for (int i = 0; i < NUMBERS; i++)
        all += answers[i];
    printf("%lu texts, the same number, place and room from both;", all);
    for (int i = 0; i < NUMBERS; i++)
        if (answers[i] > 0)
            printf(" %d: %lu", i, answers[i]);
    printf("\n");
}

/* Time. */

static double now(void)
{
    struct timespec t;
    clock_gettime(CLOCK_PROCESS_CPUTIME_ID, &t);
    return (double)t.tv_sec * 1e3 + (double)t.tv_nsec / 1e6;
}

static int order(const void *a, const void *b)
{
    double x = *(const double *)a, y = *(const double *)b;
    return (x > y) - (x < y);
}

static double timed(int by, const struct text *t)
{
    static uint8_t room[AMBERCELL_LITMUS_BYTES];
    double begin = now();
    implementations[by].litmus(t->bytes, t->length, room, sizeof room);
    return now() - begin;
}

enum { ROUNDS = 11, GROWN = 3, TEXTS = KINDS + GROWN - 1 };

/* In each round all texts, of each kind and then the first kind shorter, are read by both in turns. */
static struct text texts[TEXTS];
static double taken[TEXTS][IMPLEMENTATIONS][ROUNDS], ratios[TEXTS][ROUNDS];

static void measure(void)
{
    for (int round = -1; round < ROUNDS; round++) /* the first is not counted */
        for (int i = 0; i < TEXTS; i++) {
            double ms[IMPLEMENTATIONS];
            for (int turn = 0; turn < IMPLEMENTATIONS; turn++) {
                int by = (round + 1 + turn) % IMPLEMENTATIONS;
                ms[by] = timed(by, &texts[i]);
            }
            if (round < 0)
                continue;
            for (int by = 0; by < IMPLEMENTATIONS; by++)
                taken[i][by][round] = ms[by];
            ratios[i][round] = ms[0] / ms[1];
        }
    for (int i = 0; i < TEXTS; i++) {
        for (int by = 0; by < IMPLEMENTATIONS; by++)
            qsort(taken[i][by], ROUNDS, sizeof taken[i][by][0], order);
        qsort(ratios[i], ROUNDS, sizeof ratios[i][0], order);
    }
}

static double median(const double sorted[ROUNDS])
{
    return sorted[ROUNDS / 2];
}

static void time_all(void)
{
    const double most = 5;
    double largest = 0;

    for (int i = 0; i < KINDS; i++)
        make(&texts[i], &kinds[i], SIZE);
    for (int i = 1; i < GROWN; i++)
        make(&texts[KINDS - 1 + i], &kinds[0], SIZE >> i);
    measure();

    printf("\n| Text | MB | ambercell: ms | gcc -O2: ms | ambercell / gcc | ambercell: MB/s |\n|---|---|---|---|---|---|\n");
    for (int i = 0; i < KINDS; i++) {
        double mb = SIZE / 1e6, ms = median(taken[i][0]), ratio = median(ratios[i]);
        printf("| %s | %.1f | %.1f | %.1f | **%.2f** (%.2f to %.2f) | %.0f |\n", kinds[i].says, mb, ms, median(taken[i][1]), ratio,
               ratios[i][0], ratios[i][ROUNDS - 1], 1e3 * mb / ms);
        largest = ratio > largest ? ratio : largest;
    }
    printf("\nThe largest ratio is %.2f; at most %.0f is asked for: %s.\n", largest, most, largest <= most ? "kept" : "NOT KEPT");

    printf("\n| MB of the first | ambercell: ms | a MB | gcc -O2: ms | a MB |\n|---|---|---|---|---|\n");
    for (int i = GROWN - 1; i >= 0; i--) {
        int text = i == 0 ? 0 : KINDS - 1 + i;
        double mb = (double)texts[text].length / 1e6, library = median(taken[text][0]), plain = median(taken[text][1]);
        printf("| %.1f | %.1f | %.2f | %.1f | %.2f |\n", mb, library, library / mb, plain, plain / mb);
    }
}

int main(int count, char **words)
{
    if (count == 3 && strcmp(words[1], "agree") == 0)
        agree(words[2]);
    else if (count == 2 && strcmp(words[1], "time") == 0)
        time_all();
    else {
        fprintf(stderr, "texts agree EXAMPLES, or texts time\n");
        return 2;
    }
    return 0;
}

/* The reader of crates/litmus*, part by part. Compiled with -DLITMUS=..., the name of the call. */
#include "text.h"

#include "plain.h"

#include <stdbool.h>
#include <string.h>

enum { PROCESSORS = 4, LOCATIONS = 8, RECORD_BYTES = 8 };

/* No readable table has so many records: those behind them need not be kept to find that out. */
enum { MOST = 89 };

/* Tokens (litmus_token). */

/* A piece of the text, such as a token; at the text's end the next token is empty. */
struct bytes {
    const uint8_t *from, *to;
};

static size_t length(struct bytes t)
{
    return (size_t)(t.to - t.from);
}

static bool is_blank(uint8_t b)
{
    return b == ' ' || b == '\n' || b == '\r';
}

static bool is_digit(uint8_t b)
{
    return b >= '0' && b <= '9';
}

static bool in_word(uint8_t b)
{
    return is_digit(b) || (b >= 'A' && b <= 'Z') || (b >= 'a' && b <= 'z');
}

static bool in_name(uint8_t b)
{
    return !is_blank(b) && b != '{';
}

/* Where a run of such bytes ends: four loops, since one over a function that tells such bytes makes the reader half as fast. */
static const uint8_t *blanks_end(const uint8_t *at, const uint8_t *end)
{
    while (at < end && is_blank(*at))
        at++;
    return at;
}

static const uint8_t *digits_end(const uint8_t *at, const uint8_t *end)
{
    while (at < end && is_digit(*at))
        at++;
    return at;
}

static const uint8_t *word_end(const uint8_t *at, const uint8_t *end)
{
    while (at < end && in_word(*at))
        at++;
    return at;
}

static const uint8_t *name_end(const uint8_t *at, const uint8_t *end)
{
    while (at < end && in_name(*at))
        at++;
    return at;
}

static bool is_number(struct bytes t)
{
    return t.from < t.to && digits_end(t.from, t.to) == t.to;
}

static bool is_constant(struct bytes t)
{
    if (t.from < t.to && *t.from == '-')
        t.from++;
    return is_number(t);
}

static bool is_dollar(struct bytes t)
{
    return t.from < t.to && *t.from == '$' && is_constant((struct bytes){t.from + 1, t.to});
}

static bool is_name(struct bytes t)
{
    return t.from < t.to && name_end(t.from, t.to) == t.to;
}

static inline bool is_word(const char *word, struct bytes t)
{
    return length(t) == strlen(word) && memcmp(t.from, word, strlen(word)) == 0;
}

static bool is_mark(uint8_t b, struct bytes t)
{
    return length(t) == 1 && *t.from == b;
}

static bool is_register(struct bytes t)
{
    return is_word("EAX", t) || is_word("EBX", t) || is_word("ECX", t) || is_word("EDX", t);
}

static bool is_location(struct bytes t)
{
    return length(t) == 1 && *t.from >= 'a' && *t.from <= 'z';
}

/* Where the number ends that begins here, as a whole run of letters and digits; here: there is none. */
static const uint8_t *number_end(const uint8_t *at, const uint8_t *end)
{
    const uint8_t *to = word_end(at, end);
    return is_number((struct bytes){at, to}) ? to : at;
}

/* The same with perhaps a minus sign. */
static const uint8_t *signed_end(const uint8_t *at, const uint8_t *end)
{
    if (at == end || *at != '-')
        return number_end(at, end);
    const uint8_t *to = number_end(at + 1, end);
    return to == at + 1 ? at : to;
}

static const uint8_t *token_end(const uint8_t *at, const uint8_t *end)
{
    uint8_t first = *at++;
    if (in_word(first))
        return word_end(at, end);
    if (first == '$')
        return signed_end(at, end);
    if (first == '-')
        return number_end(at, end);
    if (first == '~') {
        const uint8_t *to = word_end(at, end);
        if (is_word("exists", (struct bytes){at, to}))
            return to;
    }
    return at;
}

static struct bytes next_token(const uint8_t *at, const uint8_t *end)
{
    const uint8_t *from = blanks_end(at, end);
    return (struct bytes){from, from == end ? end : token_end(from, end)};
}

/* The same for the name; where there is none, it is the brace. */
static struct bytes next_name(const uint8_t *at, const uint8_t *end)
{
    const uint8_t *from = blanks_end(at, end), *to = name_end(from, end);
    return (struct bytes){from, from < end && to == from ? from + 1 : to};
}

/* Forms (litmus_form). */

/* What may stand at a place of a form; a mark is its byte. MARK is the one that closes a row's cell. */
enum { MOV = 1, MFENCE, XCHG, XADD, LOCK, LOCATION, REGISTER, PROCESSOR, CONSTANT, DOLLAR, MARK };

enum { FORMS = 12, LONGEST = 8 };

/* Two of initial cells, ten of a row's cell. */
static const uint8_t forms[FORMS][LONGEST] = {
    {LOCATION, '=', CONSTANT, ';'},
    {PROCESSOR, ':', REGISTER, '=', CONSTANT, ';'},
    {MARK},
    {MOV, '[', LOCATION, ']', ',', DOLLAR, MARK},
    {MOV, '[', LOCATION, ']', ',', REGISTER, MARK},
    {MOV, REGISTER, ',', '[', LOCATION, ']', MARK},
    {MOV, REGISTER, ',', DOLLAR, MARK},
    {MFENCE, MARK},
    {XCHG, '[', LOCATION, ']', ',', REGISTER, MARK},
    {LOCK, XCHG, '[', LOCATION, ']', ',', REGISTER, MARK},
    {XADD, '[', LOCATION, ']', ',', REGISTER, MARK},
    {LOCK, XADD, '[', LOCATION, ']', ',', REGISTER, MARK},
};

static const uint8_t lengths[FORMS] = {4, 6, 1, 7, 7, 7, 5, 2, 7, 8, 7, 8};

/* The kind of record that each gives; an empty cell none. */
static const uint8_t kinds[FORMS] = {
    AMBERCELL_MEMORY,
    AMBERCELL_REGISTER,
    0,
    AMBERCELL_STORE,
    AMBERCELL_STORE_REGISTER,
    AMBERCELL_LOAD,
    AMBERCELL_SET,
    AMBERCELL_FENCE,
    AMBERCELL_EXCHANGE,
    AMBERCELL_LOCKED_EXCHANGE,
    AMBERCELL_EXCHANGE_ADD,
    AMBERCELL_LOCKED_EXCHANGE_ADD,
};

/* Sets of forms, a bit each. */
enum { IN_BRACES = 0x003, IN_A_ROW = 0xffc };

static uint8_t pattern(unsigned form, unsigned i, uint8_t mark)
{
    uint8_t p = forms[form][i];
    return p == MARK ? mark : p;
}

static bool fits(uint8_t p, struct bytes t)
{
    switch (p) {
    case 0:
        return false; /* the form is shorter */
    case MOV:
        return is_word("MOV", t);
    case MFENCE:
        return is_word("MFENCE", t);
    case XCHG:
        return is_word("XCHG", t);
    case XADD:
        return is_word("XADD", t);
    case LOCK:
        return is_word("LOCK", t);
    case LOCATION:
        return is_location(t);
    case REGISTER:
        return is_register(t);
    case PROCESSOR:
        return is_number(t);
    case CONSTANT:
        return is_constant(t);
    case DOLLAR:
        return is_dollar(t);
    default:
        return is_mark(p, t);
    }
}

/* The forms that are still alive behind their token i: those that can still be meant. */
static unsigned advance(unsigned alive, unsigned i, uint8_t mark, struct bytes t)
{
    unsigned left = 0;
    for (unsigned form = 0; form < FORMS; form++)
        if (alive >> form & 1 && fits(pattern(form, i, mark), t))
            left |= 1u << form;
    return left;
}

/* There is one. */
static unsigned first(unsigned alive)
{
    unsigned form = 0;
    while (!(alive >> form & 1))
        form++;
    return form;
}

/* Where a form stands: in a row of so many cells, at one of them; with no cells, in braces. */
struct place {
    unsigned cells, cell;
};

static uint8_t closing(struct place p)
{
    return p.cells == 0 || p.cell + 1 == p.cells ? ';' : '|';
}

/* Braces go on, and behind a row's last cell comes the first of the next row. */
static struct place next_place(struct place p)
{
    if (p.cells > 0 && ++p.cell == p.cells)
        p.cell = 0;
    return p;
}

/* The token ends the initial cells, or the rows. */
static bool leaves(struct place p, struct bytes t)
{
    if (p.cells == 0)
        return is_mark('}', t);
    return p.cell == 0 && (is_word("exists", t) || is_word("~exists", t) || is_word("forall", t));
}

/* What tokens say (litmus_said). */

struct record {
    uint8_t kind, processor, reg, location;
    uint32_t value;
};

/* The letters of locations, in order of first appearance. */
struct letters {
    unsigned count;
    uint8_t seen[LOCATIONS];
};

/* The number of a location, which is seen already or joins; LOCATIONS: it would be the ninth. */
static unsigned locate(struct letters *l, uint8_t letter)
{
    for (unsigned i = 0; i < l->count; i++)
        if (l->seen[i] == letter)
            return i;
    if (l->count < LOCATIONS)
        l->seen[l->count++] = letter;
    else
        return LOCATIONS;
    return l->count - 1;
}

/* A run of digits as a number. Above 2^32 it counts as 2^32, which is out of any range too. */
static uint64_t value_of(struct bytes digits)
{
    const uint64_t cap = UINT64_C(1) << 32;
    uint64_t value = 0;
    for (const uint8_t *at = digits.from; at < digits.to; at++) {
        value = 10 * value + (uint64_t)(*at - '0');
        if (value > cap)
            value = cap;
    }
    return value;
}

static unsigned note_constant(struct record *r, struct bytes t)
{
    int64_t value;
    if (*t.from == '-')
        value = -(int64_t)value_of((struct bytes){t.from + 1, t.to});
    else
        value = (int64_t)value_of(t);
    if (value < INT32_MIN || value > UINT32_MAX)
        return AMBERCELL_TEXT_CONSTANT;
    r->value = (uint32_t)value;
    return AMBERCELL_DONE;
}

static unsigned note_processor(struct record *r, struct bytes t)
{
    uint64_t value = value_of(t);
    if (value >= PROCESSORS)
        return AMBERCELL_TEXT_LIMIT;
    r->processor = (uint8_t)value;
    return AMBERCELL_DONE;
}

static unsigned note_location(struct record *r, struct letters *l, struct bytes t)
{
    unsigned i = locate(l, *t.from);
    if (i == LOCATIONS)
        return AMBERCELL_TEXT_LIMIT;
    r->location = (uint8_t)i;
    return AMBERCELL_DONE;
}

/* What a token says goes into the record under way. Answers 0, or why it cannot. */
static unsigned note(struct record *r, struct letters *l, uint8_t p, struct bytes t)
{
    switch (p) {
    case LOCATION:
        return note_location(r, l, t);
    case REGISTER:
        r->reg = (uint8_t)(t.from[1] - 'A');
        return AMBERCELL_DONE;
    case PROCESSOR:
        return note_processor(r, t);
    case CONSTANT:
        return note_constant(r, t);
    case DOLLAR:
        return note_constant(r, (struct bytes){t.from + 1, t.to});
    default:
        return AMBERCELL_DONE;
    }
}

/* The whole text (litmus_reader). */

struct reader {
    const uint8_t *end;
    struct letters letters;
    size_t count; /* of the records, which are kept as far as there is room */
    uint8_t records[MOST * RECORD_BYTES];
};

/* It goes on at a byte, with number 0, or is refused at one. */
struct passage {
    unsigned number;
    const uint8_t *at;
};

static struct passage passed(const uint8_t *at)
{
    return (struct passage){AMBERCELL_DONE, at};
}

static struct passage refused(unsigned number, const uint8_t *at)
{
    return (struct passage){number, at};
}

/* An initial cell, or a cell of a row, up to the mark that closes it; its record, of kind 0 for an empty cell. */
static struct passage read_form(struct reader *r, const uint8_t *at, struct place place, struct record *record)
{
    uint8_t mark = closing(place);
    unsigned alive = place.cells == 0 ? IN_BRACES : IN_A_ROW;

    *record = (struct record){.processor = (uint8_t)place.cell};
    for (unsigned i = 0;; i++) {
        struct bytes t = next_token(at, r->end);
        if (t.from == r->end)
            return refused(AMBERCELL_TEXT_GRAMMAR, t.from);
        alive = advance(alive, i, mark, t);
        if (alive == 0)
            return refused(AMBERCELL_TEXT_GRAMMAR, t.from);
        unsigned form = first(alive);
        unsigned why = note(record, &r->letters, pattern(form, i, mark), t);
        if (why != AMBERCELL_DONE)
            return refused(why, t.from);
        if (i + 1 == lengths[form]) {
            record->kind = kinds[form];
            return passed(t.to);
        }
        at = t.to;
    }
}

static void keep(struct reader *r, struct record record)
{
    if (record.kind == 0)
        return;
    size_t n = r->count++;
    if (n >= MOST)
        return;
    uint8_t *bytes = r->records + RECORD_BYTES * n;
    bytes[0] = record.kind;
    bytes[1] = record.processor;
    bytes[2] = record.reg;
    bytes[3] = record.location;
    for (int i = 0; i < 4; i++)
        bytes[4 + i] = (uint8_t)(record.value >> 8 * i);
}

/* Forms one after the other, up to the token that ends the initial cells or the rows. */
static struct passage read_forms(struct reader *r, const uint8_t *at, struct place place)
{
    for (;; place = next_place(place)) {
        struct record record;
        struct bytes t = next_token(at, r->end);
        if (leaves(place, t))
            return passed(t.to);
        struct passage form = read_form(r, at, place, &record);
        if (form.number != AMBERCELL_DONE)
            return form;
        keep(r, record);
        at = form.at;
    }
}

/* X86, a name, and the brace that opens the initial cells. */
static struct passage read_head(const struct reader *r, const uint8_t *at)
{
    struct bytes t = next_token(at, r->end);
    if (!is_word("X86", t))
        return refused(AMBERCELL_TEXT_GRAMMAR, t.from);
    t = next_name(t.to, r->end);
    if (!is_name(t))
        return refused(AMBERCELL_TEXT_GRAMMAR, t.from);
    t = next_token(t.to, r->end);
    return is_mark('{', t) ? passed(t.to) : refused(AMBERCELL_TEXT_GRAMMAR, t.from);
}

/* The headings P0, P1 and so on, up to their semicolon, and how many there are. */
static struct passage read_headings(const struct reader *r, const uint8_t *at, unsigned *headings)
{
    for (unsigned n = 0;;) {
        struct bytes t = next_token(at, r->end);
        if (length(t) != 2 || t.from[0] != 'P' || t.from[1] != '0' + n)
            return refused(AMBERCELL_TEXT_GRAMMAR, t.from);
        if (n++ == PROCESSORS)
            return refused(AMBERCELL_TEXT_LIMIT, t.from);
        t = next_token(t.to, r->end);
        if (is_mark(';', t)) {
            *headings = n;
            return passed(t.to);
        }
        if (!is_mark('|', t))
            return refused(AMBERCELL_TEXT_GRAMMAR, t.from);
        at = t.to;
    }
}

static struct passage read_text(struct reader *r, const uint8_t *text)
{
    unsigned headings;
    struct passage p = read_head(r, text);
    if (p.number == AMBERCELL_DONE)
        p = read_forms(r, p.at, (struct place){0, 0});
    if (p.number == AMBERCELL_DONE)
        p = read_headings(r, p.at, &headings);
    if (p.number == AMBERCELL_DONE)
        p = read_forms(r, p.at, (struct place){headings, 0});
    return p;
}

/* The call (litmus). */

ambercell_answer LITMUS(const uint8_t *text, size_t text_bytes, uint8_t *room, size_t room_bytes)
{
    struct reader r;
    r.end = text_bytes == 0 ? text : text + text_bytes;
    r.letters.count = 0;
    r.count = 0;
    struct passage p = read_text(&r, text);
    if (p.number != AMBERCELL_DONE)
        return (ambercell_answer){p.number, (uint64_t)(p.at - text)};

    /* What an empty trace is answered tells whether the table is readable. */
    size_t kept = RECORD_BYTES * (r.count < MOST ? r.count : MOST);
    ambercell_answer table = gcc_check(r.records, kept, NULL, 0, NULL, 0);
    if (table.number < AMBERCELL_TRACE_LENGTH)
        return table;
    if (room_bytes < kept)
        return (ambercell_answer){AMBERCELL_ROOM_TOO_SMALL, kept};
    if (kept > 0)
        memcpy(room, r.records, kept);
    return (ambercell_answer){AMBERCELL_DONE, r.count};
}

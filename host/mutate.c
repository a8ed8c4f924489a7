/*
 * Changes cases into hostile ones: mutate CASES MUTANTS SEED TIMES [FROM TO]
 *
 * Each case of the first file comes out TIMES times in the second, each time with one to four of the mutations made to it that stand in
 * the table below. A seed gives the same mutants on every machine. With FROM and TO only the mutants from number FROM on are written, and
 * those from TO on are not: so the one is found that ends a program.
 *
 * A mutant that would be slow to answer, a large graph under a deeply nested goal, is left out. Nothing here knows the right answers.
 */
#include "cases.h"

#include <stdlib.h>
#include <string.h>

/* The most bytes of a part, the largest buffer, and the most mutations of one mutant. */
enum { MOST = 1 << 17, MOST_ROOM = 100000, MUTATIONS = 4 };
enum { IMAGE, TABLE, CERTIFICATE, PARTS, ANY = PARTS };

struct part {
    uint8_t at[MOST];
    size_t len;
};

/* The case in hand; another case of the file; and the mutation that is being made, with the part and the place drawn for it. */
struct mutant {
    uint64_t service, goal, start, room;
    struct part part[PARTS];
    const struct asked *other;
    const struct mutation *mutation;
    struct part *in;
    size_t at;
};

/* A mutation is made in a part, at its first place or, where it has units, at one of the units from there on. */
struct mutation {
    const char *name;
    void (*make)(struct mutant *it);
    size_t part, first, unit, limit;
    /* How often it is drawn for each service: verdict, check, write and dead ends. */
    size_t often[4];
};

/* In place of a first place: where the image's sets begin. In place of a limit: the record's own number; the number of stages. */
enum { SETS = 1000, OWN, STAGES };

/* The fields of a record, its length, and where the records begin. */
enum { KIND, A, B, X, Y, T, RECORD, RECORDS = 6 };

/* How many parts a service is given. */
static const size_t given[] = {[VERDICT] = 2, [CHECK] = 3, [WRITE] = 2, [DEAD_ENDS] = 1};

/* ---- Numbers drawn, from a fixed source (splitmix64). No two are drawn where C leaves open which comes first ---- */

static uint64_t source;

static uint64_t word(void)
{
    uint64_t z = source += 0x9E3779B97F4A7C15u;
    z = (z ^ z >> 30) * 0xBF58476D1CE4E5B9u;
    z = (z ^ z >> 27) * 0x94D049BB133111EBu;
    return z ^ z >> 31;
}

/* A number below a bound; 0 for the bound 0. */
static size_t below(size_t bound)
{
    return bound == 0 ? 0 : (size_t)((word() >> 11) % bound);
}

static int chance(unsigned percent)
{
    return below(100) < percent;
}

#define PICK(list) ((list)[below(sizeof(list) / sizeof((list)[0]))])

/* ---- The bytes of a part: a place outside reads as 0, and nothing is written there ---- */

static size_t get(const struct part *part, size_t at)
{
    return at < part->len ? part->at[at] : 0;
}

static void set(struct part *part, size_t at, size_t to)
{
    if (at < part->len)
        part->at[at] = (uint8_t)to;
}

/* Takes bytes out from a place on and puts others in, the part's own or others. Nothing is done where it would get too long. */
static void replace(struct part *part, size_t at, size_t out, const uint8_t *in, size_t len)
{
    static uint8_t held[MOST];
    if (at > part->len || out > part->len - at || len > MOST - (part->len - out))
        return;
    memcpy(held, in, len);
    memmove(part->at + at + len, part->at + at + out, part->len - at - out);
    memcpy(part->at + at, held, len);
    part->len = part->len - out + len;
}

static void put_in(struct part *part, size_t at, size_t byte)
{
    const uint8_t in = (uint8_t)byte;
    replace(part, at, 0, &in, 1);
}

static void take_out(struct part *part, size_t at, size_t len)
{
    replace(part, at, len, part->at, 0);
}

/* Cuts a part to a length, or fills it up: by its last `period` bytes over and over, or with zeros. */
static void fit(struct part *part, size_t len, size_t period)
{
    if (len > MOST)
        return;
    for (; part->len < len; part->len++)
        part->at[part->len] = period > 0 && part->len >= period ? part->at[part->len - period] : 0;
    part->len = len;
}

static void hold(struct part *part, struct bytes bytes)
{
    part->len = 0;
    replace(part, 0, 0, bytes.at, bytes.len);
}

/* ---- What the parts say of themselves, and what a mutation is told ---- */

static size_t stages(const struct mutant *it)
{
    return get(&it->part[IMAGE], 5);
}

static size_t predicates(const struct mutant *it)
{
    return get(&it->part[IMAGE], 6);
}

static size_t entries(const struct mutant *it)
{
    return get(&it->part[TABLE], 5);
}

/* Brings the image's length in line with its front, and the table's with its number of entries, or that number with the length. */
static void mend(struct mutant *it)
{
    struct part *image = &it->part[IMAGE], *table = &it->part[TABLE];
    size_t i, sets = stages(it);
    for (i = 0; i < predicates(it); i++)
        sets += get(image, 7 + i) == 2 ? stages(it) : 1;
    fit(image, 7 + predicates(it) + 8 * sets, 8);
    if (chance(50) && table->len > RECORDS)
        set(table, 5, (table->len - RECORDS) / RECORD);
    fit(table, RECORDS + RECORD * entries(it), chance(50) ? RECORD : 0);
}

static size_t place(const struct mutant *it)
{
    size_t first = it->mutation->first == SETS ? 7 + predicates(it) : it->mutation->first, unit = it->mutation->unit;
    return unit == 0 || it->in->len < first ? first : first + unit * below((it->in->len - first) / unit);
}

static size_t limit(const struct mutant *it)
{
    size_t told = it->mutation->limit;
    return told == OWN ? (it->at - RECORDS) / RECORD : told == STAGES ? stages(it) : told;
}

/* How many bytes from a place on: a unit of them; where a unit is a byte, few of them or any number. */
static size_t run(const struct mutant *it, size_t at)
{
    const size_t runs[] = {1, 1, 2, 3, 4, 6, 8, 12, 16, below(it->in->len + 1)};
    size_t unit = it->mutation->unit, len = unit > 1 ? unit : PICK(runs), left = at < it->in->len ? it->in->len - at : 0;
    return len < left ? len : left;
}

/* ---- Mutations of bytes ---- */

/* Near what stood there, near the limit, near the number of stages, about the terms that are variables, at the ends of a byte, or any. */
static void near(struct mutant *it)
{
    size_t was = get(it->in, it->at), top = limit(it), n = stages(it), bit = below(8), low = below(top), term = 63 + below(6);
    const size_t bytes[] = {was + 1, was - 1, was ^ (size_t)1 << bit, top - 1, top, top + 1, low, n - 1, n, term, 0, 255, below(256)};
    set(it->in, it->at, PICK(bytes));
}

static void within(struct mutant *it)
{
    set(it->in, it->at, below(limit(it)));
}

static void dropped(struct mutant *it)
{
    take_out(it->in, it->at, run(it, it->at));
}

static void repeated(struct mutant *it)
{
    size_t to = chance(50) ? it->at : place(it);
    replace(it->in, to, 0, it->in->at + it->at, run(it, it->at));
}

/* A unit with another one; where there is a limit, which is then 1, a byte with its neighbour. */
static void exchanged(struct mutant *it)
{
    size_t i, next = it->mutation->limit, to = next > 0 ? it->at + next : place(it);
    size_t len = next > 0 ? next : run(it, it->at > to ? it->at : to);
    for (i = 0; i < len; i++) {
        size_t held = get(it->in, it->at + i);
        set(it->in, it->at + i, get(it->in, to + i));
        set(it->in, to + i, held);
    }
}

static void added(struct mutant *it)
{
    size_t at = chance(50) ? it->in->len : it->at;
    uint8_t bytes[8];
    put_number(bytes, chance(50) ? 0 : word());
    replace(it->in, at, 0, bytes, 1 + below(8));
}

static void cut(struct mutant *it)
{
    const size_t lengths[] = {it->at, below(10), it->in->len - 1};
    fit(it->in, PICK(lengths), 0);
}

/* Longer by what a length of one or two bytes does not tell. */
static void much_longer(struct mutant *it)
{
    static const size_t longer[] = {256, 512, 768, 4096, 65536};
    size_t period = chance(50) ? 8 : 0;
    fit(it->in, it->in->len + PICK(longer), period);
}

/* ---- Mutations of the image ---- */

/* Makes another number of sets of those that begin at a place, more of them by the last over and over; gives where they end. */
static size_t resize(struct part *part, size_t at, size_t sets, size_t to)
{
    for (at += 8 * sets; sets < to && at <= part->len; sets++, at += 8)
        replace(part, at, 0, part->at + at - 8, 8);
    for (; sets > to && at <= part->len; sets--, at -= 8)
        take_out(part, at - 8, 8);
    return at;
}

/* Stages put in after the last one, which do as it does, or the last ones taken out. */
static void resized(struct mutant *it)
{
    size_t i, n = stages(it), p = predicates(it), some = 1 + below(64);
    const size_t counts[] = {64, 64, 63, n + 1, n - 1, some};
    size_t to = PICK(counts), at = n == 0 ? 0 : resize(it->in, 7 + p, n, to);
    for (i = 0; i < p && n > 0; i++)
        at = get(it->in, 7 + i) == 2 ? resize(it->in, at, n, to) : at + 8;
    set(it->in, 5, to);
}

/* A bit below n where that is the limit, and else bit n or one above. */
static void one_stage(struct mutant *it)
{
    size_t n = stages(it), stage = it->mutation->limit == STAGES ? below(n) : n + (chance(50) ? 0 : below(64 - n));
    size_t at = it->at + 7 - stage / 8;
    if (stage < 64)
        set(it->in, at, get(it->in, at) ^ (size_t)1 << stage % 8);
}

static void whole_set(struct mutant *it)
{
    size_t n = stages(it);
    uint64_t all = n < 64 ? ((uint64_t)1 << n) - 1 : UINT64_MAX, one = (uint64_t)1 << below(n) % 64, many = word() & all, few = many & word();
    const uint64_t sets[] = {0, all, many, few, one, all ^ all >> 1, all + 1, UINT64_MAX};
    uint8_t bytes[8];
    put_number(bytes, PICK(sets));
    replace(it->in, it->at, 8, bytes, 8);
}

/* ---- Mutations of formulas ---- */

/* A kind of the same shape, so that the other fields fit it still. */
static void like_kind(struct mutant *it)
{
    static const uint8_t first[] = {0, 0, 2, 2, 4, 4, 6, 6, 6, 6, 10, 10}, count[] = {2, 2, 2, 2, 2, 2, 4, 4, 4, 4, 2, 2};
    size_t was = get(it->in, it->at);
    if (was < sizeof first)
        set(it->in, it->at, first[was] + below(count[was]));
}

/* Puts a record behind the others, and gives its number. */
static size_t add_record(struct mutant *it, size_t kind, size_t a, size_t b, size_t x, size_t y)
{
    const uint8_t record[RECORD] = {(uint8_t)kind, (uint8_t)a, (uint8_t)b, (uint8_t)x, (uint8_t)y, kind < 6 ? 0 : 64};
    size_t entry = entries(it);
    replace(&it->part[TABLE], it->part[TABLE].len, 0, record, RECORD);
    set(&it->part[TABLE], 5, entry + 1);
    return entry;
}

/* The goal under one to five modalities, the outermost of which is the new goal. */
static void nested(struct mutant *it)
{
    size_t left = 1 + below(5);
    for (; left > 0; left--) {
        size_t kind = 6 + below(4);
        it->goal = add_record(it, kind, (size_t)it->goal, 0, below(4), 0);
    }
}

/* The goal under a record that one code before the steps proves from them: so a proof mostly stays one. */
static void one_step_more(struct mutant *it)
{
    /* For side 0 `or` left and right, AF now and EU now; for side 1 their duals. */
    static const size_t kinds[][4] = {{5, 5, 8, 11}, {4, 4, 9, 10}}, codes[] = {4, 5, 8, 15};
    struct part *certificate = &it->part[CERTIFICATE];
    size_t side = certificate->len == 0 ? below(2) : get(certificate, 5) % 2, shape = below(4), kind = kinds[side][shape];
    size_t goal = (size_t)it->goal, constant = shape == 2 ? 0 : add_record(it, below(2), 0, 0, 0, 0);
    it->goal = add_record(it, kind, shape % 2 == 0 ? goal : constant, shape % 2 == 0 ? constant : goal, 0, 0);
    set(certificate, 6, (size_t)it->goal);
    put_in(certificate, 8, codes[shape]);
}

/* ---- Mutations of goal, start, room and steps ---- */

/* A number near its limit, or the right one in its low bits alone, or past what 8, 32 or 63 bits hold. */
static void wide(struct mutant *it)
{
    uint64_t *number = chance(50) ? &it->goal : &it->start, was = *number, top = number == &it->goal ? entries(it) : stages(it);
    const uint64_t bit_32 = (uint64_t)1 << 32, bit_63 = (uint64_t)1 << 63, bit = (uint64_t)1 << (8 + below(56));
    const uint64_t low[] = {top - 1, top, top + 1, 255, 256, was + 256, was + bit, was + 256 * (1 + below(255))};
    const uint64_t high[] = {bit_32 - 1, bit_32, was + bit_32, bit_63 - 1, was + bit_63, UINT64_MAX, UINT64_MAX - 255 + was, word()};
    *number = chance(50) ? PICK(low) : PICK(high);
}

/* Another entry or another stage, which the certificate mostly names too. */
static void asked_elsewhere(struct mutant *it)
{
    uint64_t *number = chance(50) ? &it->goal : &it->start;
    *number = below(number == &it->goal ? entries(it) : stages(it));
    if (chance(70))
        set(&it->part[CERTIFICATE], number == &it->goal ? 6 : 7, (size_t)*number);
}

static void room(struct mutant *it)
{
    uint64_t was = it->room, some = below(4000);
    const uint64_t rooms[] = {0, 1, 7, 8, 9, 10, was + 1, was - 1, 2 * was, some % 100, some, below(40000)};
    it->room = PICK(rooms) % MOST_ROOM;
}

/* Another code for the same formula, with a chosen byte put in or taken out as it needs. */
static void like_code(struct mutant *it)
{
    static const uint8_t next[] = {0, 1, 2, 3, 5, 4, 6, 7, 9, 8, 11, 10, 13, 14, 12, 16, 15};
    size_t was = get(it->in, it->at);
    if (was < sizeof next)
        set(it->in, it->at, next[was]);
    if (was == 11 || was == 15)
        put_in(it->in, it->at + 1, below(stages(it)));
    if (was == 10 || was == 16)
        take_out(it->in, it->at + 1, 1);
}

static void chosen(struct mutant *it)
{
    size_t tries, n = stages(it), other = below(n);
    const size_t bytes[] = {other, other, other, n - 1, n, n + 1, 63, 64, 255};
    for (tries = 0; tries < 16 && get(it->in, it->at) != 7 && get(it->in, it->at) != 10 && get(it->in, it->at) != 16; tries++)
        it->at = place(it);
    set(it->in, it->at + 1, PICK(bytes));
}

/* A merge where another step was, or put in before one. */
static void merge(struct mutant *it)
{
    static const uint8_t codes[] = {11, 14};
    take_out(it->in, it->at, chance(50));
    put_in(it->in, it->at, PICK(codes));
}

/* ---- Mutations by another case ---- */

static struct bytes of_other(const struct mutant *it)
{
    return it->in == &it->part[IMAGE] ? it->other->image : it->in == &it->part[TABLE] ? it->other->table : it->other->certificate;
}

/* The front of one and the back of the other, mostly from the same place on. */
static void spliced(struct mutant *it)
{
    struct bytes from = of_other(it);
    size_t on = chance(60) && it->at <= from.len ? it->at : below(from.len + 1);
    if (it->at <= it->in->len)
        replace(it->in, it->at, it->in->len - it->at, from.at + on, from.len - on);
}

/* Some bytes of the other over as many here. */
static void grafted(struct mutant *it)
{
    struct bytes from = of_other(it);
    size_t on = chance(60) ? it->at : below(from.len), len = run(it, it->at);
    if (on <= from.len && len <= from.len - on)
        replace(it->in, it->at, len, from.at + on, len);
}

/* ---- The table of mutations ---- */

static const struct mutation mutations[] = {
    {"number of stages", near, IMAGE, 5, 0, 64, {3, 2, 2, 8}},
    {"number of predicates", near, IMAGE, 6, 0, 17, {2, 1, 1, 5}},
    {"stages put in or taken out", resized, IMAGE, 0, 0, 0, {6, 8, 4, 10}},
    {"arity of predicate 0", within, IMAGE, 7, 0, 4, {3, 1, 1, 8}},
    {"bit n or above in a set", one_stage, IMAGE, SETS, 8, 64, {3, 1, 1, 8}},
    {"bit below n in a set", one_stage, IMAGE, SETS, 8, STAGES, {10, 10, 10, 30}},
    {"whole set", whole_set, IMAGE, SETS, 8, 0, {4, 3, 4, 15}},
    {"two sets exchanged", exchanged, IMAGE, SETS, 8, 0, {3, 2, 3, 8}},
    {"number of entries", near, TABLE, 5, 0, 64, {3, 1, 1, 0}},
    {"kind", near, TABLE, RECORDS + KIND, RECORD, 12, {4, 1, 1, 0}},
    {"field a", near, TABLE, RECORDS + A, RECORD, OWN, {4, 1, 1, 0}},
    {"field b", near, TABLE, RECORDS + B, RECORD, OWN, {4, 1, 1, 0}},
    {"field x", near, TABLE, RECORDS + X, RECORD, 4, {2, 1, 1, 0}},
    {"field y", near, TABLE, RECORDS + Y, RECORD, 4, {2, 1, 1, 0}},
    {"field t", near, TABLE, RECORDS + T, RECORD, STAGES, {5, 2, 3, 0}},
    {"two records exchanged", exchanged, TABLE, RECORDS, RECORD, 0, {2, 1, 1, 0}},
    {"record dropped", dropped, TABLE, RECORDS, RECORD, 0, {2, 1, 1, 0}},
    {"record repeated", repeated, TABLE, RECORDS, RECORD, 0, {2, 1, 1, 0}},
    {"kind made one of its shape", like_kind, TABLE, RECORDS + KIND, RECORD, 0, {10, 8, 12, 0}},
    {"operands exchanged", exchanged, TABLE, RECORDS + A, RECORD, 1, {5, 3, 5, 0}},
    {"variables exchanged", exchanged, TABLE, RECORDS + X, RECORD, 1, {4, 3, 4, 0}},
    {"another variable x", within, TABLE, RECORDS + X, RECORD, 4, {5, 3, 5, 0}},
    {"another variable y", within, TABLE, RECORDS + Y, RECORD, 4, {3, 2, 3, 0}},
    {"a stage for a term", within, TABLE, RECORDS + T, RECORD, STAGES, {5, 4, 5, 0}},
    {"goal under modalities", nested, TABLE, 0, 0, 0, {6, 3, 6, 0}},
    {"goal under one step more", one_step_more, TABLE, 0, 0, 0, {4, 14, 4, 0}},
    {"wide goal or start", wide, ANY, 0, 0, 0, {10, 6, 6, 0}},
    {"another goal or start", asked_elsewhere, ANY, 0, 0, 0, {10, 8, 10, 0}},
    {"room", room, ANY, 0, 0, 0, {0, 0, 30, 0}},
    {"side", near, CERTIFICATE, 5, 0, 2, {0, 4, 0, 0}},
    {"goal named", near, CERTIFICATE, 6, 0, 64, {0, 3, 0, 0}},
    {"start named", near, CERTIFICATE, 7, 0, STAGES, {0, 3, 0, 0}},
    {"code", near, CERTIFICATE, 8, 1, 17, {0, 12, 0, 0}},
    {"code made one for the same formula", like_code, CERTIFICATE, 8, 1, 0, {0, 14, 0, 0}},
    {"chosen byte", chosen, CERTIFICATE, 8, 1, 0, {0, 14, 0, 0}},
    {"merge", merge, CERTIFICATE, 8, 1, 0, {0, 10, 0, 0}},
    {"steps dropped", dropped, CERTIFICATE, 8, 1, 0, {0, 10, 0, 0}},
    {"steps repeated", repeated, CERTIFICATE, 8, 1, 0, {0, 10, 0, 0}},
    {"steps exchanged", exchanged, CERTIFICATE, 8, 1, 0, {0, 8, 0, 0}},
    {"steps cut", cut, CERTIFICATE, 8, 1, 0, {0, 6, 0, 0}},
    {"steps added", added, CERTIFICATE, 8, 1, 0, {0, 6, 0, 0}},
    {"first letter of a mark", near, ANY, 0, 0, 'Z', {1, 1, 1, 1}},
    {"last letter of a mark", near, ANY, 2, 0, 'M', {1, 1, 1, 1}},
    {"high byte of a version", near, ANY, 3, 0, 1, {1, 1, 1, 1}},
    {"low byte of a version", near, ANY, 4, 0, 2, {1, 1, 1, 1}},
    {"one byte", near, ANY, 0, 1, 256, {4, 4, 2, 6}},
    {"bytes dropped", dropped, ANY, 0, 1, 0, {2, 2, 1, 3}},
    {"bytes repeated", repeated, ANY, 0, 1, 0, {2, 2, 1, 3}},
    {"bytes exchanged", exchanged, ANY, 0, 1, 0, {2, 2, 1, 3}},
    {"bytes added", added, ANY, 0, 1, 0, {2, 2, 1, 3}},
    {"cut", cut, ANY, 0, 1, 0, {2, 2, 1, 3}},
    {"much longer", much_longer, ANY, 0, 0, 0, {2, 2, 1, 3}},
    {"part of another case", spliced, ANY, 0, 0, 0, {4, 3, 2, 4}},
    {"front and another case's back", spliced, ANY, 0, 1, 0, {2, 2, 2, 4}},
    {"bytes of another case", grafted, ANY, 0, 1, 0, {4, 4, 2, 4}},
};

enum { COUNT = sizeof mutations / sizeof mutations[0] };
static size_t made[COUNT];

static size_t some_mutation(uint64_t service)
{
    size_t at, left = 0, of = (size_t)service - VERDICT;
    for (at = 0; at < COUNT; at++)
        left += mutations[at].often[of];
    left = below(left);
    for (at = 0; left >= mutations[at].often[of]; at++)
        left -= mutations[at].often[of];
    return at;
}

/* ---- What a mutant costs to answer ---- */

/* The most work for one mutant, mostly and seldom; the most for one certificate that is written; and a number past them. */
static const uint64_t usual = 600000, seldom = 20000000, writing = 20000000, past_all = (uint64_t)1 << 40;

/* Roughly the work for the goal: each modality asks for its operands at every stage, and then goes round the graph. */
static uint64_t work(const struct mutant *it)
{
    uint64_t works[64], n = stages(it);
    size_t entry;
    if (it->goal >= 64 || n > 64 || it->service == DEAD_ENDS)
        return 1;
    for (entry = 0; entry <= it->goal; entry++) {
        const struct part *table = &it->part[TABLE];
        size_t at = RECORDS + RECORD * entry, kind = get(table, at + KIND), a = get(table, at + A), b = get(table, at + B);
        int has_b = kind == 4 || kind == 5 || kind >= 10;
        uint64_t operands = (a < entry ? works[a] : 0) + (has_b && b < entry ? works[b] : 0);
        uint64_t own = kind < 4 ? 1 : kind < 6 ? operands + 1 : n * operands + n * n;
        works[entry] = own < past_all ? own : past_all;
    }
    return works[it->goal];
}

/* Whether the mutant is quick to answer. A buffer that takes long to fill is made shorter. */
static int quick(struct mutant *it)
{
    uint64_t needed = work(it), room = writing / (needed / (stages(it) + 1) + 1);
    it->room = it->room < room ? it->room : room;
    return needed <= (chance(1) ? seldom : usual);
}

/* ---- The whole ---- */

static void make(struct mutant *it, const struct asked *from)
{
    size_t left = 1 + (chance(30) ? below(MUTATIONS) : 0);
    it->goal = from->goal;
    it->start = from->start;
    it->room = from->room;
    hold(&it->part[IMAGE], from->image);
    hold(&it->part[TABLE], from->table);
    hold(&it->part[CERTIFICATE], from->certificate);
    for (; left > 0; left--) {
        size_t number = some_mutation(it->service);
        it->mutation = &mutations[number];
        it->in = &it->part[it->mutation->part == ANY ? below(given[it->service]) : it->mutation->part];
        it->at = place(it);
        it->mutation->make(it);
        made[number]++;
    }
    if (chance(60))
        mend(it);
}

static void write_mutant(FILE *to, const struct mutant *it)
{
    uint8_t head[25] = {(uint8_t)it->service}, len[8];
    size_t i;
    put_number(head + 1, it->goal);
    put_number(head + 9, it->start);
    put_number(head + 17, it->room);
    fwrite(head, 1, sizeof head, to);
    for (i = 0; i < PARTS; i++) {
        put_number(len, it->part[i].len);
        fwrite(len + 4, 1, 4, to);
        fwrite(it->part[i].at, 1, it->part[i].len, to);
    }
}

/* All cases of a file, which are all for one service. Each takes 37 bytes or more. */
static struct asked *all_cases(struct files *files, uint64_t service)
{
    struct asked *cases = malloc((files->left.len / 37 + 1) * sizeof *cases);
    if (cases == NULL)
        fail("mutate: no memory");
    while (next_case(files, service, &cases[files->taken]))
        continue;
    return cases;
}

static void say(size_t mutants, size_t slow)
{
    size_t at;
    for (at = 0; at < COUNT; at++)
        printf("%-40s %9zu\n", mutations[at].name, made[at]);
    printf("%-40s %9zu\n%-40s %9zu\n", "left out as slow", slow, "mutants", mutants);
}

int main(int argc, char **argv)
{
    static struct mutant mutant;
    struct files files;
    struct asked *cases;
    uint64_t times, from, to;
    size_t at, number = 0, slow = 0;
    if (argc != 5 && argc != 7)
        fail("usage: mutate CASES MUTANTS SEED TIMES [FROM TO]");
    source = strtoull(argv[3], NULL, 10);
    times = strtoull(argv[4], NULL, 10);
    from = argc == 7 ? strtoull(argv[5], NULL, 10) : 0;
    to = argc == 7 ? strtoull(argv[6], NULL, 10) : UINT64_MAX;
    files = open_files(argv[1], argv[2]);
    mutant.service = files.left.len > 0 ? files.left.at[0] : VERDICT;
    if (mutant.service < VERDICT || mutant.service > DEAD_ENDS)
        fail("mutate: the cases are for none of the exported functions");
    cases = all_cases(&files, mutant.service);
    for (at = 0; at < files.taken * times; at++) {
        mutant.other = &cases[below(files.taken)];
        make(&mutant, &cases[at / times]);
        if (!quick(&mutant))
            slow++;
        else if (number++ >= from && number <= to)
            write_mutant(files.answers, &mutant);
    }
    close_files(&files);
    say(number, slow);
    return 0;
}

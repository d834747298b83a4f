/* What the parts of this program share. README.md says what it is for. */
#ifndef HOSTILE_H
#define HOSTILE_H

#include <stdbool.h>
#include <stddef.h>
#include <stdint.h>

#include "ohg.h"
#include "price.h"

#ifdef __has_feature
#if __has_feature(address_sanitizer)
#define ADDRESS_SANITIZER 1
#elif __has_feature(memory_sanitizer)
#define MEMORY_SANITIZER 1
#endif
#endif

enum { FUNCTIONS = 27, CODES = 18, LISTS = 2, OUTS = 2, LENGTHS = OUTS + 1, FITS = 8, GUARD = 256 };

/* The most bytes that are lent: more than any of them has a use for. */
enum { SRC_MOST = 700000, LIST_MOST = 1 << 19, OUT_MOST = OHG_FORM_BYTES + 1024, ROOM_MOST = OHG_ROOM_CYCLE_BREAKING_NODES + 4096 };

struct slice {
    uint8_t *at;
    size_t len;
};

/* ---- functions.c: what the headers in bindings/ and docs/INTERFACE.md say of each function ---- */

/* All that a call is given. */
struct lent {
    uint32_t number[2];
    struct slice src, list[LISTS], out[OUTS], room;
};

enum answers { SIZES, FORM, FORM_AND_MAP, LIST, LOOP, EXPLAINED, YES, PRICES, REPORT };
enum second { NOTHING, NODE_ID, EDGE_ID, ENTRIES, FREE, STEPS, CUTS }; /* what b is */
enum numbers { NO_NUMBER, LABEL, TWO_NODES, EDGE_AND_LABEL };
enum entries { NO_LIST, LABELS, NODES, EDGES, BUILDING }; /* of lists in the call; the last one is a list of steps */

struct function {
    const char *name;
    uint64_t (*call)(const struct lent *);
    bool graph; /* whether a stored graph is read, or a slice of them */
    enum numbers numbers;
    enum entries entries;
    int lists, outs;
    enum answers answers;
    enum second second;
    size_t room;
    unsigned codes; /* bit c: code c may be returned */
};

extern const struct function functions[FUNCTIONS];

enum { READ = 0, REWRITE = 1, DISCRETE = 3, NEW_NODE = 6, NEW_EDGE = 7, NEW_OPERATION = 8, UNIFY = 9, ADD_EDGE_SOURCE = 10, ADD_EDGE_TARGET = 11, DELETE_EDGES = 12, DELETE_NODES = 13, SPIDERIZE = 14, SPIDERIZE_NODES = 15, CHOOSE = 16, NO_LOOP = 17, QUOTIENT = 19, KEEPING = 20, FIND_LOOP = 21, SCANNING = 22, REASONS = 23, PRICE = 24, PRICE_RANGE = 25, BUILD = 26 };

/* ---- record.c: a call as the bytes of a file ---- */

struct call {
    unsigned function;
    uint8_t fit[LENGTHS]; /* how long the answer buffers and the work room are, beside what is called for */
    uint8_t sides;        /* bit i: slice i of src, lists, answer buffers, room ends before a forbidden page, else it begins after one */
    uint32_t number[2];
    struct slice src, list[LISTS];
};

enum { RECORD_HEADER = 21, RECORD_MOST = RECORD_HEADER + SRC_MOST + LISTS * LIST_MOST };

/* A little-endian number. */
uint32_t get(const uint8_t *at, int bytes);
/* Any bytes are a call; the slices lie in them. */
struct call decode(const uint8_t *bytes, size_t len);
/* Returns the length, or 0 where it does not fit. */
size_t encode(const struct call *c, uint8_t *bytes, size_t most);

/* ---- random.c ---- */

struct random {
    uint64_t state;
};

uint64_t any(struct random *r);
uint64_t below(struct random *r, uint64_t n); /* n is not 0 */
bool one_in(struct random *r, uint64_t n);

/* ---- desk.c: memory to lend, and one call with it ---- */

/* Memory between two forbidden pages. It is mapped twice: the port sees `lent`, read-only where it is for inputs, and this program works in `own`. */
struct arena {
    uint8_t *lent, *own;
    size_t size;
};

struct desk {
    struct arena src, list[LISTS], out[OUTS], room;
    struct random garbage;
    uint8_t fill; /* what answer buffers held before the last call */
    uint64_t calls, counts[FUNCTIONS][CODES];
};

void set_up_inputs(struct desk *d);
void set_up_answers(struct desk *d, uint64_t seed);
/* Lends the inputs of a call, copied into the desk's memory. */
struct lent lend_inputs(struct desk *d, const struct call *c);
void take_inputs_back(const struct lent *l);
/* One call with answer buffers and work room of these lengths, and all that holds of it whatever it answers. */
uint64_t call_once(struct desk *d, unsigned function, struct lent *l, const size_t length[LENGTHS], unsigned sides);
/* The bytes of an answer buffer after a call. */
const uint8_t *answered(const struct desk *d, const struct lent *l, int out);
/* How many of them are the answer, where ids have `width` bytes. */
size_t written(const struct function *f, uint32_t width, uint64_t returned, int out);

/* ---- places.c: where a refusal says that its fault is ---- */

/* Whether this place may stand beside this code: it is what the code alone fixes, it lies in the form, or the fault is to be seen there. */
bool is_place(const struct function *f, const struct lent *l, unsigned code, uint32_t place);
/* Calls with lists whose places have 32 bits or more; no memory is used for them, since their entries are not looked at. */
void run_long_lists(struct desk *d);

/* Whether the nodes that a call's list names are all there, and its end is whole. */
bool is_node_list(struct slice src, struct slice list);

/* ---- merge.c: merging, written from T-01's text apart from the port ---- */

enum { NONE = 0xFFFFFFFF, NODES_MOST = 16384, PAIRS_MOST = 8192 };

struct merged {
    bool differ; /* two nodes of one class have different labels; there is no form then */
    uint32_t nodes, class[NODES_MOST]; /* of each node before, the one that it is afterwards */
    size_t len;
    uint8_t form[OHG_FORM_BYTES];
};

/* Merges the graph of a form that is taken. */
void merge(struct slice src, struct merged *m);

/* ---- arcs.c: a drawing as its arcs ---- */

enum { VERTICES_MOST = 2 * NODES_MOST, ARCS_MOST = 65536 };

/* From each source node to its edge, from each edge to its target node, in stored order. Edges are numbered on after the nodes. */
struct arcs {
    uint32_t nodes, vertices, count, from[ARCS_MOST], to[ARCS_MOST];
};

/* The arcs of a form that is taken. */
void read_arcs(struct slice src, struct arcs *a);

/* ---- keep.c: the choice with kept nodes, written from T-10's text apart from the port ---- */

enum { STAGES_MOST = 128 }; /* vertices of a graph whose stages are gone through, which takes long */

struct kept {
    bool blocked; /* some directed cycle has only kept nodes */
    bool known;   /* the graph is small, and unless it is blocked the choice stands here: */
    uint32_t ids, free;
    bool kept[NODES_MOST], chosen[NODES_MOST];
};

/* Chooses in the graph of a form that is taken and has no pairs, with a list of its nodes. */
void keep(struct slice src, struct slice list, struct kept *k);

/* ---- walk.c: one loop, written from T-12's text apart from the port ---- */

/* The loop is the last `count` visits. */
struct walked {
    uint32_t steps, count, visits[VERTICES_MOST];
};

/* Which vertices are left once all that goes freely has gone. */
void find_core(const struct arcs *a, bool *core);
/* The walk from a vertex, where each leads on to one other. */
void walk_on(const uint32_t *onward, uint32_t start, struct walked *w);
/* The walk in the graph of a form that is taken and has no pairs. */
void walk(struct slice src, struct walked *w);
/* The form of a ring of so many nodes, of version 2; returns its length. The walk passes all nodes and edges of it. */
size_t ring_form(uint32_t nodes, uint8_t *form);

/* ---- why.c: why each node is chosen or freed, written from T-04's text apart from the port ---- */

struct reason {
    uint32_t kind, stage, in, out;
};

struct explained {
    bool whole; /* all stages were gone through, which a large graph's are not: there what has not gone yet has stage 0 */
    uint32_t nodes, chosen;
    struct reason reasons[NODES_MOST];
};

/* The reasons in the graph of a form that is taken and has no pairs. */
void explain(struct slice src, struct explained *e);
/* An entry of 16 bytes. */
struct reason get_reason(const uint8_t *entry);

/* ---- parts.c: the parts of a drawing and what they cost, written from T-07's text apart from the port ---- */

enum { KINDS = 12 };

struct kind {
    uint32_t sources, targets;
    uint64_t price;
};

extern const struct kind catalogue[KINDS];

/* The fault of the first edge at fault, 0 where there is none, and that of the last one. What is counted is in order. */
struct counted {
    unsigned fault, last_fault;
    uint32_t count[KINDS], spiders;
    uint64_t total;
};

/* The parts of a form that is taken and has no pairs. */
void count_parts(struct slice src, struct counted *p);

/* ---- range.c: the report on a slice of drawings, written from T-13's text apart from the port ---- */

enum { REFUSALS = 17 };

struct report {
    uint32_t priced, refused[REFUSALS], count[KINDS], buffers, dearest, remainder;
    uint64_t sum, mean;
};

/* Takes the first drawing off a slice; false where its length is cut short or runs past the end. */
bool take_drawing(struct slice *rest, struct slice *drawing);
/* Whether a slice is drawings, each with its length before it, and no more than there may be. */
bool is_range(struct slice src);
/* The report on so many drawings, of which each was refused by its code, or has parts and buffers where that is 0. */
void make_report(const unsigned *codes, const struct counted *parts, const uint32_t *buffers, uint32_t drawings, struct report *r);
/* The numbers in the bytes of a report. */
void get_report(const uint8_t *bytes, struct report *r);

/* ---- steps.c: building and deleting steps, taken apart by T-02's text apart from the port ---- */

struct step {
    unsigned kind;
    uint32_t number[2];
    struct slice list[LISTS]; /* of 4-byte entries */
};

/* Takes the first step off a list that has bytes; false where its kind is unknown or it is cut short. */
bool take_step(struct slice *rest, struct step *s);
/* The single call of a step on a form, its lists in the form's width; they lie in memory of their own until the next one is made. */
struct call single_call(const struct step *s, struct slice form);

/* ---- cases.c: calls that belong together ---- */

/* What the first call of a case answered. */
struct outcome {
    uint64_t returned;
    size_t len[OUTS];
    uint8_t bytes[OUTS][OUT_MOST];
};

/* A call with long buffers, the same one with other buffers, and calls on what it answered. */
void run_case(struct desk *d, const struct call *c, struct outcome *o);
/* Lengths that are never too short. */
void ample(const struct call *c, size_t length[LENGTHS]);
/* A length that is 0, one short, exact, one more, many more, or any that is short. */
size_t fitted(uint8_t fit, size_t exact, size_t most);

/* ---- make.c: calls by chance ---- */

struct maker;
struct maker *new_maker(uint64_t seed);
/* Makes middling and large graphs more often. */
void make_more_large(struct maker *m);
/* A call; its slices lie in the maker until the next one is made. */
struct call make_call(struct maker *m);
/* Keeps an answered form, to make further calls with. */
void keep_answer(struct maker *m, const struct call *c, const struct outcome *o);
/* Changes a call somewhat; its slices are moved into the maker. */
struct call change_call(struct maker *m, const struct call *c);

/* ---- threads.c ---- */

/* A hundred threads call every function at once, with what `m` makes; their calls are added to those of `d`. */
void run_threads(struct desk *d, struct maker *m);

/* ---- report.c: failures and counts ---- */

/* The case that runs in this thread. */
extern _Thread_local const struct call *current;

/* Called with what does not hold; does not return. */
_Noreturn void fail(const char *function, const char *sentence);
/* Makes a failure of every fault and of SIGALRM, and saves the case that failed under this name. */
void watch(const char *path);
/* Gives the calling thread a stack on which a fault can be told. */
void stack_for_signals(void);
void print_counts(uint64_t counts[FUNCTIONS][CODES]);

#endif

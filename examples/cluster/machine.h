/* What the files of the machine share. A rank has the elements whose number is its own modulo the number of ranks; all
   that stands here is one rank's. */
#define _POSIX_C_SOURCE 200809L
#include <inttypes.h>
#include <stdio.h>
#include <stdlib.h>
#include <string.h>

enum { ELEMENTS = 64, CELLS = 1000000 }; /* at most: elements, cells of a structure */

/* The operators, those with one port first. */
enum op { CONST, NEG, NOT, MERGE, ENTER, NEXT, RESET, FETCH, SWITCH, BACK, SEND, ALLOC, ADDRESS, STORE, ADD, SUB, MUL,
          DIV, REM, LT, LE, GT, GE, EQ, NE, EQB, NEB, AND, OR, OPS };
enum cause { NONE, OVERFLOWN, BY_ZERO, BAD_BOUNDS, OUT_OF_BOUNDS, SECOND_STORE, STUCK };

/* A value. A context or a structure is known by `id`, its number times 64 and its element; main's context is 0. In
   `number` stands a number, a truth value, the low bound of a structure, the index of an address, the iteration of a
   continuation; in `more` how many cells a structure has, how far an index is above the low bound, an instruction. */
enum kind { IS_SIGNAL, IS_INT, IS_BOOL, IS_STRUCTURE, IS_ADDRESS, IS_CONTEXT, IS_CONTINUATION };
struct value { uint64_t id; int64_t number; uint32_t more, kind; };

/* A tag, with what a message under it is: one for a port, or one that reads a cell for the fetch whose reply has this
   tag, or that writes it for the store that has it; and the element that it is sent to. */
enum what { PORT_0, PORT_1, READ, WRITE };
struct tag { uint64_t context, iteration; uint32_t instr; uint16_t what, element; };
struct message { struct tag tag; uint64_t stamp; struct value value, cell; };

/* An instruction; its destinations are those in `arcs` from `yes`, those on the false side from `no`, up to `end`. */
struct instr { uint32_t op, a, b, line, column, yes, no, end; struct value value; };
struct arc { uint32_t to, port; };

struct list { void *at; size_t count, room; };
struct element { uint64_t stamp, contexts, structures; int log; size_t filled; char *lines; };
struct made { struct value value; struct tag by; uint32_t order; }; /* a context or a structure, and what made it */
struct reply { struct tag tag; uint32_t next; }; /* in a list; the number of one is from 1 */
enum state { EMPTY, AWAITED, FULL };
struct cell { struct value address, value; struct tag origin; uint32_t state, replies; }; /* a reply's number, or 0 */
struct fault { uint64_t stamp; uint32_t element, cause; struct tag tag, other; struct value cell; };

extern int rank, ranks, count;               /* count: of elements */
extern struct element elements[ELEMENTS];
extern struct list graph, arcs;              /* the listing: instructions, and their destinations */
extern struct list flight;                   /* messages that this rank is to handle, the newest last */
extern struct list contexts, structures, replies;
extern struct cell *cells;                   /* a table; see element.c */
extern size_t cell_room;
extern uint64_t made, handled, now;          /* messages, messages, the stamp of the event */
extern struct fault fault;                   /* the first one here, or one with the last of all stamps */
extern struct value answer;
extern int answered, stopping;
extern const char *log_name;

/* machine.c */
void fail(const char *format, ...);
void *sized(void *old, size_t number, size_t size); /* memory for so many, or the end */
void *cleared(size_t number, size_t size);
void *more(struct list *it, size_t size);           /* room for one at the end of a list */
int spoils(const char *how);
void send_message(struct tag tag, struct value value, struct value cell);
void send_token(uint64_t context, uint64_t iteration, uint32_t instr, uint32_t port, struct value value);

/* listing.c */
const struct instr *instr_at(uint32_t number);
char *read_file(const char *path);
void read_listing(char *text);
void start(const char *text, char **words);

/* element.c */
void make_tables(void);
struct value truth(int64_t it);
void handle(const struct message *m);

/* log.c */
char *put_value(char *to, struct value it);
void open_logs(void);
void write_logs(void);
void write_line(struct element *it, const struct message *m, enum cause cause);

/* report.c */
int report(int left);

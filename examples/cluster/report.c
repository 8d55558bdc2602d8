/* The report of a run, by rank 0, of what all ranks have kept (docs/LANGUAGE.md, "Output"; docs/MACHINE.md, "Observed"
   and "Paths of tags"). */
#include "machine.h"
#include <limits.h>
#include <mpi.h>

static const char *const CAUSES[] = {"", "overflow", "division by zero", "bad bounds", "out of bounds", "second store"};

/* A name is a path and a place: the steps from the outermost on, each a place and of a loop the iteration. */
struct step { uint32_t line, column; int64_t iteration; }; /* -1 for a call */
struct name { struct step *steps; size_t depth; struct step place; };
struct array { struct name name; struct made *made; };
/* What a cell holds: FULL, its value, or AWAITED, a reply by its tag and name. */
struct held { uint32_t state; struct value address, value; struct tag tag; struct name name; };
static struct list all_contexts, all_structures, all_held;

/* What the lists of all ranks have, at rank 0. */
static struct list gathered(const struct list *own, size_t size) {
    int here = (int)own->count, *counts = sized(NULL, (size_t)ranks, sizeof *counts),
        *starts = sized(NULL, (size_t)ranks, sizeof *starts);
    struct list all = {0};
    MPI_Datatype type;
    MPI_Gather(&here, 1, MPI_INT, counts, 1, MPI_INT, 0, MPI_COMM_WORLD);
    for (int r = 0; rank == 0 && r < ranks; r++) {
        starts[r] = (int)all.count;
        all.count += (size_t)counts[r];
        if (all.count > INT_MAX)
            fail("there is too much to be shown");
    }
    all.at = sized(NULL, all.count, size);
    MPI_Type_contiguous((int)size, MPI_BYTE, &type);
    MPI_Type_commit(&type);
    MPI_Gatherv(own->at, here, type, all.at, counts, starts, type, 0, MPI_COMM_WORLD);
    MPI_Type_free(&type);
    free(counts);
    free(starts);
    return all;
}

static int by_id(const void *a, const void *b) {
    uint64_t x = ((const struct made *)a)->value.id, y = ((const struct made *)b)->value.id;
    return (x > y) - (x < y);
}

static struct made *found(const struct list *sorted, uint64_t id) {
    const struct made wanted = {.value = {.id = id}};
    return bsearch(&wanted, sorted->at, sorted->count, sizeof wanted, by_id);
}

static struct step place_of(uint32_t instr) {
    return (struct step){instr_at(instr)->line, instr_at(instr)->column, -1};
}

/* The path of a tag and the place of its instruction (docs/MACHINE.md, "Paths of tags"). */
static struct name name_of(struct tag tag) {
    struct name it = {NULL, 0, place_of(tag.instr)};
    for (struct tag at = tag; at.context != 0; at = found(&all_contexts, at.context)->by)
        it.depth++;
    it.steps = sized(NULL, it.depth, sizeof *it.steps);
    for (size_t left = it.depth; left > 0; left--) {
        struct tag by = found(&all_contexts, tag.context)->by;
        struct step step = place_of(by.instr), block = place_of(instr_at(by.instr)->a);
        if (step.line == block.line && step.column == block.column)
            step.iteration = (int64_t)tag.iteration;
        it.steps[left - 1] = step;
        tag = by;
    }
    return it;
}

static int compared(struct step a, struct step b) {
    if (a.line != b.line)
        return a.line < b.line ? -1 : 1;
    if (a.column != b.column)
        return a.column < b.column ? -1 : 1;
    return (a.iteration > b.iteration) - (a.iteration < b.iteration);
}

static int by_name(const void *a, const void *b) {
    const struct name *x = a, *y = b;
    for (size_t i = 0; i < x->depth && i < y->depth; i++) {
        int it = compared(x->steps[i], y->steps[i]);
        if (it != 0)
            return it;
    }
    return x->depth != y->depth ? x->depth < y->depth ? -1 : 1 : compared(x->place, y->place);
}

/* The fetches that wait come behind the cells with values, by their names; cells by array and index. */
static int by_line(const void *a, const void *b) {
    const struct held *x = a, *y = b;
    if (x->state != y->state)
        return x->state > y->state ? -1 : 1;
    if (x->state == AWAITED)
        return by_name(&x->name, &y->name);
    if (x->address.id != y->address.id)
        return x->address.id < y->address.id ? -1 : 1;
    return (x->address.number > y->address.number) - (x->address.number < y->address.number);
}

static void print_name(struct name it) {
    for (size_t i = 0; i < it.depth; i++) {
        printf("/%" PRIu32 ":%" PRIu32, it.steps[i].line, it.steps[i].column);
        if (it.steps[i].iteration >= 0)
            printf("#%" PRId64, it.steps[i].iteration);
    }
    printf("@%" PRIu32 ":%" PRIu32, it.place.line, it.place.column);
}

/* Prints a value of the language; an array by its name, which is that of what made it. */
static void print_value(struct value it) {
    char text[128];
    if (it.kind == IS_STRUCTURE) {
        struct name name = name_of(found(&all_structures, it.id)->by);
        print_name(name);
        free(name.steps);
    } else {
        *put_value(text, it) = '\0';
        fputs(text, stdout);
    }
}

static void print_fault(const struct fault *it) {
    struct name one = name_of(it->tag), other = name_of(it->other);
    printf("fault %s ", CAUSES[it->cause]);
    if (it->cause == SECOND_STORE) {
        printf("of ");
        print_value((struct value){.id = it->cell.id, .kind = IS_STRUCTURE});
        printf("[%" PRId64 "] ", it->cell.number);
    }
    printf("at ");
    print_name(by_name(&one, &other) < 0 ? one : other);
    if (it->cause == SECOND_STORE) {
        printf(" and ");
        print_name(by_name(&one, &other) < 0 ? other : one);
    }
    putchar('\n');
    free(one.steps);
    free(other.steps);
}

/* Prints the arrays with their cells, and the fetches that wait. What is held knows its array by the place from here on. */
static void print_arrays(void) {
    struct array *arrays = sized(NULL, all_structures.count, sizeof *arrays);
    struct held *held = all_held.at, *end = held + all_held.count;
    for (size_t i = 0; i < all_structures.count; i++) {
        struct made *it = (struct made *)all_structures.at + i;
        arrays[i] = (struct array){name_of(it->by), it};
    }
    qsort(arrays, all_structures.count, sizeof *arrays, by_name);
    for (size_t i = 0; i < all_structures.count; i++)
        arrays[i].made->order = (uint32_t)i;
    for (struct held *it = held; it < end; it++) {
        it->address.id = found(&all_structures, it->address.id)->order;
        if (it->state == AWAITED)
            it->name = name_of(it->tag);
    }
    qsort(held, all_held.count, sizeof *held, by_line);
    for (size_t i = 0; i < all_structures.count; i++) {
        struct value it = arrays[i].made->value;
        printf("array ");
        print_name(arrays[i].name);
        printf(" %" PRId64 "..%" PRId64 "\n", it.number, it.number + (int64_t)it.more - 1);
        for (; held < end && held->state == FULL && held->address.id == i; held++) {
            printf("cell ");
            print_name(arrays[i].name);
            printf("[%" PRId64 "] = ", held->address.number);
            print_value(held->value);
            putchar('\n');
        }
    }
    for (; held < end; held++) {
        printf("waiting ");
        print_name(held->name);
        printf(" of ");
        print_name(arrays[held->address.id].name);
        printf("[%" PRId64 "]\n", held->address.number);
        free(held->name.steps);
    }
    for (size_t i = 0; i < all_structures.count; i++)
        free(arrays[i].name.steps);
    free(arrays);
}

/* What the cells of this rank hold; where messages are left, nobody says which fetches wait. */
static struct list held_here(int left) {
    struct list list = {0};
    for (size_t i = 0; i < cell_room; i++) {
        if (cells[i].state == FULL)
            *(struct held *)more(&list, sizeof(struct held)) =
                (struct held){.state = FULL, .address = cells[i].address, .value = cells[i].value};
        for (uint32_t n = left ? 0 : cells[i].replies; n != 0; n = ((struct reply *)replies.at + n - 1)->next)
            *(struct held *)more(&list, sizeof(struct held)) =
                (struct held){AWAITED, cells[i].address, {0}, ((struct reply *)replies.at + n - 1)->tag, {0}};
    }
    return list;
}

/* Prints the report at rank 0, and answers its status at each. */
int report(int left) {
    struct fault *faults = sized(NULL, (size_t)ranks, sizeof *faults), *first = faults;
    struct list held = held_here(left);
    int status = left ? 3 : 0;
    MPI_Gather(&fault, sizeof fault, MPI_BYTE, faults, sizeof fault, MPI_BYTE, 0, MPI_COMM_WORLD);
    for (int r = 0; rank == 0 && r < ranks; r++)
        if (faults[r].stamp < first->stamp || (faults[r].stamp == first->stamp && faults[r].element < first->element))
            first = &faults[r];
    all_held = gathered(&held, sizeof(struct held));
    all_structures = gathered(&structures, sizeof(struct made));
    int named = all_structures.count > 0 || (rank == 0 && first->stamp != UINT64_MAX);
    MPI_Bcast(&named, 1, MPI_INT, 0, MPI_COMM_WORLD);
    if (named) /* else nothing that is shown has a path */
        all_contexts = gathered(&contexts, sizeof(struct made));
    if (rank == 0 && named) {
        qsort(all_contexts.at, all_contexts.count, sizeof(struct made), by_id);
        qsort(all_structures.at, all_structures.count, sizeof(struct made), by_id);
    }
    if (rank == 0 && first->stamp != UINT64_MAX) {
        status = 1;
        print_fault(first);
    } else if (rank == 0) {
        printf("%sanswer ", left ? "stopped\n" : "");
        if (answered)
            print_value(answer);
        else
            printf("none");
        putchar('\n');
        print_arrays();
    }
    MPI_Bcast(&status, 1, MPI_INT, 0, MPI_COMM_WORLD);
    free(faults);
    free(held.at);
    return status;
}

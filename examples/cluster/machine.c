/* machine LISTING TEXT [NAME=VALUE ..] [--elements N] [--steps N] [--log NAME] [--speed] [--spoil HOW]: runs a graph on
   the ranks of an MPI job, prints what the run shows as `idc run` does, and ends with its status.

   LISTING is what `idc graph TEXT` prints; rank 0 alone reads the two files. There are as many elements as ranks where
   nothing else is said, and the element E is worked by the rank E modulo the number of ranks. With --log the events of
   the element E go to the file NAME.E, on the host of its rank. --steps N stops the machine behind so many messages or
   some more. --speed says on standard error how many it handled a second. --spoil lets the last rank do wrong at its
   50th message or behind it, so that a judge can be tried: HOW is lose, double, stamp, route, stop or value.

   It is written from docs/RUNTIMES.md and the pages that it names, and shares nothing with idc. The hosts are to be of
   one kind, since messages are sent as they lie in memory. A rank handles the newest of its messages first, which keeps
   few in flight; those for another rank go there in batches. How the end is found stands at `work`. */
#include "machine.h"
#include <mpi.h>
#include <stdarg.h>
#include <time.h>
#include <unistd.h>

/* messages of a batch at most, batches that may come at once, messages until batches go that are not full, messages
   until a rank that has work tells for a wave */
enum { BATCH = 256, SLOTS = 16, PATIENCE = 1024, OFTEN = 1 << 16 };
struct batch { MPI_Request request; uint32_t count; struct message messages[BATCH]; };

int rank, ranks, count, answered, stopping;
struct element elements[ELEMENTS];
struct list graph, arcs, flight, contexts, structures, replies;
struct cell *cells;
size_t cell_room;
uint64_t made, handled, now;
struct fault fault = {.stamp = UINT64_MAX};
struct value answer;
const char *log_name;
static const char *spoil;
static int working;

/* Ends all ranks. What each rank would refuse at the start is told by the first. */
void fail(const char *format, ...) {
    va_list words;
    if (!working && rank > 0)
        sleep(2);
    va_start(words, format);
    fputs("machine: ", stderr);
    vfprintf(stderr, format, words);
    fputc('\n', stderr);
    va_end(words);
    MPI_Abort(MPI_COMM_WORLD, 2);
    exit(2);
}

void *sized(void *old, size_t number, size_t size) {
    void *it = number == 0 || number <= SIZE_MAX / size ? realloc(old, number * size + 1) : NULL;
    if (it == NULL)
        fail("rank %d has no memory", rank);
    return it;
}

void *cleared(size_t number, size_t size) {
    return memset(sized(NULL, number, size), 0, number * size);
}

void *more(struct list *it, size_t size) {
    if (it->count == it->room) {
        it->room = it->room ? 2 * it->room : 64;
        it->at = sized(it->at, it->room, size);
    }
    return (char *)it->at + size * it->count++;
}

/* ---- sending */

static struct batch **filling;        /* for each other rank, or NULL */
static struct { struct batch **at; size_t first, count, room; } going; /* those that MPI has, in a ring, oldest first */
static struct list spare;             /* batches that can be filled again */
static uint64_t *posted, received;    /* batches: sent to each rank; that have come */

/* Whether the last rank is to do this wrong now, once. */
int spoils(const char *how) {
    if (spoil == NULL || rank != ranks - 1 || handled < 50 || strcmp(spoil, how) != 0)
        return 0;
    if (strcmp(how, "stop") != 0)
        spoil = NULL;
    return 1;
}

static void post(int to) {
    struct batch *it = filling[to];
    if (going.count == going.room) {
        struct batch **ring = sized(NULL, 2 * going.room + 64, sizeof *ring);
        for (size_t i = 0; i < going.count; i++)
            ring[i] = going.at[(going.first + i) % going.room];
        free(going.at);
        going.at = ring, going.first = 0, going.room = 2 * going.room + 64;
    }
    going.at[(going.first + going.count++) % going.room] = it;
    MPI_Isend(it->messages, (int)(it->count * sizeof *it->messages), MPI_BYTE, to, 0, MPI_COMM_WORLD, &it->request);
    filling[to] = NULL;
    posted[to]++;
}

static void post_all(void) {
    for (int to = 0; to < ranks; to++)
        if (filling[to] != NULL)
            post(to);
}

/* Takes back the batches that have gone, from the oldest on, or waits until all have gone. */
static void take_back(int all) {
    for (int gone = 1; going.count > 0; going.count--, going.first = (going.first + 1) % going.room) {
        struct batch *it = going.at[going.first];
        if (all)
            MPI_Wait(&it->request, MPI_STATUS_IGNORE);
        else
            MPI_Test(&it->request, &gone, MPI_STATUS_IGNORE);
        if (!gone)
            break;
        *(struct batch **)more(&spare, sizeof it) = it;
    }
}

/* Room for a message to a rank: in flight here, or in the batch for that rank. */
static struct message *room_for(int to) {
    if (to == rank)
        return more(&flight, sizeof(struct message));
    if (filling[to] != NULL && filling[to]->count == BATCH)
        post(to);
    if (filling[to] == NULL) {
        filling[to] = spare.count ? ((struct batch **)spare.at)[--spare.count] : sized(NULL, 1, sizeof **filling);
        filling[to]->count = 0;
    }
    return &filling[to]->messages[filling[to]->count++];
}

/* Sends a message where it is routed to (docs/MACHINE.md, "Routes"). No sum wraps: iterations and numbers are at most
   stamps, and no machine lives to see one near 2^63. */
void send_message(struct tag tag, struct value value, struct value cell) {
    uint64_t id = tag.what < READ ? tag.context : cell.id, on = tag.what < READ ? tag.iteration : cell.more;
    tag.element = (uint16_t)((id % ELEMENTS + id / ELEMENTS + on + (uint64_t)spoils("route")) % (uint64_t)count);
    *room_for(tag.element % ranks) = (struct message){tag, now, value, cell};
    made++;
}

void send_token(uint64_t context, uint64_t iteration, uint32_t instr, uint32_t port, struct value value) {
    send_message((struct tag){context, iteration, instr, (uint16_t)port, 0}, value, (struct value){0});
}

/* ---- the work of a rank, and the end */

static MPI_Request slots[SLOTS];
static struct message (*slot_messages)[BATCH];
static int slot; /* the oldest: MPI fills them in turn */

static void open_slots(void) {
    slot_messages = sized(NULL, SLOTS, sizeof *slot_messages);
    filling = cleared((size_t)ranks, sizeof *filling);
    posted = cleared((size_t)ranks, sizeof *posted);
    for (int i = 0; i < SLOTS; i++) {
        MPI_Recv_init(slot_messages[i], sizeof *slot_messages, MPI_BYTE, MPI_ANY_SOURCE, 0, MPI_COMM_WORLD, &slots[i]);
        MPI_Start(&slots[i]);
    }
}

/* Takes the batches that have come. */
static int receive(void) {
    int arrived = 0;
    for (int i = 0; i < SLOTS; i++) {
        MPI_Status status;
        int has_come, bytes;
        MPI_Test(&slots[slot], &has_come, &status);
        if (!has_come)
            break;
        MPI_Get_count(&status, MPI_BYTE, &bytes);
        for (size_t k = 0; k < (size_t)bytes / sizeof **slot_messages; k++)
            *(struct message *)more(&flight, sizeof **slot_messages) = slot_messages[slot][k];
        MPI_Start(&slots[slot]);
        slot = (slot + 1) % SLOTS;
        received++, arrived++;
    }
    return arrived;
}

static void handle_some(void) {
    for (int i = 0; i < BATCH && flight.count > 0 && !stopping; i++) {
        struct message m = ((struct message *)flight.at)[--flight.count];
        if (spoils("lose") || spoils("stop")) {
            handled++;
            continue;
        }
        if (spoils("double")) {
            *(struct message *)more(&flight, sizeof m) = m;
            made++;
        }
        handle(&m);
    }
}

/* Nothing to do: lets others have the processor, after a while for longer. */
static void rest(unsigned turns) {
    const struct timespec pause = {0, turns > 2000 ? 50000 : 0};
    if (turns > 200)
        nanosleep(&pause, NULL);
}

/* Works until the end, which is found in waves, one after another. In a wave each rank tells how many messages it has
   made and how many it has handled, once it has nothing to do or has worked on for a while, and all ranks get the sums.
   No rank tells for a wave before all have told for the one before. So where a wave finds as many made as that one
   found handled, none was in flight in between, and none will be: at that moment no more were made than the wave tells,
   no fewer handled than the one before, and never are more handled than made. A fault, or the limit of steps, ends the
   work behind the next wave. */
static void work(uint64_t steps) {
    uint64_t told[3], sums[3], before = UINT64_MAX, joined = 0, posted_at = 0;
    uint64_t often = steps / (unsigned)ranks / 2 < OFTEN ? steps / (unsigned)ranks / 2 + 1 : OFTEN;
    int waving = 0, done = 0;
    MPI_Request wave = MPI_REQUEST_NULL;
    for (unsigned turns = 0;; turns++) {
        handle_some();
        int idle = receive() == 0 && (flight.count == 0 || stopping);
        take_back(0);
        if (idle || handled - posted_at >= PATIENCE)
            post_all(), posted_at = handled;
        if (!waving && (idle || handled - joined >= often)) {
            told[0] = made, told[1] = joined = handled, told[2] = (uint64_t)stopping;
            MPI_Iallreduce(told, sums, 3, MPI_UINT64_T, MPI_SUM, MPI_COMM_WORLD, &wave);
            waving = 1;
        } else if (waving) {
            MPI_Test(&wave, &done, MPI_STATUS_IGNORE);
            if (done) {
                if (sums[0] == before || sums[2] > 0 || sums[1] >= steps)
                    return;
                before = sums[1], waving = 0;
            }
        }
        if (idle)
            rest(turns);
        else
            turns = 0;
    }
}

/* Takes what has been sent and not been received, so that MPI can end. Answers whether messages were in flight. */
static int drain(void) {
    uint64_t *sent = sized(NULL, (size_t)ranks, sizeof *sent), wanted = 0, here[2] = {made, handled}, all[2];
    MPI_Alltoall(posted, 1, MPI_UINT64_T, sent, 1, MPI_UINT64_T, MPI_COMM_WORLD);
    for (int from = 0; from < ranks; from++)
        wanted += sent[from];
    while (received < wanted)
        receive();
    take_back(1);
    for (int i = 0; i < SLOTS; i++) {
        MPI_Cancel(&slots[i]);
        MPI_Wait(&slots[i], MPI_STATUS_IGNORE);
        MPI_Request_free(&slots[i]);
    }
    free(sent);
    MPI_Allreduce(here, all, 2, MPI_UINT64_T, MPI_SUM, MPI_COMM_WORLD);
    return all[0] != all[1];
}

/* ---- the words of the command */

static uint64_t number_of(const char *word, uint64_t most) {
    char *end;
    uint64_t number = word == NULL || *word == '-' ? 0 : strtoull(word, &end, 10);
    if (number == 0 || number > most || *end != '\0')
        fail("a number from 1 to %" PRIu64 " is wanted", most);
    return number;
}

int main(int argc, char **words) {
    uint64_t steps = UINT64_MAX, all = 0;
    char **word = words + 1, **plain = words + 1;
    int speed = 0;
    MPI_Init(&argc, &words);
    MPI_Comm_rank(MPI_COMM_WORLD, &rank);
    MPI_Comm_size(MPI_COMM_WORLD, &ranks);
    count = ranks < ELEMENTS ? ranks : ELEMENTS;
    for (; *word != NULL; word++) {
        if (strcmp(*word, "--speed") == 0)
            speed = 1;
        else if (strcmp(*word, "--elements") == 0 && word[1] != NULL)
            count = (int)number_of(*++word, ELEMENTS);
        else if (strcmp(*word, "--steps") == 0 && word[1] != NULL)
            steps = number_of(*++word, UINT64_MAX - 1);
        else if (strcmp(*word, "--log") == 0 && word[1] != NULL)
            log_name = *++word;
        else if (strcmp(*word, "--spoil") == 0 && word[1] != NULL)
            spoil = *++word;
        else
            *plain++ = *word;
    }
    *plain = NULL;
    if (plain < words + 3)
        fail("machine LISTING TEXT [NAME=VALUE ..] [--elements N] [--steps N] [--log NAME] [--speed] [--spoil HOW]");
    char *listing = read_file(words[1]), *text = read_file(words[2]);
    read_listing(listing);
    make_tables();
    open_slots();
    open_logs();
    if (rank == 0)
        start(text, words + 3);
    MPI_Barrier(MPI_COMM_WORLD);
    working = 1;
    double begun = MPI_Wtime();
    work(steps);
    double took = MPI_Wtime() - begun;
    int left = drain();
    write_logs();
    int status = report(left);
    MPI_Reduce(&handled, &all, 1, MPI_UINT64_T, MPI_SUM, 0, MPI_COMM_WORLD);
    if (rank == 0 && speed)
        fprintf(stderr, "machine: %" PRIu64 " messages in %.3f s, %.2f million a second, on %d elements and %d ranks\n",
                all, took, (double)all / took / 1e6, count, ranks);
    MPI_Finalize();
    free(listing);
    free(text);
    return status;
}

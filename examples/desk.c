/*
 * Downloads at a desk: a printer, a controller and a lossy line between them, each a process of its
 * own. After each download the ending is compared with what was expected of it, and the printer's
 * slots with what the ending says of them. The last line counts what came out so, and what did not.
 */
#define _DEFAULT_SOURCE
#include "controller.h"
#include "lossy.h"
#include "printer.h"

#include <stdlib.h>
#include <string.h>
#include <sys/mman.h>
#include <sys/socket.h>
#include <sys/wait.h>
#include <unistd.h>

#define PRINTER 7
#define CONTROLLER 2
#define SECOND_CONTROLLER 3
#define SEEDS 1000

/* A download: what is set, what the line does, and how it is to end. */
struct plan {
    const char *name;
    struct controller controller;
    struct printer printer;
    struct lossy line;
    unsigned meddled; /* before which sending a second controller meddles, 0 for never */
    uint8_t ending[RABTUNEX_ENDING];
};

/* A book as the office makes it, with what it was made of. */
struct book {
    uint8_t slots[RABTUNEX_TEMPLATES_MAX];
    uint8_t lengths[RABTUNEX_TEMPLATES_MAX];
    uint8_t bodies[RABTUNEX_SLOT_BYTES];
    size_t count;
    uint8_t bytes[RABTUNEX_BOOK_MAX];
    size_t size;
};

/* What both ends leave behind, in memory that all processes share. */
struct left {
    struct slots slots;
    uint8_t ending[RABTUNEX_ENDING];
    size_t sendings;
};

static struct book book;
static struct slots before;
static struct left *left;

static void stop(const char *why)
{
    fprintf(stderr, "desk: %s\n", why);
    exit(EXIT_FAILURE);
}

/* Makes a book of so many templates, the first as short and the last as long as may be. */
static void make_book(uint64_t *seed, size_t count)
{
    size_t total = 0;
    book.count = 0;
    for (unsigned slot = 0; slot < RABTUNEX_SLOTS; slot++) {
        /* Each slot has the same chance, and so many are taken in the end. */
        if (below(seed, RABTUNEX_SLOTS - slot) < count - book.count) {
            book.slots[book.count] = (uint8_t)slot;
            book.lengths[book.count] =
                (uint8_t)(RABTUNEX_TEMPLATE_MIN + below(seed, RABTUNEX_TEMPLATE_MAX));
            book.count++;
        }
    }
    book.lengths[0] = RABTUNEX_TEMPLATE_MIN;
    book.lengths[count - 1] = RABTUNEX_TEMPLATE_MAX;
    for (size_t k = 0; k < count; k++) {
        total += book.lengths[k];
    }
    for (size_t at = 0; at < total; at++) {
        book.bodies[at] = (uint8_t)below(seed, 256);
    }
    if (rabtunex_write_book(book.slots, count, book.lengths, count, book.bodies, total, book.bytes,
                            sizeof book.bytes, &book.size) != 0) {
        stop("the book was refused");
    }
}

/* Fills the printer's slots with old templates. */
static void fill_slots(uint64_t *seed)
{
    for (size_t slot = 0; slot < RABTUNEX_SLOTS; slot++) {
        before.lengths[slot] = (uint8_t)below(seed, RABTUNEX_TEMPLATE_MAX + 1);
    }
    for (size_t at = 0; at < RABTUNEX_SLOT_BYTES; at++) {
        before.bodies[at] = (uint8_t)below(seed, 256);
    }
    left->slots = before;
}

/* Begins a process and a line to it. The answer is the process's number, and 0 in the process
 * itself, which has no part in the other line. */
static pid_t begin(int *line, int other)
{
    int ends[2];
    pid_t process;
    if (socketpair(AF_UNIX, SOCK_STREAM, 0, ends) != 0) {
        stop("no socket");
    }
    process = fork();
    if (process < 0) {
        stop("no process");
    }
    *line = ends[process == 0];
    close(ends[process != 0]);
    if (process == 0 && other >= 0) {
        close(other);
    }
    return process;
}

/* Waits for a process: whether it ended well. */
static bool ended_well(pid_t process)
{
    int status;
    return waitpid(process, &status, 0) == process && WIFEXITED(status) && WEXITSTATUS(status) == 0;
}

/* A call of the second controller, and the printer's reply, which it does not look at. */
static void call(int printer, const uint8_t fields[RABTUNEX_SERVICE_FIELDS], const uint8_t *part,
                 size_t part_len)
{
    uint8_t bytes[RABTUNEX_TELEGRAM_MAX];
    size_t count;
    if (rabtunex_write_service(fields, RABTUNEX_VERSION_DPV1, part, part_len, bytes, sizeof bytes,
                               &count) != 0) {
        stop("a call was refused");
    }
    if (!line_transmit(printer, bytes, count) || !line_receive(printer, bytes, &count)) {
        stop("the printer is gone");
    }
}

/* A second controller opens, and writes to a slot that no printer has. It does not fetch the
 * result, so the printer is busy when the first one's next write comes. */
static void meddle(int printer)
{
    static const uint8_t body[] = {'A'};
    uint8_t fields[RABTUNEX_SERVICE_FIELDS] = {0};
    fields[RABTUNEX_SERVICE_KIND] = RABTUNEX_SD2;
    fields[RABTUNEX_SERVICE_DA] = PRINTER;
    fields[RABTUNEX_SERVICE_SA] = SECOND_CONTROLLER;

    fields[RABTUNEX_SERVICE] = RABTUNEX_SLAVE_DIAG;
    fields[RABTUNEX_SERVICE_FC] = RABTUNEX_FC_CALL | RABTUNEX_FC_FCB | RABTUNEX_FC_SRD_HIGH;
    call(printer, fields, body, 0);

    fields[RABTUNEX_SERVICE] = RABTUNEX_DPV1;
    fields[RABTUNEX_SERVICE_FC] = RABTUNEX_FC_CALL | RABTUNEX_FC_FCV | RABTUNEX_FC_SRD_LOW;
    fields[RABTUNEX_SERVICE_BYTES + RABTUNEX_DPV1_NUMBER] = RABTUNEX_DPV1_WRITE;
    fields[RABTUNEX_SERVICE_BYTES + RABTUNEX_DPV1_SLOT] = RABTUNEX_TEMPLATES_SLOT;
    fields[RABTUNEX_SERVICE_BYTES + RABTUNEX_DPV1_INDEX] = RABTUNEX_SLOTS;
    call(printer, fields, body, sizeof body);
}

/* Runs both ends, with the line between them here: whether both ended well. */
static bool download(struct plan *plan)
{
    int controller;
    int printer;
    pid_t at_controller;
    pid_t at_printer;
    bool well;
    plan->controller.book_len = book.size;
    memset(left->ending, 0, sizeof left->ending);
    fflush(stdout);
    at_controller = begin(&controller, -1);
    if (at_controller == 0) {
        _exit(controller_run(controller, &plan->controller, left->ending, &left->sendings));
    }
    at_printer = begin(&printer, controller);
    if (at_printer == 0) {
        _exit(printer_run(printer, &plan->printer, &left->slots));
    }
    for (unsigned sending = 1;; sending++) {
        if (sending == plan->meddled) {
            meddle(printer);
        }
        if (!lossy_carry(&plan->line, controller, printer)) {
            break;
        }
    }
    close(controller);
    close(printer);
    well = ended_well(at_controller);
    return ended_well(at_printer) && well;
}

/* Whether a slot is all as before. */
static bool is_old(size_t slot)
{
    size_t at = slot * RABTUNEX_TEMPLATE_MAX;
    return left->slots.lengths[slot] == before.lengths[slot] &&
           memcmp(left->slots.bodies + at, before.bodies + at, RABTUNEX_TEMPLATE_MAX) == 0;
}

/* Whether a slot has this body's length, that body in front, and its other bytes as before. */
static bool is_new(size_t slot, const uint8_t *body, size_t length)
{
    size_t at = slot * RABTUNEX_TEMPLATE_MAX;
    return left->slots.lengths[slot] == length &&
           memcmp(left->slots.bodies + at, body, length) == 0 &&
           memcmp(left->slots.bodies + at + length, before.bodies + at + length,
                  RABTUNEX_TEMPLATE_MAX - length) == 0;
}

/* How many templates are surely new, by the ending. */
static size_t surely_new(void)
{
    switch (left->ending[RABTUNEX_ENDING_KIND]) {
    case RABTUNEX_ENDED_DONE:
        return book.count;
    case RABTUNEX_ENDED_NO_OPENING:
        return 0;
    default:
        return left->ending[RABTUNEX_ENDING_TEMPLATE] - (size_t)1;
    }
}

/* Whether the slots are as the ending says: new up to where it ended, old from there on. Without
 * the printer's word for the template at which it ended, that slot may be either. */
static bool slots_are_right(void)
{
    bool named[RABTUNEX_SLOTS] = {false};
    uint8_t kind = left->ending[RABTUNEX_ENDING_KIND];
    bool open = kind != RABTUNEX_ENDED_NO_OPENING && kind != RABTUNEX_ENDED_REFUSED;
    size_t sure = surely_new();
    const uint8_t *body = book.bodies;
    for (size_t k = 0; k < book.count; k++) {
        size_t slot = book.slots[k];
        bool fresh = is_new(slot, body, book.lengths[k]);
        if (!(k < sure ? fresh : is_old(slot) || (k == sure && open && fresh))) {
            return false;
        }
        body += book.lengths[k];
        named[slot] = true;
    }
    for (size_t slot = 0; slot < RABTUNEX_SLOTS; slot++) {
        if (!named[slot] && !is_old(slot)) {
            return false;
        }
    }
    return true;
}

/* The template that a boarding printer refuses, counted from 1, or 0 where the book has none. */
static uint8_t guarded(void)
{
    for (size_t k = 0; k < book.count; k++) {
        if (book.slots[k] == RABTUNEX_GUARDED_SLOT) {
            return (uint8_t)(k + 1);
        }
    }
    return 0;
}

/* Whether it was refused only by a boarding printer, for the guarded slot, and not done then. */
static bool guard_was_kept(const struct plan *plan)
{
    uint8_t refused = plan->printer.boarding == 0 ? (uint8_t)0 : guarded();
    switch (left->ending[RABTUNEX_ENDING_KIND]) {
    case RABTUNEX_ENDED_DONE:
        return refused == 0;
    case RABTUNEX_ENDED_REFUSED:
        return left->ending[RABTUNEX_ENDING_TEMPLATE] == refused &&
               left->ending[RABTUNEX_ENDING_CODE1] == RABTUNEX_CODE1_DENIED &&
               left->ending[RABTUNEX_ENDING_CODE2] == 0;
    default:
        return true;
    }
}

static void say_line(const struct lossy *line)
{
    printf("; requests %u lost, %u damaged; replies %u lost, %u damaged\n", line->requests.lost,
           line->requests.damaged, line->replies.lost, line->replies.damaged);
}

/* One download of sixteen templates: whether it ended as planned and left the slots so. A refusal
 * is planned for the template that is guarded. */
static bool as_planned(struct plan plan)
{
    uint64_t seed = plan.line.seed;
    bool right;
    make_book(&seed, RABTUNEX_TEMPLATES_MAX);
    fill_slots(&seed);
    if (plan.ending[RABTUNEX_ENDING_KIND] == RABTUNEX_ENDED_REFUSED) {
        plan.ending[RABTUNEX_ENDING_TEMPLATE] = guarded();
    }
    right = download(&plan) && slots_are_right() && guard_was_kept(&plan) &&
            memcmp(left->ending, plan.ending, RABTUNEX_ENDING) == 0;
    printf("%s: ", plan.name);
    controller_say(stdout, left->ending);
    printf(" after %zu sendings", left->sendings);
    say_line(&plan.line);
    return right;
}

/* A download with everything drawn from its seed. */
static struct plan drawn(uint64_t *seed)
{
    struct plan plan;
    uint8_t *settings = plan.controller.settings;
    memset(&plan, 0, sizeof plan);
    settings[RABTUNEX_SET_PRINTER] = PRINTER;
    settings[RABTUNEX_SET_CONTROLLER] = CONTROLLER;
    settings[RABTUNEX_SET_REPEATS] = (uint8_t)below(seed, RABTUNEX_REPEATS_MAX + 1);
    settings[RABTUNEX_SET_POLLS] = (uint8_t)(RABTUNEX_POLLS_MIN + below(seed, 6));
    plan.controller.openings = 1 + below(seed, 3);
    plan.controller.book = book.bytes;
    plan.printer.address = PRINTER;
    plan.printer.boarding = below(seed, 4) == 0;
    plan.printer.slow = (uint8_t)below(seed, 5);
    plan.line.seed = *seed;
    plan.line.lost = below(seed, 25);
    plan.line.damaged = below(seed, 15);
    return plan;
}

/* Many downloads, each from its own seed: whether each left the slots as its ending says, and every
 * ending came but a strange reply, for which there would have to be a third station. */
static bool many(void)
{
    static const char *const words[] = {"going on",  "done",    "no opening",   "no answer",
                                        "not ready", "refused", "strange reply"};
    unsigned endings[RABTUNEX_ENDED_STRANGE + 1] = {0};
    bool right = true;
    for (uint64_t number = 1; number <= SEEDS; number++) {
        uint64_t seed = number;
        struct plan plan = drawn(&seed);
        make_book(&seed, 1 + below(&seed, RABTUNEX_TEMPLATES_MAX));
        fill_slots(&seed);
        if (!download(&plan) || !slots_are_right() || !guard_was_kept(&plan)) {
            printf("seed %u is wrong\n", (unsigned)number);
            right = false;
        }
        endings[left->ending[RABTUNEX_ENDING_KIND]]++;
    }
    printf("%d seeds:", SEEDS);
    for (uint8_t kind = RABTUNEX_ENDED_DONE; kind <= RABTUNEX_ENDED_STRANGE; kind++) {
        printf(" %u %s%s", endings[kind], words[kind], kind < RABTUNEX_ENDED_STRANGE ? "," : "\n");
        right = right && (endings[kind] == 0) == (kind == RABTUNEX_ENDED_STRANGE);
    }
    return right;
}

static const struct plan plans[] = {
    {"clear line",
     {{PRINTER, CONTROLLER, 0, 4}, 1, book.bytes, 0},
     {PRINTER, 0, 3},
     {1, 0, 0, {0, 0}, {0, 0}},
     0,
     {RABTUNEX_ENDED_DONE, 0, 0, 0}},
    {"lossy line",
     {{PRINTER, CONTROLLER, RABTUNEX_REPEATS_MAX, 4}, 5, book.bytes, 0},
     {PRINTER, 0, 3},
     {2, 15, 10, {0, 0}, {0, 0}},
     0,
     {RABTUNEX_ENDED_DONE, 0, 0, 0}},
    {"while boarding",
     {{PRINTER, CONTROLLER, RABTUNEX_REPEATS_MAX, 4}, 5, book.bytes, 0},
     {PRINTER, 1, 3},
     {3, 15, 10, {0, 0}, {0, 0}},
     0,
     {RABTUNEX_ENDED_REFUSED, 0, RABTUNEX_CODE1_DENIED, 0}},
    {"dead line",
     {{PRINTER, CONTROLLER, RABTUNEX_REPEATS_MAX, 4}, 5, book.bytes, 0},
     {PRINTER, 0, 3},
     {4, 100, 0, {0, 0}, {0, 0}},
     0,
     {RABTUNEX_ENDED_NO_OPENING, 0, 0, 0}},
    {"slow printer",
     {{PRINTER, CONTROLLER, 0, 4}, 1, book.bytes, 0},
     {PRINTER, 0, 4},
     {5, 0, 0, {0, 0}, {0, 0}},
     0,
     {RABTUNEX_ENDED_NOT_READY, 3, 0, 0}},
    {"second controller",
     {{PRINTER, CONTROLLER, 0, 4}, 1, book.bytes, 0},
     {PRINTER, 0, 3},
     {6, 0, 0, {0, 0}, {0, 0}},
     4,
     {RABTUNEX_ENDED_STRANGE, 2, 0, 0}},
};

int main(void)
{
    unsigned passed = 0;
    unsigned failed = 0;
    void *shared =
        mmap(NULL, sizeof *left, PROT_READ | PROT_WRITE, MAP_SHARED | MAP_ANONYMOUS, -1, 0);
    if (shared == MAP_FAILED) {
        stop("no memory");
    }
    left = (struct left *)shared;
    for (size_t at = 0; at < sizeof plans / sizeof plans[0]; at++) {
        *(as_planned(plans[at]) ? &passed : &failed) += 1;
    }
    *(many() ? &passed : &failed) += 1;
    printf("%u passed, %u failed\n", passed, failed);
    return failed == 0 ? EXIT_SUCCESS : EXIT_FAILURE;
}

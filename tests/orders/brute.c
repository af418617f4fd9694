/*
 * Compares what a program says of histories with what a search over all orders of their operations finds.
 *
 *     brute COUNT SEED PROGRAM
 *
 * Makes COUNT random histories of up to twelve operations, hands each to `PROGRAM judge --history`, and compares the
 * verdict and the event that it names. The order that it prints is looked at too: it has to explain the history, or what
 * was before that event. With each answer that it calls right in place of the one that was given, an order has to explain
 * the event; and its reasons have to hold (crates/snap_judge_reasons/specs/Reasons.antt) and to be a circle. The search
 * knows nothing of the program: an order is tried operation by operation, straight from the definition
 * (crates/snap_judge/specs/Linearizable.antt), for each beginning in turn.
 *
 * Prints what was counted, and ends with 1 where an answer is wrong, or where a verdict hardly came up.
 */
#include <errno.h>
#include <inttypes.h>
#include <stdbool.h>
#include <stdio.h>
#include <stdlib.h>
#include <string.h>
#include <sys/wait.h>
#include <unistd.h>

enum { MOST_PROCESSES = 4, MOST_WORDS = 4, MOST_OPERATIONS = 12, MOST_EVENTS = 2 * MOST_OPERATIONS + MOST_PROCESSES };
enum { TEXT_SIZE = 8192, WRONG_ENOUGH = 5, MOST_ANSWERS = 8 };

enum happening { CALLS_SCAN, CALLS_UPDATE, ANSWERS, IS_DONE, CRASHES };

struct event {
    unsigned number;
    int process;
    enum happening what;
    int word;
    unsigned value;
    unsigned view[MOST_WORDS];
};

struct history {
    int processes;
    int words;
    int count;
    struct event events[MOST_EVENTS];
};

/* An operation that a history tells of. One that has not ended has the end 0. */
struct operation {
    int process;
    unsigned call;
    unsigned end;
    bool is_scan;
    int word;
    unsigned value;
    unsigned view[MOST_WORDS];
};

struct operations {
    int count;
    struct operation all[MOST_OPERATIONS];
};

static uint64_t state;

static void fail(const char *what)
{
    perror(what);
    exit(2);
}

/* SplitMix64. */
static unsigned below(unsigned count)
{
    uint64_t z = state += 0x9e3779b97f4a7c15;
    z = (z ^ (z >> 30)) * 0xbf58476d1ce4e5b9;
    z = (z ^ (z >> 27)) * 0x94d049bb133111eb;
    return (unsigned)((z ^ (z >> 31)) % count);
}

/* ---- the definition ---- */

/* The operations of the first `count` events: those that have ended, and updates that have not. */
static void find_operations(const struct history *history, int count, struct operations *found)
{
    found->count = 0;
    for (int c = 0; c < count; c++) {
        const struct event *call = &history->events[c];
        struct operation *operation = &found->all[found->count];
        if (call->what != CALLS_SCAN && call->what != CALLS_UPDATE)
            continue;
        *operation = (struct operation){.process = call->process, .call = call->number, .is_scan = call->what == CALLS_SCAN,
                                        .word = call->word, .value = call->value};
        for (int e = c + 1; e < count; e++) {
            const struct event *end = &history->events[e];
            if (end->process != call->process)
                continue;
            if (end->what != CRASHES)
                operation->end = end->number;
            memcpy(operation->view, end->view, sizeof operation->view);
            break;
        }
        if (operation->end != 0 || !operation->is_scan)
            found->count++;
    }
}

/* Whether another operation, not placed yet, ended before this one was called, so that it stands before it in any order. */
static bool has_to_wait(const struct operations *operations, const bool placed[], int which)
{
    for (int k = 0; k < operations->count; k++) {
        const struct operation *other = &operations->all[k];
        if (!placed[k] && other->end != 0 && other->end < operations->all[which].call)
            return true;
    }
    return false;
}

static bool are_complete(const struct operations *operations, const bool placed[])
{
    for (int k = 0; k < operations->count; k++)
        if (!placed[k] && operations->all[k].end != 0)
            return false;
    return true;
}

static bool sees(const struct operation *scan, const unsigned values[], int words)
{
    return memcmp(scan->view, values, (size_t)words * sizeof values[0]) == 0;
}

/* Whether the order that stands so far, which has led to these values, goes on to one in which all ended operations are. */
static bool goes_on(const struct operations *operations, int words, bool placed[], unsigned values[])
{
    if (are_complete(operations, placed))
        return true;
    for (int k = 0; k < operations->count; k++) {
        const struct operation *next = &operations->all[k];
        if (placed[k] || has_to_wait(operations, placed, k) || (next->is_scan && !sees(next, values, words)))
            continue;
        unsigned before = next->is_scan ? 0 : values[next->word - 1];
        placed[k] = true;
        if (!next->is_scan)
            values[next->word - 1] = next->value;
        if (goes_on(operations, words, placed, values))
            return true;
        placed[k] = false;
        if (!next->is_scan)
            values[next->word - 1] = before;
    }
    return false;
}

static bool is_linearizable(const struct history *history, int count)
{
    struct operations operations;
    bool placed[MOST_OPERATIONS] = {false};
    unsigned values[MOST_WORDS] = {0};

    find_operations(history, count, &operations);
    return goes_on(&operations, history->words, placed, values);
}

/* Returns the first event up to which the history is not linearizable, or NULL. */
static const struct event *first_failure(const struct history *history)
{
    for (int count = 1; count <= history->count; count++)
        if (!is_linearizable(history, count))
            return &history->events[count - 1];
    return NULL;
}

static bool are_same(const struct operation *one, const struct operation *other)
{
    return one->process == other->process && one->call == other->call && one->end == other->end && one->is_scan == other->is_scan &&
           one->word == other->word && one->value == other->value && memcmp(one->view, other->view, sizeof one->view) == 0;
}

/* Whether these operations, in this order, are a linearization of the first `count` events. */
static bool is_linearization(const struct history *history, int count, const struct operations *order)
{
    struct operations operations;
    bool placed[MOST_OPERATIONS] = {false};
    unsigned values[MOST_WORDS] = {0};

    find_operations(history, count, &operations);
    for (int k = 0; k < order->count; k++) {
        const struct operation *next = &order->all[k];
        int which = 0;
        while (which < operations.count && !are_same(&operations.all[which], next))
            which++;
        if (which == operations.count || placed[which] || has_to_wait(&operations, placed, which))
            return false;
        placed[which] = true;
        if (next->is_scan && !sees(next, values, history->words))
            return false;
        if (!next->is_scan)
            values[next->word - 1] = next->value;
    }
    return are_complete(&operations, placed);
}

/* ---- reasons ---- */

/* How many updates that are called in the first `count` events set the word to the value. */
static int setters(const struct history *history, int count, int word, unsigned value)
{
    int found = 0;
    for (int k = 0; k < count; k++) {
        const struct event *event = &history->events[k];
        found += event->what == CALLS_UPDATE && event->word == word && event->value == value;
    }
    return found;
}

static bool ended_before(const struct operation *first, const struct operation *second)
{
    return first->end != 0 && first->end < second->call;
}

static bool saw(const struct history *history, int count, const struct operation *scan, const struct operation *update)
{
    return scan->is_scan && !update->is_scan && update->value != 0 && scan->view[update->word - 1] == update->value &&
           setters(history, count, update->word, update->value) == 1;
}

/* Whether the scan shows what stood in the word before the update, and not again. */
static bool missed(const struct history *history, int count, const struct operations *all, const struct operation *scan,
                   const struct operation *update)
{
    if (!scan->is_scan || update->is_scan)
        return false;
    unsigned seen = scan->view[update->word - 1];
    int times = setters(history, count, update->word, seen);
    for (int k = 0; k < all->count; k++) {
        const struct operation *earlier = &all->all[k];
        if (times == 1 && !earlier->is_scan && earlier->word == update->word && earlier->value == seen && ended_before(earlier, update))
            return true;
    }
    return times == 0 && seen == 0;
}

static bool saw_unset(const struct history *history, int count, const struct operation *scan, int word, unsigned value)
{
    return scan->is_scan && word >= 1 && word <= history->words && value != 0 && scan->view[word - 1] == value &&
           setters(history, count, word, value) == 0;
}

/* ---- histories ---- */

/*
 * What answers the callers: an object that is right; one whose scans read a word at a time; one whose scans see what
 * held some updates ago; and one that loses some updates.
 */
enum object { ATOMIC, COLLECTS, LAGS, LOSES };

struct process {
    enum { FREE, SCANS, UPDATES, GONE } at;
    int read; /* how many words a scan has read */
    bool has_taken_place;
    int word;
    unsigned value;
    unsigned view[MOST_WORDS];
};

struct object_state {
    enum object object;
    int writes;
    unsigned values[MOST_OPERATIONS + 1][MOST_WORDS]; /* after each number of writes */
};

static struct event *add(struct history *history, int process, enum happening what)
{
    struct event *event = &history->events[history->count++];
    unsigned last = history->count == 1 ? 0 : event[-1].number;
    *event = (struct event){.number = last + 1 + (below(4) == 0 ? below(5) : 0), .process = process, .what = what};
    return event;
}

static void call(struct history *history, int number, struct process *process, unsigned values)
{
    process->has_taken_place = false;
    process->read = 0;
    if (below(2) == 0) {
        process->at = SCANS;
        add(history, number, CALLS_SCAN);
        return;
    }
    process->at = UPDATES;
    process->word = 1 + (int)below((unsigned)history->words);
    process->value = values == 0 ? (unsigned)history->count + 10 : below(values);
    struct event *event = add(history, number, CALLS_UPDATE);
    event->word = process->word;
    event->value = process->value;
}

/* A scan reads, all at once or only its next word; it takes place with its last word. */
static void read_words(struct object_state *object, int words, struct process *process)
{
    int writes = object->writes;
    if (object->object == LAGS && below(4) == 0)
        writes -= (int)below((unsigned)writes + 1);
    int last = object->object == COLLECTS ? process->read + 1 : words;
    while (process->read < last) {
        process->view[process->read] = object->values[writes][process->read];
        process->read++;
    }
    process->has_taken_place = process->read == words;
}

static void write_word(struct object_state *object, struct process *process)
{
    process->has_taken_place = true;
    if (object->object == LOSES && below(6) == 0)
        return;
    memcpy(object->values[object->writes + 1], object->values[object->writes], sizeof object->values[0]);
    object->writes++;
    object->values[object->writes][process->word - 1] = process->value;
}

static void end(struct history *history, int number, struct process *process)
{
    if (process->at == SCANS)
        memcpy(add(history, number, ANSWERS)->view, process->view, sizeof process->view);
    else
        add(history, number, IS_DONE);
    process->at = FREE;
}

/* A process does its next step. Returns whether it called an operation. */
static bool step(struct history *history, struct object_state *object, int number, struct process *process, bool may_call, unsigned values)
{
    if (process->at == GONE)
        return false;
    if (below(150) == 0) {
        process->at = GONE;
        add(history, number, CRASHES);
        return false;
    }
    if (process->at == FREE) {
        if (may_call)
            call(history, number, process, values);
        return may_call;
    }
    if (process->has_taken_place)
        end(history, number, process);
    else if (process->at == SCANS)
        read_words(object, history->words, process);
    else
        write_word(object, process);
    return false;
}

/* One value of an answer becomes another: one that was written, or none. */
static void spoil(struct history *history)
{
    struct event *answer = &history->events[below((unsigned)history->count)];
    const struct event *other = &history->events[below((unsigned)history->count)];
    if (answer->what != ANSWERS)
        return;
    int word = (int)below((unsigned)history->words);
    if (other->what == CALLS_UPDATE && below(4) != 0)
        answer->view[other->word - 1] = other->value;
    else if (other->what == ANSWERS && below(4) != 0)
        memcpy(answer->view, other->view, sizeof answer->view);
    else
        answer->view[word] = below(3);
}

static void make_history(struct history *history)
{
    struct process processes[MOST_PROCESSES + 1] = {{.at = FREE}};
    struct object_state object = {.object = (enum object)below(4)};
    int operations = MOST_OPERATIONS - (int)below(2) * (int)below(MOST_OPERATIONS);
    unsigned values = below(2) == 0 ? 0 : 2 + below(3); /* with 0, no value stands twice */
    int steps = 20 + (int)below(100);

    memset(history, 0, sizeof *history);
    history->processes = 1 + (int)below(MOST_PROCESSES);
    history->words = 1 + (int)below(MOST_WORDS);
    while (steps-- > 0) {
        int number = 1 + (int)below((unsigned)history->processes);
        if (step(history, &object, number, &processes[number], operations > 0, values))
            operations--;
    }
    for (unsigned times = below(6); times > 0 && history->count > 0; times--)
        spoil(history);
}

/* ---- texts ---- */

static int print_event(char *text, size_t size, const struct history *history, const struct event *event)
{
    int length = snprintf(text, size, "%d ", event->process);
    switch (event->what) {
    case CALLS_SCAN:
        length += snprintf(text + length, size - (size_t)length, "scan");
        break;
    case CALLS_UPDATE:
        length += snprintf(text + length, size - (size_t)length, "update %d %u", event->word, event->value);
        break;
    case ANSWERS:
        length += snprintf(text + length, size - (size_t)length, "answer");
        for (int k = 0; k < history->words; k++)
            length += snprintf(text + length, size - (size_t)length, " %u", event->view[k]);
        break;
    case IS_DONE:
        length += snprintf(text + length, size - (size_t)length, "done");
        break;
    case CRASHES:
        length += snprintf(text + length, size - (size_t)length, "crash");
        break;
    }
    return length + snprintf(text + length, size - (size_t)length, "\n");
}

/* An event has its number where it is not the next one, and sometimes where it is. */
static void print_history(char *text, size_t size, const struct history *history)
{
    unsigned last = 0;
    int length = snprintf(text, size, "shape %d %d\n", history->processes, history->words);
    for (int k = 0; k < history->count; k++) {
        const struct event *event = &history->events[k];
        if (event->number != last + 1 || event->number % 3 == 0)
            length += snprintf(text + length, size - (size_t)length, "event %u ", event->number);
        length += print_event(text + length, size - (size_t)length, history, event);
        last = event->number;
    }
}

/* Reads the line of an operation, as `update 2 7 process 1 call 3 end 5` or `scan 0 7 process 2 call 4 end 9`. */
static bool read_operation(const char *line, int words, struct operation *operation)
{
    int at = 0;
    *operation = (struct operation){.process = 0};
    if (strncmp(line, "scan", 4) == 0) {
        operation->is_scan = true;
        line += 4;
        for (int k = 0; k < words; k++, line += at)
            if (sscanf(line, " %u%n", &operation->view[k], &at) != 1)
                return false;
    } else {
        if (sscanf(line, "update %d %u%n", &operation->word, &operation->value, &at) != 2)
            return false;
        line += at;
    }
    if (sscanf(line, " process %d call %u%n", &operation->process, &operation->call, &at) != 2)
        return false;
    line += at;
    if (strncmp(line, " open\n", 6) == 0)
        return true;
    return sscanf(line, " end %u%n", &operation->end, &at) == 1 && line[at] == '\n';
}

/* Reads the operations that the lines tell of, up to a line that tells of none. Returns where that is. */
static const char *read_order(const char *lines, int words, struct operations *order)
{
    order->count = 0;
    while (order->count < MOST_OPERATIONS && read_operation(lines, words, &order->all[order->count])) {
        order->count++;
        lines = strchr(lines, '\n') + 1;
    }
    return lines;
}

/* Reads what an operation is called by, as `update 2 7 (event 3)` or `scan of process 1 (event 4)`. Returns NULL where there is none such. */
static const struct operation *read_name(const char **text, const struct operations *all)
{
    int number, at = 0;
    unsigned value = 0, call;
    bool is_scan = sscanf(*text, "scan of process %d (event %u)%n", &number, &call, &at) == 2 && at > 0;
    if (!is_scan && (sscanf(*text, "update %d %u (event %u)%n", &number, &value, &call, &at) != 3 || at == 0))
        return NULL;
    *text += at;
    for (int k = 0; k < all->count; k++) {
        const struct operation *operation = &all->all[k];
        if (operation->call == call && operation->is_scan == is_scan &&
            (is_scan ? operation->process == number : operation->word == number && operation->value == value))
            return operation;
    }
    return NULL;
}

/* Takes a text that stands next. */
static bool take(const char **text, const char *wanted)
{
    if (strncmp(*text, wanted, strlen(wanted)) != 0)
        return false;
    *text += strlen(wanted);
    return true;
}

/* Reads a reason, behind `because: `, and finds out whether it holds: that the first operation took place before the second one. */
static bool read_reason(const char **text, const struct history *history, int count, const struct operations *all,
                        const struct operation **first, const struct operation **second)
{
    int word, again, at = 0;
    unsigned value, same;
    const struct operation *one = *first = *second = read_name(text, all);
    if (one == NULL)
        return false;
    if (take(text, " ended before "))
        return (*second = read_name(text, all)) != NULL && take(text, " was called\n") && ended_before(one, *second);
    if (take(text, " did not see "))
        return (*second = read_name(text, all)) != NULL && take(text, "\n") && missed(history, count, all, one, *second);
    if (!take(text, " saw "))
        return false;
    if (sscanf(*text, "%u in word %d, but no update %d %u was called before it ended%n", &value, &word, &again, &same, &at) == 4) {
        *text += at;
        return at > 0 && take(text, "\n") && word == again && value == same && saw_unset(history, count, one, word, value);
    }
    return (*first = read_name(text, all)) != NULL && take(text, "\n") && saw(history, count, one, *first);
}

/* Whether the reasons that stand next hold, and are a circle; there may be none. */
static bool read_circle(const char **text, const struct history *history, int count)
{
    const struct operation *start = NULL, *reached = NULL, *first, *second;
    struct operations all;

    find_operations(history, count, &all);
    while (take(text, "because: ")) {
        if (!read_reason(text, history, count, &all, &first, &second) || (reached != NULL && first != reached))
            return false;
        if (start == NULL)
            start = first;
        reached = second;
    }
    return reached == start;
}

/* Whether each answer that stands next would have been right in place of that of the last of the first `count` events; no two are the same. */
static bool read_answers(const char **text, const struct history *history, int count)
{
    unsigned views[MOST_ANSWERS][MOST_WORDS] = {{0}};
    int told = 0, at = 0;

    while (take(text, "right answer:")) {
        struct history other = *history;
        if (told == MOST_ANSWERS || other.events[count - 1].what != ANSWERS)
            return false;
        for (int k = 0; k < history->words; k++, *text += at)
            if (sscanf(*text, " %u%n", &views[told][k], &at) != 1)
                return false;
        memcpy(other.events[count - 1].view, views[told], sizeof views[told]);
        if (!take(text, "\n") || !is_linearizable(&other, count))
            return false;
        for (int k = 0; k < told; k++)
            if (memcmp(views[k], views[told], sizeof views[told]) == 0)
                return false;
        told++;
    }
    return true;
}

/* ---- the program ---- */

static void run_child(const char *program, const int input[2], const int output[2])
{
    if (dup2(input[0], STDIN_FILENO) < 0 || dup2(output[1], STDOUT_FILENO) < 0)
        fail("dup2");
    close(input[0]);
    close(input[1]);
    close(output[0]);
    close(output[1]);
    execl(program, program, "judge", "--history", (char *)NULL);
    fail(program);
}

/* Runs the program on a text, which a pipe can hold, and returns its status; its answer is as long as a pipe holds at most. */
static int ask(const char *program, const char *text, char *answer, size_t size)
{
    int input[2], output[2], status;
    size_t length = 0;
    ssize_t taken;

    if (pipe(input) != 0 || pipe(output) != 0)
        fail("pipe");
    pid_t child = fork();
    if (child < 0)
        fail("fork");
    if (child == 0)
        run_child(program, input, output);
    close(input[0]);
    close(output[1]);
    if (write(input[1], text, strlen(text)) < 0 && errno != EPIPE)
        fail("write");
    close(input[1]);
    while (length < size - 1 && (taken = read(output[0], answer + length, size - 1 - length)) > 0)
        length += (size_t)taken;
    answer[length] = '\0';
    close(output[0]);
    if (waitpid(child, &status, 0) < 0)
        fail("waitpid");
    return WIFEXITED(status) ? WEXITSTATUS(status) : -1;
}

/* Whether the program says what is so: an order that explains the history; or the event that no order explains, and an order before it. */
static bool is_right(const struct history *history, const struct event *failure, int status, const char *answer)
{
    static const char before[] = "before it:\n"; /* where there is an operation */
    char wanted[80] = "linearizable\n";
    int explained = history->count;
    struct operations order;

    if (failure != NULL) {
        snprintf(wanted, sizeof wanted, "not linearizable: event %u process %d\n", failure->number, failure->process);
        explained = (int)(failure - history->events);
    }
    if (status != (failure == NULL ? 0 : 4) || strncmp(answer, wanted, strlen(wanted)) != 0)
        return false;
    const char *lines = answer + strlen(wanted);
    if (failure != NULL && strncmp(lines, before, strlen(before)) == 0)
        lines += strlen(before);
    const char *end = read_order(lines, history->words, &order);
    if (!is_linearization(history, explained, &order))
        return false;
    if (failure != NULL && (!read_answers(&end, history, explained + 1) || !read_circle(&end, history, explained + 1)))
        return false;
    return *end == '\0';
}

int main(int argc, char *argv[])
{
    static char text[TEXT_SIZE], answer[TEXT_SIZE];
    long made = 0, failing = 0, answered = 0, reasoned = 0, wrong = 0, crashed = 0, open = 0;

    if (argc != 4) {
        fprintf(stderr, "usage: %s COUNT SEED PROGRAM\n", argv[0]);
        return 2;
    }
    long count = strtol(argv[1], NULL, 10);
    uint64_t seed = strtoull(argv[2], NULL, 10);
    for (long k = 0; k < count && wrong < WRONG_ENOUGH; k++, made++) {
        struct history history;
        struct operations operations;
        state = (seed << 32) + (uint64_t)k;
        make_history(&history);
        print_history(text, sizeof text, &history);
        const struct event *failure = first_failure(&history);
        int status = ask(argv[3], text, answer, sizeof answer);
        if (!is_right(&history, failure, status, answer)) {
            wrong++;
            printf("wrong: history %ld of seed %" PRIu64 ", status %d\n%s%%\n%s", k, seed, status, text, answer);
            if (failure != NULL)
                printf("wanted: not linearizable: event %u process %d\n", failure->number, failure->process);
            else
                printf("wanted: an order that explains it\n");
        }
        find_operations(&history, history.count, &operations);
        failing += failure != NULL;
        answered += strstr(answer, "\nright answer:") != NULL;
        reasoned += strstr(answer, "\nbecause: ") != NULL;
        for (int o = 0; o < operations.count; o++)
            open += operations.all[o].end == 0;
        for (int e = 0; e < history.count; e++)
            crashed += history.events[e].what == CRASHES;
    }
    printf("%ld histories, %ld not linearizable (%ld with right answers, %ld with reasons), %ld open updates, %ld crashes, %ld wrong\n",
           made, failing, answered, reasoned, open, crashed, wrong);
    return wrong > 0 || 4 * failing < count || 4 * (count - failing) < count;
}

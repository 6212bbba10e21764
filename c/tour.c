/*
 * A tour of the library: `tour RECORD` asks every question about the table of a record, takes some steps, writes the
 * record back, and asks what is refused. Each line is a question and its answer; the numbers are chosen for table A.
 * Exit status: 0 where the record is read and is written back to the same bytes, 1 where not, 2 without a record.
 */
#include <stdio.h>
#include <string.h>

#include "domvurtesz.h"

/* Ends the line of a refused question. */
static bool is_given(domvurtesz_refusal refusal) {
    if (refusal.number == DOMVURTESZ_REFUSAL_NONE) {
        return true;
    }
    printf("refused %d %zu\n", refusal.number, refusal.place);
    return false;
}

static void ask_judge(domvurtesz_table table) {
    printf("judge: ");
    if (is_given(domvurtesz_judge(table))) {
        printf("accepted\n");
    }
}

static domvurtesz_read_answer ask_read(const uint8_t *bytes, size_t length) {
    domvurtesz_read_answer answer = domvurtesz_read(bytes, length);
    printf("read %zu bytes: ", length);
    if (is_given(answer.refusal)) {
        const domvurtesz_table *table = &answer.table;
        printf("%zu %d %d %zu\n", table->locations, table->queues, table->period, table->tasks);
    }
    return answer;
}

static void ask_field(const uint8_t *bytes, size_t length, size_t k) {
    domvurtesz_field_answer answer = domvurtesz_field(bytes, length, k);
    printf("field %zu: ", k);
    if (is_given(answer.refusal)) {
        printf("%zu %zu\n", answer.offset, answer.length);
    }
}

/* The questions for a number of ticks have one shape. */
typedef domvurtesz_ticks_answer ticks_question(domvurtesz_table, uint32_t, uint32_t);

static void ask(const char *name, ticks_question *question, domvurtesz_table table, uint32_t queue, uint32_t amount) {
    domvurtesz_ticks_answer answer = question(table, queue, amount);
    printf("%s %u %u: ", name, queue, amount);
    if (is_given(answer.refusal)) {
        printf("%u\n", answer.ticks);
    }
}

static void ask_cycle(domvurtesz_table table, uint32_t queue) {
    domvurtesz_cycle_answer answer = domvurtesz_cycle(table, queue);
    printf("cycle %u: ", queue);
    if (is_given(answer.refusal)) {
        printf("%u %u\n", answer.least, answer.most);
    }
}

static void ask_fill(domvurtesz_table table, uint32_t queue, uint32_t *entries, size_t lent) {
    domvurtesz_refusal refusal = domvurtesz_fill(table, queue, entries, lent);
    printf("fill %u, %zu entries: ", queue, lent);
    if (is_given(refusal)) {
        printf("filled\n");
    }
}

static void ask_verdict(domvurtesz_table table, uint32_t queue) {
    domvurtesz_verdict_answer answer = domvurtesz_verdict(table, queue);
    printf("verdict %u: ", queue);
    if (!is_given(answer.refusal)) {
        return;
    }
    if (answer.meets) {
        printf("meets\n");
    } else {
        printf("short %u %u %u\n", answer.window, answer.demand, answer.supply);
    }
}

/* Location, ticks done there, and the job of task 0. */
static void tell_state(domvurtesz_state state) {
    domvurtesz_job job = state.jobs[0];
    printf("%d %d %d %d %d\n", state.location, state.done, job.since, job.remaining, job.left);
}

static domvurtesz_state ask_fresh(domvurtesz_table table) {
    domvurtesz_fresh_answer answer = domvurtesz_fresh(table);
    printf("fresh: ");
    if (is_given(answer.refusal)) {
        tell_state(answer.state);
    }
    return answer.state;
}

/* A step with 100 in every variable: queue granted, task served, late set. */
static domvurtesz_state ask_step(domvurtesz_state state, domvurtesz_table table, uint32_t released) {
    const uint16_t values[DOMVURTESZ_VARIABLES] = {100, 100, 100, 100, 100, 100, 100, 100};
    domvurtesz_step_answer answer = domvurtesz_step(state, table, values, released);
    printf("step, released %u: ", released);
    if (!is_given(answer.refusal)) {
        return answer.state;
    }
    if (answer.served) {
        printf("%d %d %u\n", answer.queue, answer.task, answer.late);
    } else {
        printf("%d - %u\n", answer.queue, answer.late);
    }
    return answer.state;
}

static domvurtesz_write_answer ask_write(domvurtesz_table table, uint8_t *out, size_t lent) {
    domvurtesz_write_answer answer = domvurtesz_write(table, out, lent);
    printf("write, %zu bytes: ", lent);
    if (is_given(answer.refusal)) {
        printf("%zu\n", answer.length);
    }
    return answer;
}

static bool is_same(const char *question, const void *one, const void *other, size_t length) {
    bool same = memcmp(one, other, length) == 0;
    printf("%s: %s\n", question, same ? "yes" : "no");
    return same;
}

static void tour_record(domvurtesz_table table, const uint8_t *bytes, size_t length) {
    ask_judge(table);
    ask_field(bytes, length, 0);
    ask_field(bytes, length, 4);
    ask_field(bytes, length, 5);
    ask_field(bytes, 0, 0);
    ask_read(bytes, 0);
    ask_read(bytes, length - 1);
    uint8_t changed[DOMVURTESZ_LONGEST_RECORD];
    memcpy(changed, bytes, length);
    printf("the first location's tag 9, ");
    changed[7] = 9;
    ask_read(changed, length);
}

static void tour_bounds(domvurtesz_table table) {
    ask_cycle(table, 1);
    ask_cycle(table, 2);
    ask_cycle(table, 3);
    ask("least", domvurtesz_least, table, 1, 3);
    ask("least", domvurtesz_least, table, 1, 4);
    ask("least", domvurtesz_least, table, 1, 7);
    ask("least", domvurtesz_least, table, 1, 8);
    ask("least", domvurtesz_least, table, 0, 8);
    ask("least", domvurtesz_least, table, 1, 2000001);
    ask("most", domvurtesz_most, table, 2, 4);
    ask("most", domvurtesz_most, table, 2, 5);
    ask("most", domvurtesz_most, table, 3, 2000001);
}

/* Nine entries are one more than the two periods of A. */
static void tour_filling(domvurtesz_table table) {
    uint32_t entries[9] = {99, 99, 99, 99, 99, 99, 99, 99, 99};
    const uint32_t before[9] = {99, 99, 99, 99, 99, 99, 99, 99, 99};
    ask_fill(table, 1, entries, 0);
    ask_fill(table, 1, entries, 7);
    is_same("the entries as before", entries, before, sizeof entries);
    ask_fill(table, 1, entries, 9);
    printf("the entries:");
    for (size_t t = 0; t < 9; t++) {
        printf(" %u", entries[t]);
    }
    printf("\n");
}

static void tour_verdicts(domvurtesz_table table) {
    ask("demand", domvurtesz_demand, table, 1, 3);
    ask("demand", domvurtesz_demand, table, 1, 8);
    ask("demand", domvurtesz_demand, table, 1, 2000000);
    ask("demand", domvurtesz_demand, table, 1, 2000001);
    ask_verdict(table, 1);
    ask_verdict(table, 2);
    ask("wait", domvurtesz_wait, table, 1, 2);
    ask("wait", domvurtesz_wait, table, 2, 1);
    ask("wait", domvurtesz_wait, table, 1, 0);
    printf("D 3, ");
    table.task[0].deadline = 3;
    ask_verdict(table, 1);
    printf("T 65535, ");
    table.task[0].deadline = 4;
    table.task[0].gap = 65535;
    ask_verdict(table, 1);
    printf("and a second task with T 65533, ");
    table.tasks = 2;
    table.task[1] = (domvurtesz_task){.queue = 1, .work = 1, .deadline = 4, .gap = 65533};
    ask_verdict(table, 1);
}

static void tour_steps(domvurtesz_table table) {
    domvurtesz_state state = ask_fresh(table);
    state = ask_step(state, table, 1);
    state = ask_step(state, table, 1);
    state = ask_step(state, table, 2);
    for (int i = 0; i < 3; i++) {
        state = ask_step(state, table, 0);
    }
    state = ask_step(state, table, 1);
    printf("state: ");
    tell_state(state);
    printf("location 3, ");
    state.location = 3;
    state = ask_step(state, table, 0);
    printf("state: ");
    tell_state(state);
}

static void tour_late(domvurtesz_table table) {
    printf("D 3, ");
    table.task[0].deadline = 3;
    domvurtesz_state state = ask_fresh(table);
    state = ask_step(state, table, 0);
    state = ask_step(state, table, 1);
    printf("state: ");
    tell_state(state);
    state = ask_step(state, table, 0);
    state = ask_step(state, table, 0);
    printf("state: ");
    tell_state(state);
}

/* Each change breaks one rule of a well-formed table. */
static void tour_changes(const domvurtesz_table table) {
    domvurtesz_table changed = table;
    printf("no location, ");
    changed.locations = 0;
    ask_judge(changed);
    changed = table;
    printf("version 2, ");
    changed.version = 2;
    ask_judge(changed);
    changed = table;
    printf("variable 1 at location 2, ");
    changed.location[2].variable = 1;
    ask_judge(changed);
    changed = table;
    printf("low 101 at location 2, ");
    changed.location[2].low = 101;
    ask_judge(changed);
    printf("low 99 at location 2, ");
    changed.location[2].low = 99;
    ask_judge(changed);
    changed = table;
    printf("ticks 2 at location 2, ");
    changed.location[2].ticks = 2;
    ask_judge(changed);
    changed = table;
    printf("C 0, ");
    changed.task[0].work = 0;
    ask_judge(changed);
    printf("C 0, ");
    ask_fresh(changed);
}

/* Whether the table is written to the bytes that it was read from. */
static bool tour_writing(domvurtesz_table table, const uint8_t *bytes, size_t length) {
    uint8_t out[DOMVURTESZ_LONGEST_RECORD] = {0};
    const uint8_t before[DOMVURTESZ_LONGEST_RECORD] = {0};
    ask_write(table, out, 0);
    ask_write(table, out, length - 1);
    is_same("the bytes as before", out, before, sizeof out);
    domvurtesz_write_answer answer = ask_write(table, out, sizeof out);
    is_same("the bytes past the record as before", out + length, before, sizeof out - length);
    return is_same("the record as read", out, bytes, length) && answer.length == length;
}

/* The bytes of a file, or 0 where there are none or more than any record has. */
static size_t load(const char *name, uint8_t *bytes, size_t room) {
    FILE *file = fopen(name, "rb");
    if (file == NULL) {
        return 0;
    }
    size_t length = fread(bytes, 1, room, file);
    bool is_whole = fgetc(file) == EOF && !ferror(file);
    fclose(file);
    return is_whole ? length : 0;
}

int main(int count, char **words) {
    uint8_t bytes[DOMVURTESZ_LONGEST_RECORD];
    size_t length = count == 2 ? load(words[1], bytes, sizeof bytes) : 0;
    if (length == 0) {
        fprintf(stderr, "usage: tour RECORD\n");
        return 2;
    }
    domvurtesz_read_answer answer = ask_read(bytes, length);
    if (answer.refusal.number != DOMVURTESZ_REFUSAL_NONE) {
        return 1;
    }
    tour_record(answer.table, bytes, length);
    tour_bounds(answer.table);
    tour_filling(answer.table);
    tour_verdicts(answer.table);
    tour_steps(answer.table);
    tour_late(answer.table);
    tour_changes(answer.table);
    return tour_writing(answer.table, bytes, length) ? 0 : 1;
}

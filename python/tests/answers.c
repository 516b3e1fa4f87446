/*
 * The library's own answers, for tests to compare with: each line of standard input names a function
 * and has its arguments, a list as its length and its numbers; each line of standard output has the
 * numbers answered.
 */
#include "bezhantiru.h"

#include <inttypes.h>
#include <stdio.h>
#include <stdlib.h>
#include <string.h>

typedef struct {
    uint32_t *at;
    size_t len;
} list;

static uint64_t number(void) {
    uint64_t read;
    if (scanf("%" SCNu64, &read) != 1) {
        exit(1);
    }
    return read;
}

/* A list always has a place, and numbers that nobody reads behind it. */
static list zeros(size_t len) {
    list made = {calloc(len + 1, sizeof(uint32_t)), len};
    if (made.at == NULL) {
        exit(1);
    }
    return made;
}

static list numbers(size_t len) {
    list read = zeros(len);
    for (size_t i = 0; i < len; i++) {
        read.at[i] = (uint32_t)number();
    }
    return read;
}

static list some(void) { return numbers((size_t)number()); }

static void show(uint64_t value) { printf("%" PRIu64 " ", value); }

static void show_list(list l) {
    for (size_t i = 0; i < l.len; i++) {
        show(l.at[i]);
    }
}

#define LENT(l) (l).at, (l).len

typedef struct {
    list table;
    uint32_t delay, buffer;
} set_up;

static set_up limits(list table) {
    uint32_t delay = (uint32_t)number();
    return (set_up){table, delay, (uint32_t)number()};
}

static void show_row(bezhantiru_slot_row row) {
    show(row.number), show(row.held_before), show(row.admitted), show(row.dropped);
    show(row.departed);
}

static void live(void) {
    set_up of = limits(some());
    list arrivals = some();
    bezhantiru_made made = bezhantiru_set_up(LENT(of.table), of.delay, of.buffer);
    bezhantiru_regulator *r = &made.regulator;
    show(made.number);
    for (size_t i = 0; made.number == 0 && i < arrivals.len; i++) {
        bezhantiru_preview_row next = bezhantiru_preview(r, arrivals.at[i]);
        show(next.admitted), show(next.departed), show(next.headroom);
        bezhantiru_slot_row row = bezhantiru_slot_in_place(r, arrivals.at[i]);
        show_row(row);
        show(bezhantiru_form_fill(row.held_before, row.admitted, row.departed));
        show(bezhantiru_bench_fill(row.held_before, row.admitted));
    }
    if (made.number == 0) {
        show(r->slots), show(r->admitted), show(r->form_peak), show(r->bench_peak);
    }
}

static void device(void) {
    set_up of = limits(some());
    list arrivals = some();
    bezhantiru_made_device made = bezhantiru_device_set_up(LENT(of.table), of.delay, of.buffer);
    bezhantiru_device *d = &made.device;
    show(made.number);
    for (size_t i = 0; made.number == 0 && i < arrivals.len; i++) {
        show_row(bezhantiru_device_slot(d, arrivals.at[i]));
    }
    if (made.number == 0) {
        show(d->slots), show(d->admitted), show(d->departed);
        show(d->form_peak), show(d->bench_peak);
    }
}

/* The three lists of an accepted run. */
static void show_run(uint32_t refusal, list admitted, list dropped, list departed) {
    show(refusal);
    if (refusal == 0) {
        show_list(admitted), show_list(dropped), show_list(departed);
    }
}

typedef uint32_t runner(const uint32_t *, size_t, uint32_t, uint32_t, const uint32_t *, size_t,
                        uint32_t *, size_t, uint32_t *, size_t, uint32_t *, size_t);

static void run_by(runner *by) {
    set_up of = limits(some());
    list a = some(), x = zeros(a.len), z = zeros(a.len), y = zeros(a.len);
    show_run(by(LENT(of.table), of.delay, of.buffer, LENT(a), LENT(x), LENT(z), LENT(y)), x, z, y);
}

static void path(void) {
    uint32_t stages = (uint32_t)number();
    list t[4];
    for (uint32_t i = 0; i < 4; i++) {
        t[i] = i < stages ? some() : zeros(0);
    }
    set_up of = limits(t[0]);
    list a = some(), x = zeros(a.len), z = zeros(a.len), y = zeros(stages * a.len);
    show_run(bezhantiru_path_run(stages, LENT(t[0]), LENT(t[1]), LENT(t[2]), LENT(t[3]), of.delay,
                                 of.buffer, LENT(a), LENT(x), LENT(z), LENT(y)),
             x, z, y);
}

static void envelope(void) {
    list table = some();
    bezhantiru_bound found = bezhantiru_envelope(LENT(table), (uint32_t)number());
    show(found.number), show(found.piece), show(found.packets);
}

static void find(void) {
    set_up of = limits(some());
    list a = some(), s = zeros(a.len + 1), m = zeros(a.len + 1), n = zeros(a.len + 1);
    bezhantiru_chain found =
        bezhantiru_find_chain(LENT(of.table), of.delay, of.buffer, LENT(a), (uint32_t)number(),
                              LENT(s), LENT(m), LENT(n));
    s.len = m.len = n.len = found.places;
    show(found.number), show_list(s), show_list(m), show_list(n);
}

static void check(void) {
    set_up of = limits(some());
    list a = some();
    uint32_t slot = (uint32_t)number(), places = (uint32_t)number();
    list s = numbers(a.len + 1), m = numbers(a.len + 1), n = numbers(a.len + 1);
    bezhantiru_chain_verdict said =
        bezhantiru_check_chain(LENT(of.table), of.delay, of.buffer, LENT(a), slot, LENT(s), LENT(m),
                               LENT(n), places);
    show(said.number), show(said.sound);
}

static void square(void) {
    list entries = numbers(33 * 33);
    uint32_t (*rows)[33] = (uint32_t (*)[33])entries.at;
    set_up of = limits(entries);
    list a = some(), x = zeros(a.len), z = zeros(a.len), y = zeros(a.len);
    show_run(bezhantiru_square_run((const uint32_t (*)[33])rows, of.delay, of.buffer, LENT(a),
                                   LENT(x), LENT(z), LENT(y)),
             x, z, y);
}

static void port(void) {
    list due = some();
    uint32_t slots = (uint32_t)number(), capacity = (uint32_t)number();
    list in = some(), sent = zeros(in.len), late = zeros(due.len);
    uint32_t refusal =
        bezhantiru_port_run(LENT(due), slots, capacity, LENT(in), LENT(sent), LENT(late));
    show_run(refusal, sent, late, zeros(0));
}

static void worst(void) {
    set_up of = limits(some());
    uint32_t slots = (uint32_t)number(), in_slot = (uint32_t)number(), in_all = (uint32_t)number();
    list trace = zeros(slots > 4096 ? 0 : slots);
    bezhantiru_worst found = bezhantiru_worst_trace(LENT(of.table), of.delay, of.buffer, slots,
                                                    in_slot, in_all, LENT(trace));
    show(found.number);
    if (found.number == 0) {
        show_list(trace), show(found.loss);
    }
}

typedef bezhantiru_size finder(const uint32_t *, size_t, uint32_t, const uint32_t *, size_t,
                               uint32_t);

static void size_by(finder *by) {
    list table = some();
    uint32_t given = (uint32_t)number();
    list a = some();
    bezhantiru_size found = by(LENT(table), given, LENT(a), (uint32_t)number());
    show(found.number), show(found.found), show(found.limit), show(found.lost);
}

static void shorts(void) {
    uint32_t slots = (uint32_t)number();
    list counts = zeros(slots > 5 ? 0 : (size_t)slots << 2 * slots);
    show_run(bezhantiru_short_traces(slots, LENT(counts)), counts, zeros(0), zeros(0));
}

static void judged(void) {
    set_up of = limits(some());
    list a = some(), x = some(), y = some();
    bezhantiru_judgement said =
        bezhantiru_judge(LENT(of.table), of.delay, of.buffer, LENT(a), LENT(x), LENT(y));
    show(said.number), show(said.rule), show(said.slot), show(said.window);
}

static void checked(void) {
    set_up of = limits(some());
    list a = some(), x = some(), y = some(), from = some(), by = some(), gone = some();
    bezhantiru_judgement said =
        bezhantiru_check_certificate(LENT(of.table), of.delay, of.buffer, LENT(a), LENT(x), LENT(y),
                                     LENT(from), LENT(by), LENT(gone));
    show(said.number), show(said.rule), show(said.slot), show(said.window);
}

int main(void) {
    char name[32];
    while (scanf("%31s", name) == 1) {
        if (strcmp(name, "live") == 0) live();
        else if (strcmp(name, "device") == 0) device();
        else if (strcmp(name, "run") == 0) run_by(bezhantiru_run);
        else if (strcmp(name, "path_run") == 0) path();
        else if (strcmp(name, "envelope") == 0) envelope();
        else if (strcmp(name, "find_chain") == 0) find();
        else if (strcmp(name, "check_chain") == 0) check();
        else if (strcmp(name, "pencil_run") == 0) run_by(bezhantiru_pencil_run);
        else if (strcmp(name, "square_run") == 0) square();
        else if (strcmp(name, "port_run") == 0) port();
        else if (strcmp(name, "worst_trace") == 0) worst();
        else if (strcmp(name, "smallest_buffer") == 0) size_by(bezhantiru_smallest_buffer);
        else if (strcmp(name, "smallest_delay") == 0) size_by(bezhantiru_smallest_delay);
        else if (strcmp(name, "short_traces") == 0) shorts();
        else if (strcmp(name, "judge") == 0) judged();
        else if (strcmp(name, "certify") == 0) run_by(bezhantiru_certify);
        else if (strcmp(name, "check_certificate") == 0) checked();
        else return 1;
        putchar('\n');
    }
    return 0;
}

/*
 * The least-loss traffic regulator for C: one call for each slot, or a whole trace at once,
 * through one regulator, through up to four in a row, or under an envelope that varies with time;
 * and a port that up to eight regulators share. Beside them, why a packet is lost, which trace
 * loses most, how large a limit has to be, every short trace with its rows as one works them by
 * hand, anyone's rows judged, and certificates that nobody could have lost fewer packets, given and
 * checked.
 *
 * Every function's source is proved: it returns for every input described here, no sum or index of
 * it goes wrong, it keeps no state of its own, and it reads and writes only what it is lent. That
 * these declarations fit the archive is tested. Link with libexports.a; a call uses some 64 KiB of
 * stack at most, `bezhantiru_path_run`, `bezhantiru_worst_trace`, `bezhantiru_smallest_buffer` and
 * `bezhantiru_smallest_delay` twice that, `bezhantiru_certify` and `bezhantiru_check_certificate`
 * three times that and `bezhantiru_find_chain` up to 1 MiB.
 *
 * Pointers: a list is a pointer to its first number and its length in numbers, all of them there
 * and initialised, also those that are only written. The pointer is aligned and not null, also
 * where the length is 0; so is that of a regulator, or of a part of one, all of it initialised. A
 * list, regulator or part that may be written overlaps nothing else lent in the same call, and
 * nobody else writes to anything lent, or uses what may be written, meanwhile.
 *
 * Refusals: `number` is 0 for an accepted call, else the first that applies in the function's
 * order:
 *
 *    1  L is not 1 to 64 (a table of L+1 entries; none and one entry are refused too)
 *    2  the entry for window 0 is not 0
 *    3  an entry above 1,000,000
 *    4  an entry below the one before
 *    5  window above 4,160
 *    6  delay is neither 0 to 64 nor 255
 *    7  buffer is neither 0 to 1,000,000 nor 4,294,967,295
 *    8  more than 1,000,000 arrivals in a slot, or packets of a stream in a port's slot
 *    9  1,000,000 slots already taken
 *   10  more than 4,096 slots in a trace, or slots or bursts in a file
 *   11  a lent list not as long as the trace, a list of stages not stages * slots
 *       long, a chain list not one longer than the trace, a port's input or sent list not
 *       streams * slots long, its late list not as long as the deadlines, or a list of
 *       short traces of other than their length
 *   12  a file of fewer than 20 bytes
 *   13  a file's length is not 20 + 4 * (L+1) + 8 * m bytes
 *   14  a file's slot number is 0, above T, or not above the one before
 *   15  a number of buckets outside 1 to 4 (half a profile's length; an odd length is none)
 *   16  a rate or burst above 1,000,000
 *   17  a number of stages that is not 1 to 4
 *   18  a slot above the trace's length
 *   19  a non-zero entry of a square on or below the diagonal
 *   20  a trace of more than 32 - d slots under a square (32 with no delay limit), and every
 *       trace where d is 33 to 64
 *   21  a port's streams are not 1 to 8, or its slots above 256
 *   22  a deadline above 64
 *   23  both limits none
 *   24  more than 5 slots in a short trace
 *
 * "Table" below means 1, 2, then the entries from window 1 on, at each 3 before 4.
 */
#ifndef BEZHANTIRU_H
#define BEZHANTIRU_H

#include <stddef.h>
#include <stdint.h>

#ifdef __cplusplus
extern "C" {
#endif

/*
 * The numbers for no delay limit and for no buffer limit. Any other buffer limit bounds the packets
 * that are there before a slot's departures: those held before the slot and those admitted in it.
 * With 0 nothing is admitted.
 */
#define BEZHANTIRU_NO_DELAY UINT32_C(255)
#define BEZHANTIRU_NO_BUFFER UINT32_C(4294967295)

/* What a set-up settles. */
typedef struct {
    uint32_t last;              /* L, the last window of the table */
    uint32_t delay;             /* the delay limit in slots, or 255 */
    uint64_t buffer;            /* the buffer limit in packets, or 4,294,967,295 */
    uint32_t near_windows[129]; /* the closed envelope at windows 0 to 128 */
} bezhantiru_settings;

/*
 * A live regulator. It may be copied and kept anywhere: a copy goes on from the slot it was made
 * at. A regulator that no set-up or slot gave is lent safely: it gets 8 and 9 as any other, and
 * else counts without a meaning.
 */
typedef struct {
    bezhantiru_settings settings;
    uint32_t slots;      /* accepted slots so far */
    uint64_t admitted;   /* packets admitted so far */
    uint64_t form_peak;  /* the greatest fill at a slot's end so far, as the order form reads it */
    uint64_t bench_peak; /* the greatest before a slot's departures, as the bench reads it */
    uint64_t row[192];   /* departed totals, newest first, then forecasts: not for callers */
} bezhantiru_regulator;

/* The answer of a set-up. */
typedef struct {
    uint32_t number; /* 0 or the refusal */
    bezhantiru_regulator regulator;
} bezhantiru_made;

/* The answer of a slot: its record. The four counts are 0 where the slot is refused. */
typedef struct {
    uint32_t number;      /* 0 or the refusal */
    uint64_t held_before; /* packets held before this slot */
    uint64_t admitted;    /* packets in this slot */
    uint64_t dropped;     /* packets in this slot */
    uint64_t departed;    /* packets in this slot */
} bezhantiru_slot_row;

/* What the set-up of a device settles. The places past the last bucket are 0. */
typedef struct {
    uint32_t buckets;   /* the number of buckets */
    uint32_t delay;     /* the delay limit in slots, or 255 */
    uint64_t buffer;    /* the buffer limit in packets, or 4,294,967,295 */
    uint32_t rates[4];  /* each bucket's rate, in packets a slot */
    uint32_t bursts[4]; /* each bucket's burst, in packets */
} bezhantiru_device_settings;

/*
 * A device of leaky buckets. As a regulator, it may be copied and kept anywhere, and one that no
 * set-up or slot gave is lent safely.
 */
typedef struct {
    bezhantiru_device_settings settings;
    uint32_t slots;      /* accepted slots so far */
    uint64_t admitted;   /* packets admitted so far */
    uint64_t departed;   /* packets departed so far */
    uint64_t levels[4];  /* each bucket's level, as a running total: not for callers */
    uint64_t form_peak;  /* the greatest fill at a slot's end so far, as the order form reads it */
    uint64_t bench_peak; /* the greatest before a slot's departures, as the bench reads it */
} bezhantiru_device;

/* The answer of a device's set-up. */
typedef struct {
    uint32_t number; /* 0 or the refusal */
    bezhantiru_device device;
} bezhantiru_made_device;

/* The answer of a preview: the next slot's record, and the headroom. 0s where it is refused. */
typedef struct {
    uint32_t number;      /* 0 or the refusal */
    uint64_t held_before; /* packets held before the next slot */
    uint64_t admitted;    /* packets that it would admit */
    uint64_t dropped;     /* packets that it would drop */
    uint64_t departed;    /* packets that would depart in it */
    uint64_t headroom;    /* packets that it would admit out of 1,000,000 */
} bezhantiru_preview_row;

/* The answer of an envelope question. Piece and count are 0 where the question is refused. */
typedef struct {
    uint32_t number;  /* 0 or the refusal */
    uint32_t piece;   /* the first piece of the window, in slots */
    uint64_t packets; /* the most that may depart in the window */
} bezhantiru_bound;

/* Where the counts of a stream file stand. */
typedef struct {
    uint32_t number; /* 0 or the refusal */
    uint64_t from;   /* the place of their first byte in the file */
    uint64_t bytes;  /* 4 for each burst */
} bezhantiru_part;

/* A chain that was found. The number of places is 0 where the call is refused. */
typedef struct {
    uint32_t number; /* 0 or the refusal */
    uint32_t places; /* from 1 on: a place for slot 0 and one for each link */
} bezhantiru_chain;

/* The answer of the checker. It is 0 where the call is refused. */
typedef struct {
    uint32_t number; /* 0 or the refusal */
    uint32_t sound;  /* 1 for a sound chain, 0 for any other */
} bezhantiru_chain_verdict;

/*
 * The loss of the trace that loses most. It is 0 where the call is refused, and 32 bits hold it: no
 * more is lost than arrives, and 4,096 slots of 1,000,000 are 4,096,000,000.
 */
typedef struct {
    uint32_t number; /* 0 or the refusal */
    uint32_t loss;   /* packets lost by the last slot */
} bezhantiru_worst;

/*
 * A smallest limit, and what is lost with it. All but the number are 0 where the call is refused,
 * and 32 bits hold the loss, as above.
 */
typedef struct {
    uint32_t number; /* 0 or the refusal */
    uint32_t found;  /* 1 where some limit loses no more than was asked for, else 0 */
    uint32_t limit;  /* the smallest that does, or the greatest where none does */
    uint32_t lost;   /* packets lost by the last slot with that limit */
} bezhantiru_size;

/*
 * What the judge says of anyone's rows, and the check of a certificate of rows and links. Rule,
 * slot and window are 0 where the call is refused.
 */
typedef struct {
    uint32_t number; /* 0 or the refusal */
    uint32_t rule;   /* 0 for permitted or certified, else what breaks first: a rule, 1 to 5, or
                        for the check a link, 6 the admitted one, 7 the departed one */
    uint32_t slot;   /* the slot in which it breaks, from 1 on; 0 for permitted or certified */
    uint32_t window; /* for rule 3 the smallest window that breaks it, 1 to L; else 0 */
} bezhantiru_judgement;

/*
 * A fresh regulator for a table and the two limits.
 * Accepted: number 0, and a regulator that has taken no slot, with all totals 0.
 * Refused: table, 6, 7, 23. The regulator given back then takes no slot: its `slots` is 1,000,000.
 */
bezhantiru_made bezhantiru_set_up(const uint32_t *table, size_t table_len, uint32_t delay,
                                  uint32_t buffer);

/*
 * The next slot of a lent regulator, with the packets that arrive in it.
 * Accepted: number 0, the packets held before the slot and those of the slot; the regulator is
 * advanced by this slot, and its peaks are raised to the slot's fills where these are greater.
 * Refused: 8, 9. The counts are 0 and every field of the regulator is as it was.
 */
bezhantiru_slot_row bezhantiru_slot(bezhantiru_regulator *regulator, uint64_t arrivals);

/*
 * The same slot over the parts of a regulator, each lent on its own: `row` of 192 totals, `slots`,
 * `admitted` and the two peaks are advanced, `near_windows` of 129 numbers is only read. Answers,
 * numbers and every field afterwards are those of `bezhantiru_slot`, also for parts that no set-up
 * or slot gave. The regulator is not copied, which is what most of a slot costs with a short table.
 */
bezhantiru_slot_row bezhantiru_slot_on(uint64_t *row, const uint32_t *near_windows, uint32_t last,
                                       uint32_t delay, uint64_t buffer, uint32_t *slots,
                                       uint64_t *admitted, uint64_t *form_peak,
                                       uint64_t *bench_peak, uint64_t arrivals);

/* `bezhantiru_slot_on` over the parts of a regulator: the way to take a slot where time counts. */
static inline bezhantiru_slot_row bezhantiru_slot_in_place(bezhantiru_regulator *regulator,
                                                           uint64_t arrivals) {
    return bezhantiru_slot_on(regulator->row, regulator->settings.near_windows,
                              regulator->settings.last, regulator->settings.delay,
                              regulator->settings.buffer, &regulator->slots, &regulator->admitted,
                              &regulator->form_peak, &regulator->bench_peak, arrivals);
}

/*
 * The two readers of a slot's record: the order form's fill at the slot's end, held before plus
 * admitted less departed, and the bench's before the departures, held before plus admitted. Any
 * numbers are answered: a fill below 0 is 0, one that 64 bits do not hold the largest number.
 */
uint64_t bezhantiru_form_fill(uint64_t held_before, uint64_t admitted, uint64_t departed);
uint64_t bezhantiru_bench_fill(uint64_t held_before, uint64_t admitted);

/*
 * What the next slot would answer for so many packets, over the parts of a regulator, which are
 * only read. For every accepted number n of arrivals the next slot would admit the smaller of n and
 * the headroom.
 * Accepted: number 0, the record that `bezhantiru_slot` would give, and the headroom.
 * Refused: 8, 9.
 */
bezhantiru_preview_row bezhantiru_preview_on(const uint64_t *row, const uint32_t *near_windows,
                                             uint32_t last, uint32_t delay, uint64_t buffer,
                                             uint32_t slots, uint64_t admitted, uint64_t arrivals);

/* The preview of a regulator, which is not advanced. */
static inline bezhantiru_preview_row bezhantiru_preview(const bezhantiru_regulator *regulator,
                                                        uint64_t arrivals) {
    return bezhantiru_preview_on(regulator->row, regulator->settings.near_windows,
                                 regulator->settings.last, regulator->settings.delay,
                                 regulator->settings.buffer, regulator->slots, regulator->admitted,
                                 arrivals);
}

/*
 * A fresh device for a profile of one to four leaky buckets and the two limits: `profile` has the
 * rate and the burst of each bucket in turn, so its length is twice the number of buckets. What
 * departs in a window of slots is at most the least of rate * window + burst over the buckets.
 * Accepted: number 0, and a device that has taken no slot, with all totals 0 and full buckets.
 * Refused: 15, 16 over all buckets, 6, 7, 23. The device given back then takes no slot: its `slots`
 * is 1,000,000.
 */
bezhantiru_made_device bezhantiru_device_set_up(const uint32_t *profile, size_t profile_len,
                                                uint32_t delay, uint32_t buffer);

/*
 * The next slot over the parts of a device, each lent on its own: `levels` of 4 totals, `slots`,
 * the two totals and the two peaks are advanced, `rates` and `bursts` of 4 numbers are only read.
 */
bezhantiru_slot_row bezhantiru_device_slot_on(uint64_t *levels, const uint32_t *rates,
                                              const uint32_t *bursts, uint32_t buckets,
                                              uint32_t delay, uint64_t buffer, uint32_t *slots,
                                              uint64_t *admitted, uint64_t *departed,
                                              uint64_t *form_peak, uint64_t *bench_peak,
                                              uint64_t arrivals);

/*
 * The next slot of a lent device, with the packets that arrive in it.
 * Accepted: number 0, the packets held before the slot and those of the slot; the device is
 * advanced by this slot, and its peaks are raised to the slot's fills where these are greater.
 * Refused: 8, 9. The counts are 0 and every field of the device is as it was.
 */
static inline bezhantiru_slot_row bezhantiru_device_slot(bezhantiru_device *device,
                                                         uint64_t arrivals) {
    return bezhantiru_device_slot_on(device->levels, device->settings.rates,
                                     device->settings.bursts, device->settings.buckets,
                                     device->settings.delay, device->settings.buffer,
                                     &device->slots, &device->admitted, &device->departed,
                                     &device->form_peak, &device->bench_peak, arrivals);
}

/*
 * All slots of a trace, from a fresh regulator: `arrivals` has the packets that arrive in slots 1,
 * 2, .., and the three lists get those admitted, dropped and departed in them. A trace without
 * slots is accepted.
 * Accepted: 0, and every number of the three lists is written.
 * Refused: table, 6, 7, 23, 10, 11, 8. The number, and the lists are as they were.
 */
uint32_t bezhantiru_run(const uint32_t *table, size_t table_len, uint32_t delay, uint32_t buffer,
                        const uint32_t *arrivals, size_t arrivals_len, uint32_t *admitted,
                        size_t admitted_len, uint32_t *dropped, size_t dropped_len,
                        uint32_t *departed, size_t departed_len);

/*
 * Why no more is admitted by a slot of a trace: slots rising from 0 to it, each link marked 1
 * arrivals, 2 delay or 3 buffer, with its amount: the packets arrived after its first slot through
 * its last; f(w+d); f(w-1) + q, where f is the closed envelope and w the link's window. The amounts
 * add up to the packets admitted by the slot. Each link is found from the slot it ends in; the
 * earliest first slot is taken, then the lowest mark. The three lists are each one longer than the
 * trace.
 * Accepted: number 0 and the places; at the lists' first places stand 0, 0, 0 and then each link's
 * last slot, mark and amount, and the rest of each list is as it was.
 * Refused: table, 6, 7, 23, 10, 11, 8, 18. The places are 0, and the lists are as they were.
 */
bezhantiru_chain bezhantiru_find_chain(const uint32_t *table, size_t table_len, uint32_t delay,
                                       uint32_t buffer, const uint32_t *arrivals,
                                       size_t arrivals_len, uint32_t slot, uint32_t *slots,
                                       size_t slots_len, uint32_t *marks, size_t marks_len,
                                       uint32_t *amounts, size_t amounts_len);

/*
 * Whether anyone's lists are a sound chain to a slot: the number of places is from 1 to the lists'
 * length, the first place is 0, 0, 0, the slots rise from 0 to the slot asked for, and each link's
 * mark is allowed and its amount is that mark's, however it was found. A limit that is none marks
 * no link. Then no more packets are admitted by the slot than the amounts' sum, which is to be
 * taken in 64 bits. Places beyond their number are not looked at.
 * Accepted: number 0, and 1 for a sound chain, 0 for any other.
 * Refused: table, 6, 7, 23, 10, 11, 8, 18. The verdict is then 0.
 */
bezhantiru_chain_verdict bezhantiru_check_chain(const uint32_t *table, size_t table_len,
                                                uint32_t delay, uint32_t buffer,
                                                const uint32_t *arrivals, size_t arrivals_len,
                                                uint32_t slot, const uint32_t *slots,
                                                size_t slots_len, const uint32_t *marks,
                                                size_t marks_len, const uint32_t *amounts,
                                                size_t amounts_len, uint32_t places);

/*
 * All slots of a trace through a path of one to four regulators, one after another, each with its
 * own table, and one delay and one buffer limit for the path, which bounds what is admitted less
 * what had left the last stage by the slot before; tables beyond the number of stages are not
 * looked at (their pointers are still not null). Only the entrance drops: `admitted` and
 * `dropped` get the packets admitted and dropped there in slots 1, 2, .., and `departed`, of
 * stages * slots numbers, gets those departed from the first stage in all slots, then those from
 * the second, and so on. A trace without slots is accepted.
 * Accepted: 0, and every number of the three lists is written.
 * Refused: 17, the tables from the first on, 6, 7, 23, 10, 11, 8. The number, and the lists are as
 * they were.
 */
uint32_t bezhantiru_path_run(uint32_t stages, const uint32_t *first, size_t first_len,
                             const uint32_t *second, size_t second_len, const uint32_t *third,
                             size_t third_len, const uint32_t *fourth, size_t fourth_len,
                             uint32_t delay, uint32_t buffer, const uint32_t *arrivals,
                             size_t arrivals_len, uint32_t *admitted, size_t admitted_len,
                             uint32_t *dropped, size_t dropped_len, uint32_t *departed,
                             size_t departed_len);

/*
 * All slots of a trace under an envelope that varies with time: `square[s][t]` is the most that may
 * depart in slots s + 1 to t. Each of its 33 rows is 0 up to the diagonal and does not fall after
 * it; a column may. The square need not be closed: what bounds departures is the least sum along
 * slots that rise from s to t. The three lists get the packets admitted, dropped and departed in
 * slots 1, 2, ..; a trace without slots is accepted. Entries of slots up to the trace's length are
 * looked at, and with a delay limit d those of d slots more; all others have to be accepted and
 * change nothing.
 * Accepted: 0, and every number of the three lists is written.
 * Refused: 19 over the whole square, then 3 and 4 row after row, at each entry 3 before 4; 6, 7,
 * 23, 20, 11, 8. The number, and the lists are as they were.
 * C before C23 wants a square that is not declared const cast to `const uint32_t (*)[33]`.
 */
uint32_t bezhantiru_square_run(const uint32_t square[33][33], uint32_t delay, uint32_t buffer,
                               const uint32_t *arrivals, size_t arrivals_len, uint32_t *admitted,
                               size_t admitted_len, uint32_t *dropped, size_t dropped_len,
                               uint32_t *departed, size_t departed_len);

/*
 * A port that one to eight streams share, one for each deadline, over a run of so many slots; a run
 * of 0 slots is accepted. `input` has the packets of the first stream that come in slots 1, 2, ..,
 * then those of the second, and so on: departures of regulators, as a run lists them. A packet that
 * comes in slot t may be sent in slot t and is due by t + D, D being its stream's deadline, 0 to 64
 * slots. In each slot the port sends up to `capacity` packets, any 32-bit number: the earliest due
 * first, the lower stream first among equals, and fewer only if nothing is then left waiting. Late
 * packets stay and are sent, first. `sent` gets the packets sent in each slot, laid out as `input`
 * is; `late` gets one count a stream: packets sent after their due slot, and packets unsent at the
 * end whose due slot lies in the run. If some schedule meets all deadlines that fall in the run,
 * this one does, and exactly then all late counts are 0.
 * Accepted: 0, and every number of both lists is written.
 * Refused: 21, 22, 11, 8. The number, and the lists are as they were.
 */
uint32_t bezhantiru_port_run(const uint32_t *deadlines, size_t deadlines_len, uint32_t slots,
                             uint32_t capacity, const uint32_t *input, size_t input_len,
                             uint32_t *sent, size_t sent_len, uint32_t *late, size_t late_len);

/*
 * The trace that loses most: of all traces of so many slots, with at most `most_in_slot` packets
 * in each and at most `most_in_all` together, the one of which a fresh regulator drops the most by
 * the last slot; among equals the one with the most in slot 1, then in slot 2, and so on. `trace`
 * has as many numbers as there are slots. `bezhantiru_run` drops that loss on that trace.
 * Accepted: number 0, the loss, and every number of the list is written.
 * Refused: table, 6, 7, 23, 10 for the slots, 11, 8 for the most in a slot. The loss is then 0, and
 * the list is as it was.
 */
bezhantiru_worst bezhantiru_worst_trace(const uint32_t *table, size_t table_len, uint32_t delay,
                                        uint32_t buffer, uint32_t slots, uint32_t most_in_slot,
                                        uint32_t most_in_all, uint32_t *trace, size_t trace_len);

/*
 * The smallest buffer limit, 0 to 1,000,000, with which `bezhantiru_run` loses at most `most_lost`
 * packets of a trace by its last slot; `lost` is what it loses. Where there is no delay limit d, or
 * the trace ends in at least d slots without arrivals, no rows that are permitted with a smaller
 * buffer limit lose as few. It takes at most 21 runs of the trace.
 * Accepted: number 0, found 1, the limit and what is lost; or found 0 where 1,000,000 still loses
 * more, with that limit and what is lost; under the same condition any rows that are permitted
 * with a buffer limit up to that lose more than `most_lost` too. What no limit at all would lose
 * is not said.
 * Refused: table, 6, 10, 8.
 */
bezhantiru_size bezhantiru_smallest_buffer(const uint32_t *table, size_t table_len, uint32_t delay,
                                           const uint32_t *arrivals, size_t arrivals_len,
                                           uint32_t most_lost);

/*
 * The same of the delay limit, 0 to 64, with a buffer limit or none. Where the limit found is d and
 * the trace ends in at least d - 1 slots without arrivals, no rows that are permitted with a
 * smaller delay limit lose as few. It takes at most 8 runs of the trace.
 * Accepted: number 0, found 1, the limit and what is lost; or found 0 where 64 still loses more,
 * with that limit and what is lost; where the trace ends in at least 64 slots without arrivals,
 * any rows that are permitted with a delay limit up to that lose more than `most_lost` too.
 * Refused: table, 7, 10, 8.
 */
bezhantiru_size bezhantiru_smallest_delay(const uint32_t *table, size_t table_len, uint32_t buffer,
                                          const uint32_t *arrivals, size_t arrivals_len,
                                          uint32_t most_lost);

/*
 * Every trace of so many slots, 0 to 5, with 0 to 3 packets in each, a single time each, by
 * dictionary order of the counts: the last slot's changes fastest. They fill a list of
 * slots * 4^slots numbers, trace after trace; of no slots there is one trace, without counts.
 * Accepted: 0, and every number of the list is written.
 * Refused: 24, 11. The number, and the list is as it was.
 */
uint32_t bezhantiru_short_traces(uint32_t slots, uint32_t *counts, size_t counts_len);

/*
 * The pencil version of `bezhantiru_run`, for traces of at most 5 slots: it works admitted totals
 * out from all earlier departures, and departures from admitted totals, as one would by hand, and
 * fills the lists with the same numbers.
 * Accepted: 0, and every number of the three lists is written.
 * Refused: table, 6, 7, 23, 24, 11, 8. The number, and the lists are as they were.
 */
uint32_t bezhantiru_pencil_run(const uint32_t *table, size_t table_len, uint32_t delay,
                               uint32_t buffer, const uint32_t *arrivals, size_t arrivals_len,
                               uint32_t *admitted, size_t admitted_len, uint32_t *dropped,
                               size_t dropped_len, uint32_t *departed, size_t departed_len);

/*
 * Whether anyone's rows of a trace are permitted: `admitted` and `departed` have the packets that
 * somebody else's regulator admitted and let go in slots 1, 2, .., any numbers. U(t) and V(t) are
 * their totals by slot t, in 64 bits. The rules, in the order in which they are looked at in a slot
 * t:
 *
 *    1  arrivals: no more is admitted in the slot than arrives in it
 *    2  departures: V(t) is at most U(t)
 *    3  envelope: V(t) - V(t-k) is at most the table's entry for window k, for every k from 1 to L
 *       that is at most t; the closed envelope is then kept over every window
 *    4  buffer: U(t) - V(t-1) is at most the buffer limit, where there is one
 *    5  delay: U(t-d) is at most V(t), where there is a delay limit d and t is at least d; a
 *       deadline beyond the trace is none
 *
 * The rows of `bezhantiru_run` are always permitted. Where there is no delay limit d, or the trace
 * ends in at least d slots without arrivals, permitted rows have lost at least as much after every
 * slot.
 * Accepted: number 0, and rule 0 if no rule breaks in any slot; else the first slot in which one
 * does, and the first rule that does in it.
 * Refused: table, 6, 7, 23, 10, 11, 8 for the arrivals alone.
 */
bezhantiru_judgement bezhantiru_judge(const uint32_t *table, size_t table_len, uint32_t delay,
                                      uint32_t buffer, const uint32_t *arrivals,
                                      size_t arrivals_len, const uint32_t *admitted,
                                      size_t admitted_len, const uint32_t *departed,
                                      size_t departed_len);

/*
 * The certificate of our own run: for each slot t, why nobody could have admitted or let go more by
 * it. U(t) and V(t) are the totals admitted and departed by slot t, 0 at slot 0; f is the closed
 * envelope. Slot t has two links:
 *
 *    admitted: a first slot s, below t, and a mark. It holds where U(t) is U(s) plus the mark's
 *    amount: 1 arrivals, the packets arrived in slots s + 1 to t; 2 delay, f(t-s+d), usable where
 *    there is a delay limit d and t + d is at most the trace's length; 3 buffer, f(t-s-1) + q,
 *    usable where there is a buffer limit q
 *    departed: a first slot r, at most t. It holds where V(t) is U(r) + f(t-r)
 *
 * Among the usable admitted links that hold in a slot the earliest first slot is found, then the
 * lowest mark: `admitted_from` and `admitted_by` get them, and 0 and 0 where none holds.
 * `departed_from` gets the smallest r of the departed links that hold. An admitted link holds in
 * every slot whose deadline lies in the trace, and in every slot at all where there is no delay
 * limit d, or the trace ends in at least d slots without arrivals. Where some slot has none, a
 * later slot's links prove something only if admitted links lead from their first slots back to
 * slot 0. A trace without slots is accepted.
 * Accepted: 0, and every number of the three lists is written.
 * Refused: table, 6, 7, 23, 10, 11, 8. The number, and the lists are as they were.
 */
uint32_t bezhantiru_certify(const uint32_t *table, size_t table_len, uint32_t delay,
                            uint32_t buffer, const uint32_t *arrivals, size_t arrivals_len,
                            uint32_t *admitted_from, size_t admitted_from_len,
                            uint32_t *admitted_by, size_t admitted_by_len,
                            uint32_t *departed_from, size_t departed_from_len);

/*
 * Whether anyone's rows and links of a trace, any numbers, are certified: the rows are permitted,
 * as `bezhantiru_judge` has it, and both links of every slot hold, as `bezhantiru_certify` has
 * them, however they were found. Then no permitted rows, of anyone, have admitted or let go more or
 * lost fewer packets by any slot, whatever the trace ends in.
 * Accepted: number 0, and rule 0 where they are certified; else what `bezhantiru_judge` says of
 * rows that break a rule, 1 to 5; else the first slot in which a link does not hold: 6 for the
 * admitted link (s is not below t, the mark not usable, or U(t) not U(s) plus the amount) before 7
 * for the departed one (r is above t, or V(t) not U(r) + f(t-r)), and window 0.
 * Refused: table, 6, 7, 23, 10, 11 for any of the five lists, 8 for the arrivals alone.
 */
bezhantiru_judgement bezhantiru_check_certificate(
    const uint32_t *table, size_t table_len, uint32_t delay, uint32_t buffer,
    const uint32_t *arrivals, size_t arrivals_len, const uint32_t *admitted, size_t admitted_len,
    const uint32_t *departed, size_t departed_len, const uint32_t *admitted_from,
    size_t admitted_from_len, const uint32_t *admitted_by, size_t admitted_by_len,
    const uint32_t *departed_from, size_t departed_from_len);

/*
 * The closed envelope of a table at one window: the least sum of table entries whose windows add
 * up to it, and 0 at window 0; and its first piece, the smallest k from 1 to L, not above the
 * window, for which the table's entry at k plus the closed envelope at the remaining window is that
 * sum, and 0 at window 0. The first pieces of the window, of what then remains, and so on are such
 * windows.
 * Accepted: number 0, the piece and the packets.
 * Refused: table, 5. Piece and count are then 0.
 */
bezhantiru_bound bezhantiru_envelope(const uint32_t *table, size_t table_len, uint32_t window);

/*
 * The part of a stream file that holds its counts, one for each burst, in 4 bytes each, least
 * significant byte first. The file is a pointer to its first byte and its length in bytes.
 * Accepted: number 0, and the part. It ends where the file ends.
 * Refused: 12, 1, 10, 13, 2, then the entries as in "table", 6, 7, 14 over all bursts, 8 over all
 * counts. The part is then the empty one at the file's start. A file whose limits are both none is
 * accepted, though no set-up takes them.
 */
bezhantiru_part bezhantiru_counts_part(const uint8_t *file, size_t file_len);

#ifdef __cplusplus
}
#endif

#endif

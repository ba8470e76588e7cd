/* The card from C: three functions over cells that the caller lends.
 *
 * Each returns 0, or the number of a refusal; a refusal changes nothing. A seat
 * of fewer than COMBLATTICE_SEAT cells is refusal 7, before all else.
 *
 * The caller owes what no function can check: no pointer is null, even where
 * its length is 0; each points to as many elements as its length says; what is
 * written, seat, room and left, overlaps nothing else that is handed over; the
 * paper handed to comblattice_run is the one that the seat was opened with, as
 * its selection file is read there. */
#ifndef COMBLATTICE_H
#define COMBLATTICE_H

#include <stddef.h>
#include <stdint.h>

/* The cells of a card. What stands behind them in a longer seat stays. A card
 * is copied by copying them; any cells at all are read as some card. */
#define COMBLATTICE_SEAT 268

/* The bytes of an answer: refusal (1), CID (1), ATC (2, high byte first), IAD
 * (32); those not given are 0. */
#define COMBLATTICE_ANSWER 36

#ifdef __cplusplus
extern "C" {
#endif

/* Reads a paper's set-up and seats its fresh card. What stands behind the
 * set-up is not run: send it as a run.
 * 0; 1 the set-up is refused; 9 the paper has none that can be read. */
uint8_t comblattice_open(const uint8_t *paper, size_t paper_bytes,
                         uint64_t *seat, size_t seat_cells);

/* Answers records as they stand in a paper, none at all too, on the card in
 * the seat: answer i in COMBLATTICE_ANSWER bytes from room + i *
 * COMBLATTICE_ANSWER on. A refused command takes its place among them, and the
 * run goes on. The room behind the last answer stays.
 * 0; 9 it is not made of records that can be read; 17 the room is too small for
 * every answer. */
uint8_t comblattice_run(const uint8_t *paper, size_t paper_bytes,
                        uint64_t *seat, size_t seat_cells,
                        const uint8_t *records, size_t records_bytes,
                        uint8_t *room, size_t room_bytes);

/* What can still be spent offline on an accumulator, 1 to 4, in a profile, by
 * its number.
 * 0; 3 the set-up has no such profile; 6 no such accumulator. */
uint8_t comblattice_room(const uint64_t *seat, size_t seat_cells,
                         uint8_t profile, uint8_t accumulator, uint64_t *left);

#ifdef __cplusplus
}
#endif

#endif

/* plimdrong.h: recorded executions ("sheets") judged against the ECMAScript memory model, and sheets written, for C and
 * C++.
 *
 * plimdrong_judge takes a sheet and two lent buffers; plimdrong_check takes a sheet and a lent list of event numbers;
 * plimdrong_why takes a sheet and two lent buffers, and says why its events have no order; plimdrong_write makes a sheet
 * of a lent table, plimdrong_table a table of a sheet. Each answers with a 64-bit word, allocates nothing, keeps nothing
 * between calls, and gives every input an answer. Calls with buffers of their own may run side by side.
 *
 *   uint8_t scratch[PLIMDRONG_MAX_SCRATCH], order[PLIMDRONG_MAX_EVENTS];
 *   uint64_t word = plimdrong_judge(sheet, length, scratch, sizeof scratch, order, sizeof order);
 *   switch (PLIMDRONG_KIND(word)) {
 *   case PLIMDRONG_REFUSED:    number PLIMDRONG_NUMBER(word) at byte PLIMDRONG_PLACE(word) of the sheet
 *   case PLIMDRONG_BROKEN:     rule PLIMDRONG_NUMBER(word), events PLIMDRONG_NAME(word, 0) to (word, 3)
 *   case PLIMDRONG_CONSISTENT: the order stands in order[0], order[1], ..
 *   }
 *
 * Link with libplimdrong.a (harness/native.sh writes target/native/libplimdrong.a for the machine at hand).
 *
 * THE WORD. Kind (1, 2, 3; 6 and 7 for lists, 8 for bars, 5 and 14 for tables, below) times 2^40, plus number times
 * 2^32, plus 32 bits: the place for a refusal, else four names as bytes, the first most significant, PLIMDRONG_NONE where
 * there is none. Bits 48 and up are zero today and will carry more: take a word apart with the macros, which mask kind and
 * number to eight bits each.
 *
 * REFUSED, kind 1: the sheet is not well-formed or a buffer is too short. Both buffers are unchanged.
 *    1 sheet over 4,096 bytes                        place 0
 *    2 field cut short                               the field's tag
 *    3 tag unknown, falling, a second head, no head; the empty sheet      its tag, or 0
 *    4 length wrong for the field                    the field's tag
 *    5, 6, 7, 8 content of head, event, row, pair    the field's tag   (6: an edition 2 event's tear byte too)
 *    9 fifth init, 19th other event, 33rd pair       the field's tag
 *   10 no event reads                                the sheet's length
 *   14 an agent that the head promises has no event  the sheet's length
 *   11 a read byte without a row                     the tag of the lowest such event
 *   12 scratch too short, 13 order buffer too short  0
 * 10, 14, 11, 12 and 13 are tested in this order, after all fields.
 *
 * BROKEN, kind 2: the execution breaks a rule. The scratch's needed part is zero, all else unchanged.
 *   21 the byte seen differs from the byte its writer wrote             R W - A
 *   22 an event happens before itself                                   E - - -
 *   23 in a row, R happens before W                                     R W - A
 *   24 in a row, a writing V covers A, W happens before V and V before R    R W V A
 *   25 R, W, V tear-free with equal ranges, and R has rows from both    R W V -
 *   26 no total order meets the rules                                   - - - -
 *
 * CONSISTENT, kind 3: the memory model allows the execution. Number 0: orderly, all names none. Number 1: not orderly,
 * the first two names are the lowest unsettled pair. The scratch's needed part is zero. The order buffer's first bytes,
 * one for each event, hold the first order that meets the rules; its rest is unchanged. The word does not carry the
 * number of events: fill the buffer with PLIMDRONG_NONE before the call, and the order ends at the first PLIMDRONG_NONE,
 * since no event has that number, or at the buffer's end: 22 events in 22 bytes leave none.
 *
 * THE SCRATCH needs, with n events that are not inits, the larger of 1 and 2^n / 8 bytes; what it holds on entry does
 * not matter. The buffers overlap neither each other nor the sheet. A length may be 0; no pointer may be null.
 *
 * plimdrong_check takes an order of the events, such as an engine's own log gives: a list of bytes, an event number each.
 * There is no scratch and no order buffer, and nothing is written.
 *   PLIMDRONG_REFUSED, kind 1, 1 to 11 or 14, and PLIMDRONG_BROKEN, kind 2, 21 to 25: what plimdrong_judge answers for the
 *     sheet. The list is not looked at then. 12, 13 and 26 never come.
 *   PLIMDRONG_ACCEPTED, kind 6, the rest 0: the list names every event once, and its order meets the rules. The memory
 *     model allows the execution. Every order that plimdrong_judge gives is accepted.
 *   PLIMDRONG_NOT_ACCEPTED, kind 7: the number is that of the first fault, each tested over the whole list, or all rows,
 *     before the next. An index counts from 0.
 *       1 PLIMDRONG_LIST_LENGTH  There are not as many numbers as events. PLIMDRONG_LENGTH(word) is the list's length,
 *                                2^32 - 1 for a longer list.
 *       2 PLIMDRONG_LIST_NUMBER  A number is out of range or repeated. PLIMDRONG_INDEX(word) is its index in the list, of
 *                                a repeated one the second.
 *       3 PLIMDRONG_LIST_EARLY   An event stands before one that happens before it. PLIMDRONG_INDEX(word) is the index of
 *                                the event that stands too early.
 *       4 PLIMDRONG_LIST_BARRED  In a row, a writing sc event V stands after W and before R, where the rules bar it. The
 *                                names are R W V A, as for 24: of the first such row the lowest V.
 *
 * plimdrong_why says of a sheet that is broken by 26 which bars leave no order. A bar is three different events R, W, V
 * that may not stand as W, V, R: R read a byte from W, V is an sc write, and one of these holds:
 *   (a) R and W are sc, and all three have the same range
 *   (b) W and V happen before R, W is sc, and W and V have the same range
 *   (c) W happens before R and before V, R is sc, and V and R have the same range
 * All bars are listed once each, rising by R, W, V; from the first on a bar is dropped if those that remain still leave
 * no order, else kept. So the kept bars leave no order, and without any one of them some order meets the others.
 *
 *   uint8_t scratch[PLIMDRONG_MAX_SCRATCH], bars[PLIMDRONG_MAX_BARS];
 *   uint64_t word = plimdrong_why(sheet, length, scratch, sizeof scratch, bars, sizeof bars);
 *   if (PLIMDRONG_KIND(word) == PLIMDRONG_KEPT)
 *       for (uint32_t i = 0; i < PLIMDRONG_BARS(word); i++)
 *           R is bars[3 * i], W is bars[3 * i + 1], V is bars[3 * i + 2]
 *
 *   PLIMDRONG_KEPT, kind 8, number 26: PLIMDRONG_BARS(word) bars are kept, and `bars` begins with them, three bytes each;
 *     the bytes behind them are unchanged. It comes where plimdrong_judge answers 26, which never comes here.
 *   PLIMDRONG_REFUSED, kind 1, PLIMDRONG_BROKEN, kind 2, 21 to 25, and PLIMDRONG_CONSISTENT, kind 3: what plimdrong_judge
 *     answers for the sheet, without an order; there is no order buffer, so 13 never comes. 12 at 0: the scratch is too
 *     short; it is tested after 11, before the sheet is judged. 16 at 0: `bars` has fewer than three bytes for each kept
 *     bar; PLIMDRONG_MAX_BARS bytes always do. With all of these `bars` is unchanged.
 *   The scratch is plimdrong_judge's. Its needed part is zero after kinds 2, 3 and 8 and after 16; after every other
 *     refusal it is unchanged, and its rest always.
 *
 * EDITIONS. A sheet is of edition 1 or 2: its fourth byte says which, any other number is refused 5. At edition 2 each
 * event has a tear byte before its data, 0 may tear, 1 tear-free; rule 25 goes by it. At edition 1 there is none, and an
 * unordered event of width 1, 2 or 4 whose start is divisible by its width is taken for tear-free. All else is the same,
 * and so are all sizes below.
 * Which to record with: edition 2 says every execution. The tear byte is
 *   1 for accesses by Atomics (they are sc), and for unordered ones through Int8Array, Uint8Array, Int16Array,
 *     Uint16Array, Int32Array, Uint32Array
 *   0 for unordered ones through Float32Array, Float64Array, Uint8ClampedArray, BigInt64Array, BigUint64Array, for every
 *     one through a DataView, for inits and for markers.
 * Edition 1 is for integer typed arrays only: it is right where all unordered accesses went through them. Of float and
 * DataView accesses it says nothing, and may answer 25 where ECMA-262 allows what was seen.
 *
 * THE WRITER'S TABLE: what a sheet says, as five byte slices.
 *   head     edition, agents, memory size. What a shorter slice lacks counts as 0; a longer one's rest is not looked at.
 *   events   8 bytes each: agent, kind, mode, start, width, tear, and the number of its data bytes, the most significant
 *            byte first. Tear is 1 where the event is tear-free and 0 where it may tear (6 otherwise):
 *                                                                             at edition 1     at edition 2
 *              sc reads, writes and read-modify-writes                        1                1
 *              unordered ones of width 1, 2 or 4, start divisible by it       1                0 or 1
 *              all else, inits and markers among it                           0                0
 *            At edition 2 it stands in the sheet, at edition 1 it does not.
 *   data     the data bytes of all events, one event after another. An event whose bytes are not all there has those
 *            that are. Bytes behind the last event's are not looked at.
 *   rows     3 bytes each: reader, address, writer.
 *   pairs    2 bytes each: marker, marker.
 * A rest that is shorter than an entry is none.
 *
 * plimdrong_write fills `out` with the sheet of a table.
 *   PLIMDRONG_WRITTEN, kind 5, number 0: the first PLIMDRONG_LENGTH(word) bytes of `out` are the sheet, the bytes behind
 *     it are unchanged. PLIMDRONG_MAX_SHEET bytes are enough for every sheet.
 *   PLIMDRONG_REFUSED, kind 1: `out` is unchanged. The number is the one by which the sheet would be refused, 1, 4 to 11
 *     or 14, in the order above. PLIMDRONG_PLACE(word) is no place in a sheet but an index in a list: of events for 4, 6,
 *     9 and 11, of rows for 7, of pairs for 8 and 9; 0 for 1, 5, 10 and 14. (Of 9 it is 32 for a pair, less for an event.)
 *     Then 15 at 0: `out` is shorter than the sheet.
 *
 * plimdrong_table is the other way: it fills five buffers with the table of a sheet.
 *   PLIMDRONG_TABLE, kind 14: PLIMDRONG_TABLE_EVENTS(word) events with PLIMDRONG_TABLE_DATA(word) data bytes in all,
 *     PLIMDRONG_TABLE_ROWS(word) rows, PLIMDRONG_TABLE_PAIRS(word) pairs. Each buffer holds its list from its front on
 *     (the head 3 bytes, an event 8, a row 3, a pair 2), the bytes behind it are unchanged.
 *   PLIMDRONG_REFUSED, kind 1: all five buffers are unchanged. The number and the place are those by which
 *     plimdrong_judge refuses the sheet, 1 to 11 and 14. Then 15: a buffer is too short, and PLIMDRONG_PLACE(word) says
 *     which is the first such: 0 head, 1 events, 2 data, 3 rows, 4 pairs.
 * The tear bytes are the sheet's at edition 2, and as the table above has them at edition 1. What is written from that
 * table is the sheet again, and the table of a written sheet is the table that was lent. A table of an edition 1 sheet
 * becomes one of edition 2 when its head's first byte is made 2.
 */
#ifndef PLIMDRONG_H
#define PLIMDRONG_H

#include <stddef.h>
#include <stdint.h>

/* The longest sheet; scratch and order buffer enough for every sheet. */
#define PLIMDRONG_MAX_SHEET 4096
#define PLIMDRONG_MAX_SCRATCH 32768
#define PLIMDRONG_MAX_EVENTS 22

/* Bytes enough for the kept bars of every sheet: with them plimdrong_why never answers 16. */
#define PLIMDRONG_MAX_BARS 31944

/* Other limits of a sheet: inits, events that are no inits, pairs, bytes of memory, the width of what is no init. */
#define PLIMDRONG_MAX_INITS 4
#define PLIMDRONG_MAX_OTHERS 18
#define PLIMDRONG_MAX_PAIRS 32
#define PLIMDRONG_MAX_MEMORY 64
#define PLIMDRONG_MAX_WIDTH 8

/* Bytes enough for the table of every sheet, by these limits: with them plimdrong_table never answers 15. */
#define PLIMDRONG_MAX_TABLE_HEAD 3
#define PLIMDRONG_MAX_TABLE_EVENTS (8 * PLIMDRONG_MAX_EVENTS)
#define PLIMDRONG_MAX_TABLE_DATA \
    (PLIMDRONG_MAX_INITS * PLIMDRONG_MAX_MEMORY + PLIMDRONG_MAX_OTHERS * 2 * PLIMDRONG_MAX_WIDTH)
#define PLIMDRONG_MAX_TABLE_ROWS (3 * PLIMDRONG_MAX_OTHERS * PLIMDRONG_MAX_WIDTH)
#define PLIMDRONG_MAX_TABLE_PAIRS (2 * PLIMDRONG_MAX_PAIRS)

/* Kinds of answer. */
#define PLIMDRONG_REFUSED 1
#define PLIMDRONG_BROKEN 2
#define PLIMDRONG_CONSISTENT 3
#define PLIMDRONG_WRITTEN 5
#define PLIMDRONG_ACCEPTED 6
#define PLIMDRONG_NOT_ACCEPTED 7
#define PLIMDRONG_KEPT 8
#define PLIMDRONG_TABLE 14

/* Numbers of a consistent answer. */
#define PLIMDRONG_ORDERLY 0
#define PLIMDRONG_UNSETTLED 1

/* Numbers of a list that is not accepted. */
#define PLIMDRONG_LIST_LENGTH 1
#define PLIMDRONG_LIST_NUMBER 2
#define PLIMDRONG_LIST_EARLY 3
#define PLIMDRONG_LIST_BARRED 4

/* A name that is not there. */
#define PLIMDRONG_NONE 255

/* Parts of the word, which alone tell the answer (crates/answer/specs/Read.antt); a name's index is 0 to 3. */
#define PLIMDRONG_KIND(word) ((unsigned)((word) >> 40 & 255))
#define PLIMDRONG_NUMBER(word) ((unsigned)((word) >> 32 & 255))
#define PLIMDRONG_PLACE(word) ((uint32_t)((word) & 0xffffffffu))
#define PLIMDRONG_NAME(word, index) ((unsigned)((word) >> (24 - 8 * (index)) & 255))

/* The length of a written sheet, or of a list; an index in a list; how many bars are kept; how many entries and data
 * bytes a table has. */
#define PLIMDRONG_LENGTH(word) ((uint32_t)((word) & 0xffffffffu))
#define PLIMDRONG_INDEX(word) ((uint32_t)((word) & 0xffffffffu))
#define PLIMDRONG_BARS(word) ((uint32_t)((word) & 0xffffffffu))
#define PLIMDRONG_TABLE_EVENTS(word) ((unsigned)((word) >> 32 & 255))
#define PLIMDRONG_TABLE_PAIRS(word) ((unsigned)((word) >> 24 & 255))
#define PLIMDRONG_TABLE_ROWS(word) ((unsigned)((word) >> 12 & 4095))
#define PLIMDRONG_TABLE_DATA(word) ((unsigned)((word) & 4095))

#ifdef __cplusplus
extern "C" {
#endif

uint64_t plimdrong_judge(const uint8_t *sheet, size_t sheet_len, uint8_t *scratch, size_t scratch_len, uint8_t *order,
                         size_t order_len);

uint64_t plimdrong_check(const uint8_t *sheet, size_t sheet_len, const uint8_t *list, size_t list_len);

uint64_t plimdrong_why(const uint8_t *sheet, size_t sheet_len, uint8_t *scratch, size_t scratch_len, uint8_t *bars,
                       size_t bars_len);

uint64_t plimdrong_write(const uint8_t *head, size_t head_len, const uint8_t *events, size_t events_len,
                         const uint8_t *data, size_t data_len, const uint8_t *rows, size_t rows_len,
                         const uint8_t *pairs, size_t pairs_len, uint8_t *out, size_t out_len);

uint64_t plimdrong_table(const uint8_t *sheet, size_t sheet_len, uint8_t *head, size_t head_len, uint8_t *events,
                         size_t events_len, uint8_t *data, size_t data_len, uint8_t *rows, size_t rows_len,
                         uint8_t *pairs, size_t pairs_len);

#ifdef __cplusplus
}
#endif

#endif

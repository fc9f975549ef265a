/* Numgalis: a log-structured logical disk on a memory card that is stored byte by byte.
 *
 * Numbered lists of numbered blocks of 256 bytes, changed one at a time or in atomic recovery units. If the
 * power drops between any two stored bytes, mounting gives the state after the longest prefix of the history
 * that is on the card: a unit is there whole or not at all. The code is proved; this header only names it.
 * docs/SCOPE.md says what the words mean, docs/FORMAT.md what is on a card, docs/CALLS.md what each call asks.
 *
 * What is lent
 *
 *   The caller makes four things once, hands them to each call, and leaves them alone in between:
 *
 *     card      1 to 64 segments of 4,096 bytes: the card itself, or a copy of it in memory
 *     queue     8,192 bytes: the contents of writes that are on their way to the card
 *     journals  15,360 bytes: the contents of writes in units that have not ended
 *     record    573 bytes: all that the disk knows and the card does not say yet
 *
 *   numgalis_format and numgalis_mount set the record anew, whatever it held. Every other call needs the
 *   record, queue and journals that the last call left, with the card that they belong to. They need not
 *   outlive the power.
 *
 *   What is lent is lent for the time of the call. The library keeps no pointer and no variable from one call
 *   to the next, allocates nothing, and needs memcpy and memset of the C library alone.
 *
 * What a call may be given
 *
 *   Whatever bytes, numbers and lengths come, a call returns, and reaches nothing but what it was lent.
 *   Numbers are never cut: 257 is out of range, not 1. This much is asked of the caller:
 *
 *   - No pointer is null, also where its length is 0. Each points to as many bytes or words as are said.
 *   - Nothing lent overlaps anything else that is lent to the same call; out-parameters are lent too.
 *   - size_t * and uint32_t * are aligned. The others need not be.
 *   - Calls on one disk are made one at a time. Calls on different disks need not wait for each other.
 *
 * What a call answers
 *
 *   It asks its questions in order and returns 0, or the number of the first one answered no. The comment of
 *   each call lists them in this order. A refused call has changed nothing of what it was lent. One refusal
 *   alone changes something, NUMGALIS_CONFLICT (12): numgalis_end then closes its unit and counts.
 *
 *   Out-parameters are always set: by a refused call to 0, but for the place of a fault, which numgalis_mount
 *   gives with NUMGALIS_LOG_FAULT.
 *
 * Streams and views
 *
 *   A change comes on a stream: 0, where it joins the queue, or the number of an open unit, 1 to 4, where it
 *   joins the unit's journal. It is judged in the view of the same number. View 0 is the committed state, 1 to
 *   4 are those of the open units, and 5 is the persistent state: what mounting the card would give. Only a
 *   flush brings changes to the card.
 *
 * For x86-64, System V ABI. tests/header holds this file to the sources.
 */
#ifndef NUMGALIS_H
#define NUMGALIS_H

#include <stddef.h>
#include <stdint.h>

#ifdef __cplusplus
extern "C" {
#endif

#define NUMGALIS_VERSION "0.1.0"

/* Lengths in bytes. */
#define NUMGALIS_RECORD 573
#define NUMGALIS_SEGMENT 4096   /* a card has 1 to NUMGALIS_SEGMENTS of them */
#define NUMGALIS_QUEUE 8192
#define NUMGALIS_JOURNALS 15360
#define NUMGALIS_BLOCK 256      /* what a write is lent, and a read */
#define NUMGALIS_INVENTORY 16
#define NUMGALIS_PAGE 861       /* the longest page */

/* Words of the longest list of a flush's stores. */
#define NUMGALIS_FLUSH_STORES 8352

/* Largest numbers; each but the race and the allowance begins at 1. */
#define NUMGALIS_SEGMENTS 64
#define NUMGALIS_BLOCKS 64
#define NUMGALIS_LISTS 16
#define NUMGALIS_UNITS 4
#define NUMGALIS_WINDOWS 16
#define NUMGALIS_RACES 24       /* race 0: none */
#define NUMGALIS_ALLOWANCE 65535
#define NUMGALIS_CONFLICTS 65535 /* where a window's conflict count stops */

/* Entries that the queue takes, and the journal of a unit. */
#define NUMGALIS_QUEUE_ENTRIES 32
#define NUMGALIS_JOURNAL_ENTRIES 15

/* The views that are no unit's. */
#define NUMGALIS_COMMITTED 0
#define NUMGALIS_PERSISTENT 5

/* What a call returns. */
enum {
	NUMGALIS_OK = 0,
	NUMGALIS_WRONG_LENGTH = 1,          /* card, queue or journals have a wrong length */
	NUMGALIS_LOG_FAULT = 2,             /* the card's log has a fault */
	NUMGALIS_RECORD_UNSOUND = 3,        /* the record is not one that goes with this card */
	NUMGALIS_STREAM_CLOSED = 4,         /* the stream, view or unit is not open, or there is none of that number */
	NUMGALIS_OUT_OF_RANGE = 5,          /* a number is out of range, or content or destination have a wrong length */
	NUMGALIS_UNIT_OPEN = 6,             /* the unit is open already */
	NUMGALIS_LIST_NOT_TAKEN = 7,        /* the list is not taken in the view */
	NUMGALIS_BLOCK_NOT_PLACED = 8,      /* the block is on no list in the view */
	NUMGALIS_PREDECESSOR_ELSEWHERE = 9, /* the predecessor is not on that list */
	NUMGALIS_NO_NUMBER_FREE = 10,       /* every number is in use */
	NUMGALIS_JOURNAL_FULL = 11,         /* the unit's journal has 15 entries */
	NUMGALIS_CONFLICT = 12,             /* a change of the unit does not apply: the unit is closed */
	NUMGALIS_QUEUE_FULL = 13,           /* the queue has no room for what is added */
	NUMGALIS_BUFFER_TOO_SHORT = 14,     /* the buffer is shorter than the page */
	NUMGALIS_UNWRITTEN = 15             /* the block was not written since it was put on its list */
};

/* How a flush ended. */
enum {
	NUMGALIS_DRAINED = 0, /* the queue is empty */
	NUMGALIS_FULL = 1,    /* the card has no place for the next entry */
	NUMGALIS_SPENT = 2    /* the allowance is used up */
};

/* In every call WRONG_LENGTH means: card_len is not 1 to 64 times 4,096, queue_len not 8,192 or journals_len
 * not 15,360. RECORD_UNSOUND means: the record does not go with this card and this queue (docs/SCOPE.md,
 * question 3). */

/* ---- The card ---- */

/* Formatting: the card becomes an empty log.
 *
 * card      0 in each segment's count byte, the last segment's first; no other byte changes
 * record    set anew: queue empty, units closed, all numbers free, ascending, every conflict count 0
 *
 *   NUMGALIS_WRONG_LENGTH           as said above
 */
size_t numgalis_format(
	uint8_t *card, size_t card_len,
	const uint8_t *queue, size_t queue_len,
	const uint8_t *journals, size_t journals_len,
	uint8_t *record);

/* Mounting: the card's log is walked, and the record begins on it. The first call after the power came back.
 *
 * record    set anew, as by formatting, but free are the numbers that the log leaves free, in the order it freed them
 * segment, entry   0, or with LOG_FAULT the place of the first fault, both from 0
 *
 *   NUMGALIS_WRONG_LENGTH           as said above
 *   NUMGALIS_LOG_FAULT              an entry is not legal or lacks what it needs, or a segment in use is behind an
 *                                   empty one
 */
size_t numgalis_mount(
	const uint8_t *card, size_t card_len,
	const uint8_t *queue, size_t queue_len,
	const uint8_t *journals, size_t journals_len,
	uint8_t *record,
	size_t *segment, size_t *entry);

/* Flush: the queue is stored on the card, byte by byte in its order, at most allowance stores. It may stop
 * inside an entry; the next flush goes on there. A power cut after k of its stores leaves the card that an
 * allowance of k leaves.
 *
 * card      the stores, each of one byte; no other byte changes
 * record    entries whose last store is made have left the queue
 * stores    how many stores were made
 * ending    NUMGALIS_DRAINED, NUMGALIS_FULL or NUMGALIS_SPENT, asked in this order
 *
 *   NUMGALIS_WRONG_LENGTH           as said above
 *   NUMGALIS_RECORD_UNSOUND         as said above
 *   NUMGALIS_OUT_OF_RANGE           allowance is above 65,535
 */
size_t numgalis_flush(
	uint8_t *card, size_t card_len,
	const uint8_t *queue, size_t queue_len,
	const uint8_t *journals, size_t journals_len,
	uint8_t *record,
	size_t allowance,
	size_t *stores, size_t *ending);

/* ---- Changes, on a stream ---- */

/* A list is taken. In a unit only the unit's view has it until the unit ends.
 *
 * record    the taking joins the queue or the journal
 * list      the list's number, 1 to 16: the one that has been free longest
 *
 *   NUMGALIS_WRONG_LENGTH           as said above
 *   NUMGALIS_RECORD_UNSOUND         as said above
 *   NUMGALIS_STREAM_CLOSED          stream is neither 0 nor an open unit
 *   NUMGALIS_NO_NUMBER_FREE         all 16 lists are taken, or held by units
 *   NUMGALIS_JOURNAL_FULL           in a unit: its journal has 15 entries
 *   NUMGALIS_QUEUE_FULL             on stream 0: the queue has 32 entries
 */
size_t numgalis_new_list(
	const uint8_t *card, size_t card_len,
	const uint8_t *queue, size_t queue_len,
	const uint8_t *journals, size_t journals_len,
	uint8_t *record,
	size_t stream,
	size_t *list);

/* A block is put on a list, behind the block predecessor, or first if that is 0. It is unwritten until it is
 * written.
 *
 * record    the put joins the queue or the journal
 * block     the block's number, 1 to 64: the one that has been free longest
 *
 *   NUMGALIS_WRONG_LENGTH           as said above
 *   NUMGALIS_RECORD_UNSOUND         as said above
 *   NUMGALIS_STREAM_CLOSED          stream is neither 0 nor an open unit
 *   NUMGALIS_OUT_OF_RANGE           list is not 1 to 16, or predecessor is above 64
 *   NUMGALIS_LIST_NOT_TAKEN         the list is not taken in the stream's view
 *   NUMGALIS_PREDECESSOR_ELSEWHERE  predecessor is neither 0 nor on that list
 *   NUMGALIS_NO_NUMBER_FREE         all 64 blocks are on lists, or held by units
 *   NUMGALIS_JOURNAL_FULL           in a unit: its journal has 15 entries
 *   NUMGALIS_QUEUE_FULL             on stream 0: the queue has 32 entries
 */
size_t numgalis_new_block(
	const uint8_t *card, size_t card_len,
	const uint8_t *queue, size_t queue_len,
	const uint8_t *journals, size_t journals_len,
	uint8_t *record,
	size_t stream, size_t list, size_t predecessor,
	size_t *block);

/* A block gets 256 bytes, for a race, 1 to 24, or for none, 0. A write of zeros counts as written.
 *
 * queue     on stream 0 the 256 bytes at the place of the entry; no other byte changes
 * journals  in a unit the 256 bytes at the place of the entry; no other byte changes
 * record    the write joins the queue or the journal
 *
 *   NUMGALIS_WRONG_LENGTH           as said above
 *   NUMGALIS_RECORD_UNSOUND         as said above
 *   NUMGALIS_STREAM_CLOSED          stream is neither 0 nor an open unit
 *   NUMGALIS_OUT_OF_RANGE           block is not 1 to 64, race is above 24, or content_len is not 256
 *   NUMGALIS_BLOCK_NOT_PLACED       the block is on no list in the stream's view
 *   NUMGALIS_JOURNAL_FULL           in a unit: its journal has 15 entries
 *   NUMGALIS_QUEUE_FULL             on stream 0: the queue has 32 entries
 */
size_t numgalis_write(
	const uint8_t *card, size_t card_len,
	uint8_t *queue, size_t queue_len,
	uint8_t *journals, size_t journals_len,
	uint8_t *record,
	size_t stream, size_t block, size_t race,
	const uint8_t *content, size_t content_len);

/* A block is taken off its list.
 *
 * record    the deletion joins the queue or the journal
 *
 *   NUMGALIS_WRONG_LENGTH           as said above
 *   NUMGALIS_RECORD_UNSOUND         as said above
 *   NUMGALIS_STREAM_CLOSED          stream is neither 0 nor an open unit
 *   NUMGALIS_OUT_OF_RANGE           block is not 1 to 64
 *   NUMGALIS_BLOCK_NOT_PLACED       the block is on no list in the stream's view
 *   NUMGALIS_JOURNAL_FULL           in a unit: its journal has 15 entries
 *   NUMGALIS_QUEUE_FULL             on stream 0: the queue has 32 entries
 */
size_t numgalis_delete_block(
	const uint8_t *card, size_t card_len,
	const uint8_t *queue, size_t queue_len,
	const uint8_t *journals, size_t journals_len,
	uint8_t *record,
	size_t stream, size_t block);

/* A list goes, and its blocks with it.
 *
 * record    the deletion joins the queue or the journal
 *
 *   NUMGALIS_WRONG_LENGTH           as said above
 *   NUMGALIS_RECORD_UNSOUND         as said above
 *   NUMGALIS_STREAM_CLOSED          stream is neither 0 nor an open unit
 *   NUMGALIS_OUT_OF_RANGE           list is not 1 to 16
 *   NUMGALIS_LIST_NOT_TAKEN         the list is not taken in the stream's view
 *   NUMGALIS_JOURNAL_FULL           in a unit: its journal has 15 entries
 *   NUMGALIS_QUEUE_FULL             on stream 0: the queue has 32 entries
 */
size_t numgalis_delete_list(
	const uint8_t *card, size_t card_len,
	const uint8_t *queue, size_t queue_len,
	const uint8_t *journals, size_t journals_len,
	uint8_t *record,
	size_t stream, size_t list);

/* ---- Units ---- */

/* A unit is opened for a window, which is charged if the unit's end is a conflict. Units may share a window.
 *
 * record    the unit is open for that window, its journal empty
 *
 *   NUMGALIS_WRONG_LENGTH           as said above
 *   NUMGALIS_RECORD_UNSOUND         as said above
 *   NUMGALIS_STREAM_CLOSED          unit is not 1 to 4
 *   NUMGALIS_OUT_OF_RANGE           window is not 1 to 16
 *   NUMGALIS_UNIT_OPEN              the unit is open already
 */
size_t numgalis_begin(
	const uint8_t *card, size_t card_len,
	const uint8_t *queue, size_t queue_len,
	const uint8_t *journals, size_t journals_len,
	uint8_t *record,
	size_t unit, size_t window);

/* A unit ends: its changes join the queue as one, or not at all.
 *
 * queue     the contents of the unit's writes, each at the place of its entry; no other byte changes
 * record    the journal's entries and a commit join the queue, and the unit is closed
 *
 *   NUMGALIS_WRONG_LENGTH           as said above
 *   NUMGALIS_RECORD_UNSOUND         as said above
 *   NUMGALIS_STREAM_CLOSED          unit is not 1 to 4, or not open
 *   NUMGALIS_CONFLICT               a change of the unit does not apply to the committed state. The record changes:
 *                                   the unit is closed, its journal gone, its window's conflict count one higher
 *   NUMGALIS_QUEUE_FULL             the queue has no room for the journal and a commit; the unit stays open
 */
size_t numgalis_end(
	const uint8_t *card, size_t card_len,
	uint8_t *queue, size_t queue_len,
	const uint8_t *journals, size_t journals_len,
	uint8_t *record,
	size_t unit);

/* ---- Look-ups, in a view; they change the destination alone ---- */

/* The content of a block, and the race that it was written for.
 *
 * dest      the block's 256 bytes
 * race      1 to 24, or 0 for none
 *
 *   NUMGALIS_WRONG_LENGTH           as said above
 *   NUMGALIS_RECORD_UNSOUND         as said above
 *   NUMGALIS_STREAM_CLOSED          view is neither 0, nor an open unit, nor 5
 *   NUMGALIS_OUT_OF_RANGE           block is not 1 to 64, or dest_len is not 256
 *   NUMGALIS_BLOCK_NOT_PLACED       the block is on no list in the view
 *   NUMGALIS_UNWRITTEN              the block was not written, in the view, since it was put on its list
 */
size_t numgalis_read(
	const uint8_t *card, size_t card_len,
	const uint8_t *queue, size_t queue_len,
	const uint8_t *journals, size_t journals_len,
	const uint8_t *record,
	size_t view, size_t block,
	uint8_t *dest, size_t dest_len,
	size_t *race);

/* The block behind another on a list.
 *
 * block     the block behind predecessor, or the list's first if that is 0; 0 at the end
 *
 *   NUMGALIS_WRONG_LENGTH           as said above
 *   NUMGALIS_RECORD_UNSOUND         as said above
 *   NUMGALIS_STREAM_CLOSED          view is neither 0, nor an open unit, nor 5
 *   NUMGALIS_OUT_OF_RANGE           list is not 1 to 16, or predecessor is above 64
 *   NUMGALIS_LIST_NOT_TAKEN         the list is not taken in the view
 *   NUMGALIS_PREDECESSOR_ELSEWHERE  predecessor is neither 0 nor on that list
 */
size_t numgalis_next(
	const uint8_t *card, size_t card_len,
	const uint8_t *queue, size_t queue_len,
	const uint8_t *journals, size_t journals_len,
	const uint8_t *record,
	size_t view, size_t list, size_t predecessor,
	size_t *block);

/* The lists taken, the one taken earliest first.
 *
 * dest      so many first bytes are the lists' numbers; the others do not change
 * count     how many lists
 *
 *   NUMGALIS_WRONG_LENGTH           as said above
 *   NUMGALIS_RECORD_UNSOUND         as said above
 *   NUMGALIS_STREAM_CLOSED          view is neither 0, nor an open unit, nor 5
 *   NUMGALIS_OUT_OF_RANGE           dest_len is not 16
 */
size_t numgalis_inventory(
	const uint8_t *card, size_t card_len,
	const uint8_t *queue, size_t queue_len,
	const uint8_t *journals, size_t journals_len,
	const uint8_t *record,
	size_t view,
	uint8_t *dest, size_t dest_len,
	size_t *count);

/* The printed page of a view: lines of 40 characters and a line end, the lists ascending. No zero byte ends it.
 *
 * buffer    so many first bytes are the text; the others do not change. 861 bytes are enough for every page
 * length    the text's length; 0 for a view without lists
 *
 *   NUMGALIS_WRONG_LENGTH           as said above
 *   NUMGALIS_RECORD_UNSOUND         as said above
 *   NUMGALIS_STREAM_CLOSED          view is neither 0, nor an open unit, nor 5
 *   NUMGALIS_BUFFER_TOO_SHORT       buffer_len is below the text's length
 */
size_t numgalis_page(
	const uint8_t *card, size_t card_len,
	const uint8_t *queue, size_t queue_len,
	const uint8_t *journals, size_t journals_len,
	const uint8_t *record,
	size_t view,
	uint8_t *buffer, size_t buffer_len,
	size_t *length);

/* The conflict count of a window: the ends refused 12 since the last mounting or formatting, of units begun
 * for it.
 *
 * count     the conflicts, 65,535 if there were more
 *
 *   NUMGALIS_WRONG_LENGTH           as said above
 *   NUMGALIS_RECORD_UNSOUND         as said above
 *   NUMGALIS_OUT_OF_RANGE           window is not 1 to 16
 */
size_t numgalis_conflicts(
	const uint8_t *card, size_t card_len,
	const uint8_t *queue, size_t queue_len,
	const uint8_t *journals, size_t journals_len,
	const uint8_t *record,
	size_t window,
	size_t *count);

/* ---- Stores, for a driver whose card cannot be lent as memory ----
 *
 * Such a driver keeps a copy of the card in memory and lends that. Before a flush it asks for the list of
 * stores:
 *
 *   1. numgalis_flush_stores lists the next stores of the queue, as many as the driver's buffer takes;
 *   2. the driver makes them on the device, one byte each, in the order listed, on which a power cut relies;
 *   3. numgalis_flush, with the number listed as its allowance, makes the same stores on the copy.
 *
 * It goes on until numgalis_flush ends drained or full. A power cut meets the device after some k of the
 * stores, and that is a card which numgalis_mount accepts. Formatting goes likewise, but numgalis_format does
 * it whole: the buffer needs a word for each segment. examples/driver.c is such a driver.
 */

/* Where on the card a store of the list goes, and what is stored there. */
#define NUMGALIS_OFFSET(word) ((size_t)((uint32_t)(word) >> 8))
#define NUMGALIS_BYTE(word) ((uint8_t)((uint32_t)(word) & 0xff))

/* The stores that numgalis_flush would make with this allowance, in order. Nothing is stored.
 *
 * stores    so many first words are the stores, each offset * 256 + byte; the others do not change. 8,352 words are
 *           enough for every flush
 * count     how many: those of the flush, or stores_len if they are more
 *
 *   NUMGALIS_WRONG_LENGTH           as said above
 *   NUMGALIS_RECORD_UNSOUND         as said above
 *   NUMGALIS_OUT_OF_RANGE           allowance is above 65,535
 */
size_t numgalis_flush_stores(
	const uint8_t *card, size_t card_len,
	const uint8_t *queue, size_t queue_len,
	const uint8_t *journals, size_t journals_len,
	const uint8_t *record,
	size_t allowance,
	uint32_t *stores, size_t stores_len,
	size_t *count);

/* The stores that numgalis_format would make, in order: one for each segment, the last segment's first.
 *
 * stores    so many first words are the stores, each offset * 256 + byte; the others do not change
 * count     how many: the segments, or stores_len if they are more
 *
 *   NUMGALIS_WRONG_LENGTH           as said above
 */
size_t numgalis_format_stores(
	const uint8_t *card, size_t card_len,
	const uint8_t *queue, size_t queue_len,
	const uint8_t *journals, size_t journals_len,
	const uint8_t *record,
	uint32_t *stores, size_t stores_len,
	size_t *count);

#ifdef __cplusplus
}
#endif

#endif

/* The calls that tests/library/order traces. Each stands between two stores to `mark`, where the trace is cut.
 * The first line printed has the card's address and length and the mark's address; each other one has, of a
 * call, where on the card its stores go, in order, as the library lists them. A trace has no bytes, so what
 * a call leaves on the card is compared here. */
#include <inttypes.h>
#include <stdio.h>
#include <stdlib.h>
#include <string.h>
#include <numgalis.h>

static uint8_t card[3 * NUMGALIS_SEGMENT], expected[sizeof card];
static uint8_t queue[NUMGALIS_QUEUE], journals[NUMGALIS_JOURNALS], record[NUMGALIS_RECORD];
static uint32_t listed[NUMGALIS_FLUSH_STORES];
static size_t lent = sizeof card; /* so many bytes of the card */
static volatile uint8_t mark;

/* docs/FORMAT.md: the count and the entries of a segment, and the maps of two entries. */
enum { COUNT_AT = 3584, ENTRIES_AT = 3585, TAKE_LIST = 2, DELETE_LIST = 34 };

#define DISK card, lent, queue, sizeof queue, journals, sizeof journals, record

/* A call between two marks. Its stores are the first so many of those listed, and this is to be its answer. */
#define CALL(stores, answer, call) do { \
	size_t returned; \
	mark = 1; \
	returned = (call); \
	mark = 2; \
	compare(#call, stores, answer, returned); \
} while (0)
#define STORELESS(call) CALL(0, NUMGALIS_OK, call)
#define REFUSED(answer, call) CALL(0, answer, call)

static void expect(const char *what, size_t found, size_t wanted)
{
	if (found != wanted) {
		fprintf(stderr, "%s: %zu, not %zu\n", what, found, wanted);
		exit(1);
	}
}

/* What the call has returned and left on the card. Its line has runs of offsets, as the first and the last. */
static void compare(const char *call, size_t stores, size_t answer, size_t returned)
{
	size_t first, last;

	expect(call, returned, answer);
	for (size_t k = 0; k < stores; k++) {
		expect("a store listed behind the card", NUMGALIS_OFFSET(listed[k]) >= lent, 0);
		expected[NUMGALIS_OFFSET(listed[k])] = NUMGALIS_BYTE(listed[k]);
	}
	if (memcmp(card, expected, sizeof card) != 0) {
		fprintf(stderr, "%s: the card is another than the listed stores make\n", call);
		exit(1);
	}
	printf("%.*s:", (int)strcspn(call, "("), call);
	for (size_t k = 0; k < stores; k++) {
		first = last = NUMGALIS_OFFSET(listed[k]);
		while (k + 1 < stores && NUMGALIS_OFFSET(listed[k + 1]) == last + 1)
			k++, last++;
		printf(" %zu-%zu", first, last);
	}
	printf("\n");
}

/* ---- The calls, with what they have to answer ---- */

static void format(void)
{
	size_t count;

	STORELESS(numgalis_format_stores(DISK, listed, NUMGALIS_FLUSH_STORES, &count));
	expect("stores listed of a formatting", count, lent / NUMGALIS_SEGMENT);
	CALL(count, NUMGALIS_OK, numgalis_format(DISK));
}

static void mount(void)
{
	size_t segment, entry;

	STORELESS(numgalis_mount(DISK, &segment, &entry));
}

static void flush(size_t allowance, size_t stores, size_t how)
{
	size_t count, made, ending;

	STORELESS(numgalis_flush_stores(DISK, allowance, listed, NUMGALIS_FLUSH_STORES, &count));
	expect("stores listed of a flush", count, stores);
	CALL(count, NUMGALIS_OK, numgalis_flush(DISK, allowance, &made, &ending));
	expect("stores flushed", made, count);
	expect("how the flush ended", ending, how);
}

static size_t new_list(size_t stream)
{
	size_t list;

	STORELESS(numgalis_new_list(DISK, stream, &list));
	return list;
}

static void new_block(size_t stream, size_t list, size_t predecessor, size_t block)
{
	size_t given;

	STORELESS(numgalis_new_block(DISK, stream, list, predecessor, &given));
	expect("the block given", given, block);
}

/* A write of 256 different bytes, from that one on. */
static void write_block(size_t stream, size_t block, size_t race, size_t first)
{
	uint8_t content[NUMGALIS_BLOCK];

	for (size_t k = 0; k < sizeof content; k++)
		content[k] = (uint8_t)(first + k);
	STORELESS(numgalis_write(DISK, stream, block, race, content, sizeof content));
}

static void delete_block(size_t stream, size_t block)
{
	STORELESS(numgalis_delete_block(DISK, stream, block));
}

static void delete_list(size_t stream, size_t list)
{
	STORELESS(numgalis_delete_list(DISK, stream, list));
}

/* The look-ups of a view that has list 1 with this block on it. */
static void look(size_t view, size_t block)
{
	uint8_t content[NUMGALIS_BLOCK], lists[NUMGALIS_INVENTORY], page[NUMGALIS_PAGE];
	size_t race, first, count, length;

	STORELESS(numgalis_read(DISK, view, block, content, sizeof content, &race));
	STORELESS(numgalis_next(DISK, view, 1, 0, &first));
	STORELESS(numgalis_inventory(DISK, view, lists, sizeof lists, &count));
	STORELESS(numgalis_page(DISK, view, page, sizeof page, &length));
}

/* ---- The script ---- */

/* A log of 506 bytes of entries, by hand. Then an entry that ends with the segment's last byte, and one that
 * opens the next segment. */
static void long_log(void)
{
	for (size_t k = 0; k < 253; k++) {
		card[ENTRIES_AT + 2 * k] = k % 2 == 1 ? DELETE_LIST : TAKE_LIST;
		card[ENTRIES_AT + 2 * k + 1] = 1;
	}
	card[COUNT_AT] = 253;
	memcpy(expected, card, sizeof card);
	mount();
	new_block(0, 1, 0, 1);
	new_list(0);
	new_list(0);
	flush(NUMGALIS_ALLOWANCE, 4 + 3 + 3, NUMGALIS_DRAINED);
	expect("entries of the next segment", card[NUMGALIS_SEGMENT + COUNT_AT], 1);
}

/* A unit that opens the next segment between its members, and changes behind it. */
static void two_segments(void)
{
	expect("the list given", new_list(0), 1);
	new_block(0, 1, 0, 1);
	for (size_t k = 0; k < 13; k++)
		write_block(0, 1, k % 3, k);
	STORELESS(numgalis_begin(DISK, 1, 1));
	new_block(1, 1, 1, 2);
	write_block(1, 2, 24, 40);
	write_block(1, 1, 0, 50);
	look(1, 2);
	delete_block(1, 1);
	STORELESS(numgalis_end(DISK, 1));
	expect("the list given", new_list(0), 2);
	new_block(0, 2, 0, 3);
	new_block(0, 2, 3, 4);
	write_block(0, 4, 0, 60);
	delete_block(0, 3);
	delete_list(0, 2);
	look(NUMGALIS_COMMITTED, 2);
	flush(NUMGALIS_ALLOWANCE, 4205, NUMGALIS_DRAINED);
	look(NUMGALIS_PERSISTENT, 2);
}

/* Flushes that stop within the data, behind it, within the entry, before the count; then the count, and on. */
static void in_mid_entry(void)
{
	static const size_t allowances[] = {0, 100, 156, 1, 2, 1, 2, 200};
	size_t made, ending;

	write_block(0, 2, 0, 70);
	new_list(0);
	write_block(0, 2, 0, 80);
	REFUSED(NUMGALIS_OUT_OF_RANGE, numgalis_flush(DISK, NUMGALIS_ALLOWANCE + 1, &made, &ending));
	for (size_t k = 0; k < sizeof allowances / sizeof *allowances; k++)
		flush(allowances[k], allowances[k], NUMGALIS_SPENT);
	look(NUMGALIS_PERSISTENT, 2);
	flush(NUMGALIS_ALLOWANCE, 61, NUMGALIS_DRAINED);
	flush(NUMGALIS_ALLOWANCE, 0, NUMGALIS_DRAINED);
}

static void conflict(void)
{
	size_t count;

	STORELESS(numgalis_begin(DISK, 2, 16));
	write_block(2, 2, 0, 85);
	delete_block(0, 2);
	REFUSED(NUMGALIS_CONFLICT, numgalis_end(DISK, 2));
	STORELESS(numgalis_conflicts(DISK, 16, &count));
	expect("conflicts of the window", count, 1);
	flush(NUMGALIS_ALLOWANCE, 3, NUMGALIS_DRAINED);
}

int main(void)
{
	memset(card, 0xff, sizeof card);
	memset(expected, 0xff, sizeof expected);
	printf("%" PRIuPTR " %zu %" PRIuPTR "\n", (uintptr_t)card, sizeof card, (uintptr_t)&mark);
	format();
	long_log();
	format();
	two_segments();
	in_mid_entry();
	conflict();
	/* The power is cut in a flush, before the last count. */
	new_block(0, 1, 0, 5);
	write_block(0, 5, 0, 90);
	flush(4 + 258, 4 + 258, NUMGALIS_SPENT);
	mount();
	/* The first segment alone: there is a place for the list, and none for the write. */
	lent = NUMGALIS_SEGMENT;
	mount();
	new_list(0);
	write_block(0, 1, 0, 100);
	flush(NUMGALIS_ALLOWANCE, 3, NUMGALIS_FULL);
	lent = sizeof card;
	REFUSED(NUMGALIS_WRONG_LENGTH, numgalis_format(card, lent, queue, 0, journals, sizeof journals, record));
	format();
	return 0;
}

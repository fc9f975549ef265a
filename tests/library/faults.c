/* Libraries that break one rule each, as wrappers around the sound one: the linker's --wrap puts them between
 * hostile.c and the archive. Above each stand what is wrong and the words by which hostile.c is to find it,
 * for tests/library/run. */
#include <string.h>
#include <numgalis.h>

#define LENT(c, q, j, r) c uint8_t *card, size_t card_len, q uint8_t *queue, size_t queue_len, \
	j uint8_t *journals, size_t journals_len, r uint8_t *record
#define PASSED card, card_len, queue, queue_len, journals, journals_len, record
#define WRAP(name, ...) \
	size_t __real_##name(__VA_ARGS__); \
	size_t __wrap_##name(__VA_ARGS__); \
	size_t __wrap_##name(__VA_ARGS__)

#if FAULT == 1 /* an out-parameter is not set on a refusal: "refused \d+, and the out-parameter is" */
WRAP(numgalis_next, LENT(const, const, const, const), size_t view, size_t list, size_t predecessor, size_t *block)
{
	size_t found, refused = __real_numgalis_next(PASSED, view, list, predecessor, &found);
	if (!refused)
		*block = found;
	return refused;
}
#elif FAULT == 2 /* an out-parameter holds a number on a refusal: "refused 10, and the out-parameter is 17" */
WRAP(numgalis_new_list, LENT(const, const, const, ), size_t stream, size_t *list)
{
	size_t refused = __real_numgalis_new_list(PASSED, stream, list);
	if (refused == NUMGALIS_NO_NUMBER_FREE)
		*list = 17;
	return refused;
}
#elif FAULT == 3 /* a byte of the record is changed on a refusal: "returned 8, and changed the record" */
WRAP(numgalis_write, LENT(const, , , ), size_t stream, size_t block, size_t race,
	const uint8_t *content, size_t content_len)
{
	size_t refused = __real_numgalis_write(PASSED, stream, block, race, content, content_len);
	if (refused == NUMGALIS_BLOCK_NOT_PLACED)
		record[NUMGALIS_RECORD - 1] ^= 1;
	return refused;
}
#elif FAULT == 4 /* a byte of the card is changed on a refusal: "returned 3, and changed the card" */
WRAP(numgalis_flush, LENT(, const, const, ), size_t allowance, size_t *stores, size_t *ending)
{
	size_t refused = __real_numgalis_flush(PASSED, allowance, stores, ending);
	if (refused == NUMGALIS_RECORD_UNSOUND)
		card[card_len - 1] ^= 1;
	return refused;
}
#elif FAULT == 5 /* the destination is changed on a refusal: "returned 4, and changed the data" */
WRAP(numgalis_inventory, LENT(const, const, const, const), size_t view, uint8_t *dest, size_t dest_len, size_t *count)
{
	size_t refused = __real_numgalis_inventory(PASSED, view, dest, dest_len, count);
	if (refused == NUMGALIS_STREAM_CLOSED && dest_len)
		dest[0] ^= 1;
	return refused;
}
#elif FAULT == 6 /* a conflict changes the queue: "returned 12, and changed the queue" */
WRAP(numgalis_end, LENT(const, , const, ), size_t unit)
{
	size_t refused = __real_numgalis_end(PASSED, unit);
	if (refused == NUMGALIS_CONFLICT)
		queue[0] ^= 1;
	return refused;
}
#elif FAULT == 7 /* a byte behind the destination is written: "behind the data was written|reached outside" */
WRAP(numgalis_read, LENT(const, const, const, const), size_t view, size_t block,
	uint8_t *dest, size_t dest_len, size_t *race)
{
	size_t refused = __real_numgalis_read(PASSED, view, block, dest, dest_len, race);
	if (!refused)
		dest[dest_len] = 0;
	return refused;
}
#elif FAULT == 8 /* a byte before the record is written: "before the record was written|reached outside" */
WRAP(numgalis_begin, LENT(const, const, const, ), size_t unit, size_t window)
{
	record[-1] = 0;
	return __real_numgalis_begin(PASSED, unit, window);
}
#elif FAULT == 9 /* a byte behind the card is read: "reached outside" */
WRAP(numgalis_mount, LENT(const, const, const, ), size_t *segment, size_t *entry)
{
	size_t refused = __real_numgalis_mount(PASSED, segment, entry);
	volatile uint8_t read = card[card_len];
	(void)read;
	return refused;
}
#elif FAULT == 10 /* a byte before the journals is read: "reached outside" */
WRAP(numgalis_delete_list, LENT(const, const, const, ), size_t stream, size_t list)
{
	volatile uint8_t read = journals[-1];
	(void)read;
	return __real_numgalis_delete_list(PASSED, stream, list);
}
#elif FAULT == 11 /* a refusal has the number of another: "returned 7, which the header does not name" */
WRAP(numgalis_begin, LENT(const, const, const, ), size_t unit, size_t window)
{
	size_t refused = __real_numgalis_begin(PASSED, unit, window);
	return refused == NUMGALIS_UNIT_OPEN ? NUMGALIS_LIST_NOT_TAKEN : refused;
}
#elif FAULT == 12 /* a number above all is returned: "returned 16, which the header does not name" */
WRAP(numgalis_conflicts, LENT(const, const, const, const), size_t window, size_t *count)
{
	size_t refused = __real_numgalis_conflicts(PASSED, window, count);
	return refused == NUMGALIS_OUT_OF_RANGE ? 16 : refused;
}
#elif FAULT == 13 /* what is lent const is changed: "returned 0, and changed the queue|wrote what is const" */
WRAP(numgalis_conflicts, LENT(const, const, const, const), size_t window, size_t *count)
{
	size_t refused = __real_numgalis_conflicts(PASSED, window, count);
	if (!refused)
		((uint8_t *)queue)[queue_len - 1] ^= 1;
	return refused;
}
#elif FAULT == 14 /* what is lent const is changed and put back: "wrote what is const" */
WRAP(numgalis_page, LENT(const, const, const, const), size_t view, uint8_t *buffer, size_t buffer_len, size_t *length)
{
	volatile uint8_t *written = (uint8_t *)record;
	uint8_t kept = written[0];
	written[0] = (uint8_t)(kept + 1);
	written[0] = kept;
	return __real_numgalis_page(PASSED, view, buffer, buffer_len, length);
}
#elif FAULT == 15 /* the buffer is changed behind the text: "bytes behind the result were changed" */
WRAP(numgalis_page, LENT(const, const, const, const), size_t view, uint8_t *buffer, size_t buffer_len, size_t *length)
{
	size_t refused = __real_numgalis_page(PASSED, view, buffer, buffer_len, length);
	if (!refused && *length < buffer_len)
		buffer[*length] ^= 1;
	return refused;
}
#elif FAULT == 16 /* a simple write changes the journals too: "the journals was changed" */
WRAP(numgalis_write, LENT(const, , , ), size_t stream, size_t block, size_t race,
	const uint8_t *content, size_t content_len)
{
	size_t refused = __real_numgalis_write(PASSED, stream, block, race, content, content_len);
	if (!refused && stream == 0)
		memcpy(journals, content, content_len);
	return refused;
}
#elif FAULT == 17 /* a flush makes a store more than it says: "bytes of the card changed|changed without a store" */
WRAP(numgalis_flush, LENT(, const, const, ), size_t allowance, size_t *stores, size_t *ending)
{
	size_t refused = __real_numgalis_flush(PASSED, allowance, stores, ending);
	if (!refused && *stores > 0)
		--*stores, *ending = NUMGALIS_DRAINED;
	return refused;
}
#elif FAULT == 18 /* a number is cut to its range: "numgalis_begin: never answered 5" */
WRAP(numgalis_begin, LENT(const, const, const, ), size_t unit, size_t window)
{
	return __real_numgalis_begin(PASSED, unit, (window - 1) % NUMGALIS_WINDOWS + 1);
}
#elif FAULT == 19 /* a store is listed twice, and the last one not: "flush_stores listed are others" */
WRAP(numgalis_flush_stores, LENT(const, const, const, const), size_t allowance,
	uint32_t *stores, size_t stores_len, size_t *count)
{
	size_t refused = __real_numgalis_flush_stores(PASSED, allowance, stores, stores_len, count);
	if (*count > 1)
		stores[*count - 1] = stores[*count - 2];
	return refused;
}
#elif FAULT == 20 /* a store of a formatting is not listed: "numgalis_format_stores listed \d+ of \d+ stores" */
WRAP(numgalis_format_stores, LENT(const, const, const, const), uint32_t *stores, size_t stores_len, size_t *count)
{
	return __real_numgalis_format_stores(PASSED, stores, stores_len > 0 ? stores_len - 1 : 0, count);
}
#elif FAULT == 21 /* a function refuses everything: "numgalis_delete_block: never answered 0" */
WRAP(numgalis_delete_block, LENT(const, const, const, ), size_t stream, size_t block)
{
	uint8_t kept[NUMGALIS_RECORD];
	size_t refused;
	memcpy(kept, record, sizeof kept);
	refused = __real_numgalis_delete_block(PASSED, stream, block);
	memcpy(record, kept, sizeof kept);
	return refused ? refused : NUMGALIS_BLOCK_NOT_PLACED;
}
#elif FAULT == 22 /* a record makes a call run for ever: "numgalis_read: does not return" */
WRAP(numgalis_read, LENT(const, const, const, const), size_t view, size_t block,
	uint8_t *dest, size_t dest_len, size_t *race)
{
	for (volatile uint8_t byte = record[0]; byte == 0xff && record[NUMGALIS_RECORD - 1] == 0xff;)
		;
	return __real_numgalis_read(PASSED, view, block, dest, dest_len, race);
}
#endif

/* Libraries that store on the card otherwise than they list, as wrappers around the sound one: the linker's
 * --wrap puts them between order.c and the archive. All but the last two leave the right card and give the right
 * answers. Above each stand what is wrong and the words by which tests/library/order is to find it. */
#include <string.h>
#include <numgalis.h>

#define LENT(c, q, j, r) c uint8_t *card, size_t card_len, q uint8_t *queue, size_t queue_len, \
	j uint8_t *journals, size_t journals_len, r uint8_t *record
#define BUFFERS queue, queue_len, journals, journals_len, record
#define FLUSH LENT(, const, const, ), size_t allowance, size_t *stores, size_t *ending
#define WRAP(name, ...) \
	size_t __real_##name(__VA_ARGS__); \
	size_t __wrap_##name(__VA_ARGS__); \
	size_t __wrap_##name(__VA_ARGS__)

static uint32_t listed[NUMGALIS_FLUSH_STORES];
static uint8_t copy[NUMGALIS_SEGMENTS * NUMGALIS_SEGMENT];

/* The sound flush on a copy of the card: its stores are listed, and the wrapper makes them. */
size_t __real_numgalis_flush(FLUSH);
static inline size_t flush_copy(FLUSH)
{
	size_t count;

	memcpy(copy, card, card_len);
	numgalis_flush_stores(copy, card_len, BUFFERS, allowance, listed, NUMGALIS_FLUSH_STORES, &count);
	return __real_numgalis_flush(copy, card_len, BUFFERS, allowance, stores, ending);
}

static inline void make(uint8_t *card, const uint32_t *word, size_t words)
{
	for (volatile uint8_t *on = card; words > 0; word++, words--)
		on[NUMGALIS_OFFSET(*word)] = NUMGALIS_BYTE(*word);
}

/* Whether so many stores from k on go to bytes that follow each other. */
static inline int neighbours(size_t k, size_t many, size_t stores)
{
	return k + many <= stores && NUMGALIS_OFFSET(listed[k + many - 1]) == NUMGALIS_OFFSET(listed[k]) + many - 1;
}

/* Stores two bytes again, at once, as they are. */
static inline void again(const uint8_t *at)
{
	volatile uint16_t two;

	memcpy((void *)&two, at, sizeof two);
	memcpy((uint8_t *)at, (void *)&two, sizeof two);
}

#if FAULT == 1 /* the count is raised before the entry's last byte: "expected one at 7682 .* found one at 7680 " */
WRAP(numgalis_flush, FLUSH)
{
	size_t refused = flush_copy(card, card_len, BUFFERS, allowance, stores, ending);
	for (size_t k = 0; k < *stores; k++) {
		size_t swapped = *stores < 2 || k + 2 < *stores ? k : k + 2 == *stores ? k + 1 : k - 1;
		make(card, listed + swapped, 1);
	}
	return refused;
}
#elif FAULT == 2 /* the first two stores change places: "store 0: expected one at 4091 .* found one at 4092 " */
WRAP(numgalis_flush, FLUSH)
{
	size_t refused = flush_copy(card, card_len, BUFFERS, allowance, stores, ending);
	for (size_t k = 0; k < *stores; k++)
		make(card, listed + (*stores > 1 && k < 2 ? 1 - k : k), 1);
	return refused;
}
#elif FAULT == 3 /* the last store is made twice: "numgalis_flush, .* expected none, found one at 7680 of width 1" */
WRAP(numgalis_flush, FLUSH)
{
	size_t refused = flush_copy(card, card_len, BUFFERS, allowance, stores, ending);
	make(card, listed, *stores);
	make(card, listed + *stores - (*stores > 0), *stores > 0);
	return refused;
}
#elif FAULT == 4 /* a store is left out, as its byte is there already: "expected one at 3585 .* found one at 3584 " */
WRAP(numgalis_flush, FLUSH)
{
	size_t refused = flush_copy(card, card_len, BUFFERS, allowance, stores, ending);
	for (size_t k = 0; k < *stores; k++)
		make(card, listed + k, card[NUMGALIS_OFFSET(listed[k])] != NUMGALIS_BYTE(listed[k]));
	return refused;
}
#elif FAULT == 5 /* two bytes are stored at once: "expected one at 4091 of width 1, found one at 4091 of width 2" */
WRAP(numgalis_flush, FLUSH)
{
	size_t refused = flush_copy(card, card_len, BUFFERS, allowance, stores, ending);
	for (size_t k = 0; k < *stores; k++)
		if (neighbours(k, 2, *stores)) {
			uint8_t two[] = {NUMGALIS_BYTE(listed[k]), NUMGALIS_BYTE(listed[k + 1])};
			memcpy(card + NUMGALIS_OFFSET(listed[k++]), two, sizeof two);
		} else {
			make(card, listed + k, 1);
		}
	return refused;
}
#elif FAULT == 6 /* two bytes are stored at once, then each: "store 0: .* found one at 4091 of width 2" */
WRAP(numgalis_flush, FLUSH)
{
	size_t refused = flush_copy(card, card_len, BUFFERS, allowance, stores, ending);
	if (neighbours(0, 2, *stores))
		again(card + NUMGALIS_OFFSET(listed[0]));
	make(card, listed, *stores);
	return refused;
}
#elif FAULT == 7 /* a write's data are copied at once: "expected one at 0 .* found one at 0 of width (?!1$)" */
WRAP(numgalis_flush, FLUSH)
{
	size_t refused = flush_copy(card, card_len, BUFFERS, allowance, stores, ending);
	for (size_t k = 0; k < *stores; k++)
		if (neighbours(k, NUMGALIS_BLOCK, *stores)) {
			memcpy(card + NUMGALIS_OFFSET(listed[k]), copy + NUMGALIS_OFFSET(listed[k]), NUMGALIS_BLOCK);
			k += NUMGALIS_BLOCK - 1;
		} else {
			make(card, listed + k, 1);
		}
	return refused;
}
#elif FAULT == 8 /* a flush without a store makes one: "numgalis_flush, store 0: expected none, found one at 12287" */
WRAP(numgalis_flush, FLUSH)
{
	size_t refused = __real_numgalis_flush(card, card_len, BUFFERS, allowance, stores, ending);
	volatile uint8_t *last = card + card_len - 1;
	if (*stores == 0)
		*last = *last;
	return refused;
}
#elif FAULT == 9 /* formatting begins with the first segment: "expected one at 11776 .* found one at 3584 of" */
WRAP(numgalis_format, LENT(, const, const, ))
{
	size_t refused = __real_numgalis_format(copy, card_len, BUFFERS);
	for (volatile uint8_t *count = card + 3584; !refused && count < card + card_len; count += NUMGALIS_SEGMENT)
		*count = 0;
	return refused;
}
#elif FAULT == 10 /* a read stores a byte as it was: "numgalis_read, .* expected none, found one at 0 of width 1" */
WRAP(numgalis_read, LENT(const, const, const, const), size_t view, size_t block,
	uint8_t *dest, size_t dest_len, size_t *race)
{
	size_t refused = __real_numgalis_read(card, card_len, BUFFERS, view, block, dest, dest_len, race);
	*(volatile uint8_t *)card = *(const volatile uint8_t *)card;
	return refused;
}
#elif FAULT == 11 /* a byte is changed where it lies: "numgalis_next, .* expected none, found one at 0 of width 1" */
WRAP(numgalis_next, LENT(const, const, const, const), size_t view, size_t list, size_t predecessor, size_t *block)
{
	size_t refused = __real_numgalis_next(card, card_len, BUFFERS, view, list, predecessor, block);
	*(uint8_t *)card |= (uint8_t)refused;
	return refused;
}
#elif FAULT == 12 /* a store reaches into the card from before it: "numgalis_mount, .* found one at -1 of width 2" */
WRAP(numgalis_mount, LENT(const, const, const, ), size_t *segment, size_t *entry)
{
	again(card - 1);
	return __real_numgalis_mount(card, card_len, BUFFERS, segment, entry);
}
#elif FAULT == 13 /* a store reaches out of the card: "numgalis_write, .* found one at 12287 of width 2" */
WRAP(numgalis_write, LENT(const, , , ), size_t stream, size_t block, size_t race,
	const uint8_t *content, size_t content_len)
{
	again(card + card_len - 1);
	return __real_numgalis_write(card, card_len, BUFFERS, stream, block, race, content, content_len);
}
#elif FAULT == 14 /* another byte is stored: "numgalis_flush.*: the card is another than the listed stores make" */
WRAP(numgalis_flush, FLUSH)
{
	size_t refused = flush_copy(card, card_len, BUFFERS, allowance, stores, ending);
	listed[0] ^= 1;
	make(card, listed, *stores);
	return refused;
}
#elif FAULT == 15 /* a flush counts a store less than it makes: "stores flushed: 9, not 10" */
WRAP(numgalis_flush, FLUSH)
{
	size_t refused = __real_numgalis_flush(card, card_len, BUFFERS, allowance, stores, ending);
	*stores -= *stores > 0;
	return refused;
}
#endif

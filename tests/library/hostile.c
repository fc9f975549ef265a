/* Drives every function of the library with hostile input: records, cards, lengths and numbers that no sound
 * caller would bring, beside sound ones, so that acceptances are reached too. After each call it asks whether
 * the number returned is one that the header names, whether a refusal has left everything as it was, and
 * whether anything was touched that may not be. Every region lent stands between guard bytes, or ends or
 * begins at an inaccessible page, where a read or a write outside it crashes; in some of the calls what is
 * lent const cannot be written.
 *
 * exports.h is made from the header by tests/library/run: EXPORTS(X) has X(name, refusals, mutable) for each
 * function, its refusals as bits by their numbers, and what of card, queue, journals and record it may change
 * as bits 0 to 3. */
#define _DEFAULT_SOURCE
#include <signal.h>
#include <stdarg.h>
#include <stdio.h>
#include <stdlib.h>
#include <string.h>
#include <sys/mman.h>
#include <unistd.h>
#include <numgalis.h>
#include "exports.h"

#define EXPORT_NUMBER(name, refusals, mutable) X_##name,
#define EXPORT_NAME(name, refusals, mutable) "numgalis_" #name,
#define EXPORT_REFUSALS(name, refusals, mutable) refusals,
#define EXPORT_MUTABLE(name, refusals, mutable) mutable,

enum export { EXPORTS(EXPORT_NUMBER) EXPORT_COUNT };
static const char *const names[] = {EXPORTS(EXPORT_NAME)};
static const unsigned refusals[] = {EXPORTS(EXPORT_REFUSALS)};
static const unsigned mutable[] = {EXPORTS(EXPORT_MUTABLE)};

enum { KINDS = 16 }; /* 0 accepted, 1 to 15 refused */
static unsigned long counts[EXPORT_COUNT][KINDS], calls;
static volatile sig_atomic_t running = -1;

/* ---- Random numbers, the same in every run ---- */

static uint64_t seed = 0x4e756d67616c6973u;

static size_t rnd(size_t below)
{
	seed ^= seed >> 12;
	seed ^= seed << 25;
	seed ^= seed >> 27;
	return (size_t)((seed * 0x2545f4914f6cdd1du) >> 16) % below;
}

static void fill_random(uint8_t *bytes, size_t len)
{
	for (size_t i = 0; i < len; i++)
		bytes[i] = (uint8_t)rnd(256);
}

#define PICK(array) (array)[rnd(sizeof(array) / sizeof(*(array)))]

/* ---- Failing ---- */

static void fail(const char *format, ...)
{
	va_list list;

	fprintf(stderr, "%s, call %lu: ", running < 0 ? "hostile" : names[running], calls);
	va_start(list, format);
	vfprintf(stderr, format, list);
	va_end(list);
	fputc('\n', stderr);
	exit(1);
}

static void say(const char *text)
{
	if (write(2, text, strlen(text)) < 0)
		_exit(1);
}

static void crashed(int signal_number)
{
	say(running < 0 ? "hostile" : names[running]);
	say(signal_number == SIGALRM ? ": does not return\n" : ": reached outside what is lent, or wrote what is const\n");
	_exit(1);
}

/* ---- Regions ---- */

enum { GUARD = 64, GUARD_BYTE = 0xc3, PAGE_BYTES = 4096 };
enum { MOST_CARD = 66 * NUMGALIS_SEGMENT, MOST_DATA = 4096, MOST_WORDS = 9216 };
enum { CARD, QUEUE, JOURNALS, RECORD, DATA, WORDS, OUT, OUT2, REGIONS };

static struct region {
	const char *name;
	size_t room, align;   /* the bytes between the inaccessible pages */
	uint8_t *map, *at;
	size_t len;
	const uint8_t *was;   /* what was lent; nothing for out-parameters, which are always set */
	int lent, constant;
} regions[REGIONS] = {
	{.name = "card", .room = MOST_CARD, .align = 1},
	{.name = "queue", .room = NUMGALIS_QUEUE + PAGE_BYTES, .align = 1},
	{.name = "journals", .room = NUMGALIS_JOURNALS + 2 * PAGE_BYTES, .align = 1},
	{.name = "record", .room = NUMGALIS_RECORD, .align = 1},
	{.name = "data", .room = MOST_DATA, .align = 1},
	{.name = "words", .room = MOST_WORDS * sizeof(uint32_t), .align = sizeof(uint32_t)},
	{.name = "out-parameter", .room = sizeof(size_t), .align = sizeof(size_t)},
	{.name = "second out-parameter", .room = sizeof(size_t), .align = sizeof(size_t)},
};

static void make_regions(void)
{
	for (struct region *r = regions; r < regions + REGIONS; r++) {
		r->room = (r->room + 4 * GUARD + PAGE_BYTES - 1) / PAGE_BYTES * PAGE_BYTES;
		uint8_t *map = mmap(NULL, r->room + 2 * PAGE_BYTES, PROT_NONE, MAP_PRIVATE | MAP_ANONYMOUS, -1, 0);
		if (map == MAP_FAILED || mprotect(map + PAGE_BYTES, r->room, PROT_READ | PROT_WRITE))
			fail("no memory");
		r->map = map + PAGE_BYTES;
	}
}

/* The guard bytes before and behind a region, as far as its pages go. */
static size_t before(const struct region *r)
{
	return (size_t)(r->at - r->map) < GUARD ? (size_t)(r->at - r->map) : GUARD;
}

static size_t behind(const struct region *r)
{
	size_t left = (size_t)(r->map + r->room - r->at) - r->len;
	return left < GUARD ? left : GUARD;
}

static void lend(struct region *r, const void *bytes, size_t len, int constant)
{
	size_t middle = (GUARD + rnd(GUARD)) / r->align * r->align;

	r->len = len;
	r->was = bytes;
	r->lent = 1;
	r->constant = constant;
	switch (rnd(4)) {
	case 0: r->at = r->map; break;
	case 1: r->at = r->map + middle; break;
	default: r->at = r->map + r->room - len;
	}
	memcpy(r->at, bytes, len);
	memset(r->at - before(r), GUARD_BYTE, before(r));
	memset(r->at + len, GUARD_BYTE, behind(r));
}

static void protect(int rights)
{
	for (struct region *r = regions; r < regions + REGIONS; r++)
		if (r->lent && r->constant && mprotect(r->map, r->room, rights))
			fail("pages cannot be protected");
}

static void check_guards(const struct region *r)
{
	for (size_t i = 0; i < before(r); i++)
		if (r->at[-1 - (ptrdiff_t)i] != GUARD_BYTE)
			fail("a byte before the %s was written", r->name);
	for (size_t i = 0; i < behind(r); i++)
		if (r->at[r->len + i] != GUARD_BYTE)
			fail("a byte behind the %s was written", r->name);
}

static int changed(int number)
{
	return memcmp(regions[number].at, regions[number].was, regions[number].len) != 0;
}

static void same_from(int number, size_t from)
{
	const struct region *r = &regions[number];
	if (memcmp(r->at + from, r->was + from, r->len - from))
		fail("bytes behind the result were changed");
}

/* ---- A call ---- */

enum { BLOCKS_GIVEN = 6, LISTS_GIVEN = 3 };

struct disk {
	size_t card_len, queue_len, journals_len;
	size_t blocks[BLOCKS_GIVEN], lists[LISTS_GIVEN]; /* some numbers that calls gave, likely to be in use */
	uint8_t card[MOST_CARD], queue[NUMGALIS_QUEUE + PAGE_BYTES], journals[NUMGALIS_JOURNALS + PAGE_BYTES];
	uint8_t record[NUMGALIS_RECORD];
};

struct call {
	enum export export;
	size_t number[3];     /* in the order of the prototype */
	size_t data_len;      /* content, destination or buffer */
	size_t words_len;
};

static uint8_t data[MOST_DATA];
static uint32_t words[MOST_WORDS];

static size_t out(int number)
{
	size_t value;
	memcpy(&value, regions[number].at, sizeof value);
	return value;
}

#define LENT regions[CARD].at, d->card_len, regions[QUEUE].at, d->queue_len, regions[JOURNALS].at, d->journals_len, \
	regions[RECORD].at
#define OUT_AT(number) ((size_t *)(void *)regions[number].at)
#define WORDS_AT ((uint32_t *)(void *)regions[WORDS].at)

static size_t make(const struct call *c, const struct disk *d)
{
	const size_t *n = c->number;
	uint8_t *lent = regions[DATA].at;

	switch (c->export) {
	case X_format: return numgalis_format(LENT);
	case X_mount: return numgalis_mount(LENT, OUT_AT(OUT), OUT_AT(OUT2));
	case X_flush: return numgalis_flush(LENT, n[0], OUT_AT(OUT), OUT_AT(OUT2));
	case X_new_list: return numgalis_new_list(LENT, n[0], OUT_AT(OUT));
	case X_new_block: return numgalis_new_block(LENT, n[0], n[1], n[2], OUT_AT(OUT));
	case X_write: return numgalis_write(LENT, n[0], n[1], n[2], lent, c->data_len);
	case X_delete_block: return numgalis_delete_block(LENT, n[0], n[1]);
	case X_delete_list: return numgalis_delete_list(LENT, n[0], n[1]);
	case X_begin: return numgalis_begin(LENT, n[0], n[1]);
	case X_end: return numgalis_end(LENT, n[0]);
	case X_read: return numgalis_read(LENT, n[0], n[1], lent, c->data_len, OUT_AT(OUT));
	case X_next: return numgalis_next(LENT, n[0], n[1], n[2], OUT_AT(OUT));
	case X_inventory: return numgalis_inventory(LENT, n[0], lent, c->data_len, OUT_AT(OUT));
	case X_page: return numgalis_page(LENT, n[0], lent, c->data_len, OUT_AT(OUT));
	case X_conflicts: return numgalis_conflicts(LENT, n[0], OUT_AT(OUT));
	case X_flush_stores: return numgalis_flush_stores(LENT, n[0], WORDS_AT, c->words_len, OUT_AT(OUT));
	case X_format_stores: return numgalis_format_stores(LENT, WORDS_AT, c->words_len, OUT_AT(OUT));
	case EXPORT_COUNT: break;
	}
	fail("no such function");
	return 0;
}

static int has_data(enum export e)
{
	return e == X_write || e == X_read || e == X_inventory || e == X_page;
}

static int has_words(enum export e)
{
	return e == X_flush_stores || e == X_format_stores;
}

static int outs(enum export e)
{
	if (e == X_mount || e == X_flush)
		return 2;
	return e != X_format && e != X_write && e != X_delete_block && e != X_delete_list && e != X_begin && e != X_end;
}

static void at_most(const char *what, size_t found, size_t most)
{
	if (found > most)
		fail("%s: %zu, more than %zu", what, found, most);
}

static void in_range(const char *what, size_t found, size_t most)
{
	at_most(what, found, most);
	if (found == 0)
		fail("%s: 0", what);
}

/* At most so many bytes of the card have changed, and in a formatting the counts alone. */
static void check_card(size_t most, int counts_alone)
{
	const struct region *r = &regions[CARD];
	size_t found = 0;

	if (!counts_alone && most == 0 && changed(CARD))
		fail("the card was changed without a store");
	for (size_t i = 0; i < r->len; i++) {
		int is_count = i % NUMGALIS_SEGMENT == 14 * NUMGALIS_BLOCK;
		found += r->at[i] != r->was[i];
		if (counts_alone && (is_count ? r->at[i] != 0 : r->at[i] != r->was[i]))
			fail("byte %zu of the card is wrong", i);
	}
	at_most("bytes of the card changed", found, most);
}

/* A write puts its content at one place of one region. */
static void check_written(int number)
{
	const struct region *r = &regions[number];

	for (size_t place = 0; place < r->len; place += NUMGALIS_BLOCK)
		if (memcmp(r->at + place, r->was + place, NUMGALIS_BLOCK) && memcmp(r->at + place, data, NUMGALIS_BLOCK))
			fail("the %s got what was not written", r->name);
	if (changed(number == QUEUE ? JOURNALS : QUEUE))
		fail("the %s was changed", regions[number == QUEUE ? JOURNALS : QUEUE].name);
}

/* What the header says of an accepted call's results. */
static void check_accepted(const struct call *c)
{
	switch (c->export) {
	case X_format: check_card(NUMGALIS_SEGMENTS, 1); break;
	case X_mount:
		at_most("segment", out(OUT), 0);
		at_most("entry", out(OUT2), 0);
		break;
	case X_flush:
		at_most("stores", out(OUT), c->number[0]);
		at_most("ending", out(OUT2), NUMGALIS_SPENT);
		if (out(OUT2) == NUMGALIS_SPENT && out(OUT) != c->number[0])
			fail("spent after %zu of %zu stores", out(OUT), c->number[0]);
		check_card(out(OUT), 0);
		break;
	case X_new_list: in_range("list", out(OUT), NUMGALIS_LISTS); break;
	case X_new_block: in_range("block", out(OUT), NUMGALIS_BLOCKS); break;
	case X_write: check_written(c->number[0] == 0 ? QUEUE : JOURNALS); break;
	case X_read: at_most("race", out(OUT), NUMGALIS_RACES); break;
	case X_next: at_most("block", out(OUT), NUMGALIS_BLOCKS); break;
	case X_inventory:
		at_most("count", out(OUT), NUMGALIS_LISTS);
		for (size_t i = 0; i < out(OUT); i++)
			in_range("list", regions[DATA].at[i], NUMGALIS_LISTS);
		same_from(DATA, out(OUT));
		break;
	case X_page:
		at_most("length", out(OUT), c->data_len < NUMGALIS_PAGE ? c->data_len : NUMGALIS_PAGE);
		same_from(DATA, out(OUT));
		break;
	case X_conflicts: at_most("count", out(OUT), NUMGALIS_CONFLICTS); break;
	case X_flush_stores: at_most("count", out(OUT), c->number[0]); /* fall through */
	case X_format_stores:
		at_most("count", out(OUT), c->words_len);
		for (size_t i = 0; i < out(OUT); i++)
			at_most("offset", NUMGALIS_OFFSET(WORDS_AT[i]), regions[CARD].len - 1);
		same_from(WORDS, out(OUT) * sizeof *words);
		break;
	default: break;
	}
}

/* One call on a disk, checked; the disk itself is not changed. */
static size_t perform(const struct call *c, const struct disk *d)
{
	const unsigned may = mutable[c->export];
	const size_t unset[2] = {(size_t)-1 - rnd(1000), 1 + rnd(1000)};
	const int guarded = rnd(16) == 0;
	size_t refused;

	for (int i = 0; i < REGIONS; i++)
		regions[i].lent = 0;
	lend(&regions[CARD], d->card, d->card_len, !(may & 1));
	lend(&regions[QUEUE], d->queue, d->queue_len, !(may & 2));
	lend(&regions[JOURNALS], d->journals, d->journals_len, !(may & 4));
	lend(&regions[RECORD], d->record, NUMGALIS_RECORD, !(may & 8));
	lend(&regions[DATA], data, has_data(c->export) ? c->data_len : 0, c->export == X_write);
	lend(&regions[WORDS], words, has_words(c->export) ? c->words_len * sizeof *words : 0, 0);
	for (int i = 0; i < outs(c->export); i++)
		lend(&regions[OUT + i], &unset[i], sizeof unset[i], 0);
	if (++calls % 1024 == 1)
		alarm(10);
	if (guarded)
		protect(PROT_READ);
	running = (sig_atomic_t)c->export;
	refused = make(c, d);
	if (guarded)
		protect(PROT_READ | PROT_WRITE);

	if (refused >= KINDS || (refused && !(refusals[c->export] >> refused & 1)))
		fail("returned %zu, which the header does not name", refused);
	for (int i = 0; i < REGIONS; i++) {
		if (!regions[i].lent)
			continue;
		check_guards(&regions[i]);
		if (i >= OUT) {
			if (refused && out(i) != 0 && !(c->export == X_mount && refused == NUMGALIS_LOG_FAULT))
				fail("refused %zu, and the %s is %zu", refused, regions[i].name, out(i));
		} else if ((regions[i].constant || (refused && !(refused == NUMGALIS_CONFLICT && i == RECORD))) && changed(i)) {
			fail("returned %zu, and changed the %s", refused, regions[i].name);
		}
	}
	if (refused == NUMGALIS_LOG_FAULT) {
		at_most("segment of a fault", out(OUT), d->card_len / NUMGALIS_SEGMENT - 1);
		at_most("entry of a fault", out(OUT2), 255);
	}
	if (refused == 0)
		check_accepted(c);
	counts[c->export][refused]++;
	running = -1;
	return refused;
}

/* What the last call left becomes the disk's. */
static void keep(struct disk *d)
{
	memcpy(d->card, regions[CARD].at, d->card_len);
	memcpy(d->queue, regions[QUEUE].at, d->queue_len);
	memcpy(d->journals, regions[JOURNALS].at, d->journals_len);
	memcpy(d->record, regions[RECORD].at, NUMGALIS_RECORD);
}

/* The stores listed are those that the call makes: made one by one on the card they leave what the call
 * leaves. */
static void compare_listed(const struct call *listing, const struct disk *d)
{
	static uint8_t card[MOST_CARD];
	const int flushes = listing->export == X_flush_stores;
	struct call c = {.export = flushes ? X_flush : X_format, .number = {listing->number[0]}};
	const size_t refused = perform(listing, d), count = out(OUT);
	size_t made = d->card_len / NUMGALIS_SEGMENT;

	memcpy(card, d->card, d->card_len);
	for (size_t i = 0; i < count; i++)
		card[NUMGALIS_OFFSET(WORDS_AT[i])] = NUMGALIS_BYTE(WORDS_AT[i]);
	running = (sig_atomic_t)listing->export;
	if (perform(&c, d) != refused)
		fail("the look-up answers %zu, the call otherwise", refused);
	if (refused)
		return;
	if (flushes)
		made = out(OUT);
	if (count != (made < listing->words_len ? made : listing->words_len))
		fail("%s listed %zu of %zu stores, with room for %zu", names[listing->export], count, made, listing->words_len);
	if (count < made) {
		if (!flushes)
			return;
		c.number[0] = count;
		perform(&c, d);
	}
	if (memcmp(card, regions[CARD].at, d->card_len))
		fail("the stores that %s listed are others", names[listing->export]);
}

static size_t try_on(const struct call *c, struct disk *d)
{
	if (has_words(c->export)) {
		compare_listed(c, d);
		return 1; /* nothing to be kept */
	}
	return perform(c, d);
}

/* ---- Arguments ---- */

static size_t some_list(const struct disk *d)
{
	return rnd(8) ? d->lists[rnd(LISTS_GIVEN)] : 1 + rnd(NUMGALIS_LISTS);
}

static size_t some_block(const struct disk *d)
{
	return rnd(8) ? d->blocks[rnd(BLOCKS_GIVEN)] : 1 + rnd(NUMGALIS_BLOCKS);
}

static size_t some_unit(void) { return 1 + rnd(rnd(4) ? 2 : NUMGALIS_UNITS); }
static size_t some_stream(void) { return rnd(2) ? 0 : some_unit(); }
static size_t some_view(void) { return rnd(3) ? rnd(2) * NUMGALIS_PERSISTENT : some_unit(); }

/* Numbers that a sound caller could bring. */
static struct call sound_call(enum export e, const struct disk *d)
{
	static const size_t lens[] = {NUMGALIS_PAGE, NUMGALIS_PAGE, 41, 82, 123, 500, MOST_DATA};
	struct call c = {.export = e, .data_len = NUMGALIS_BLOCK, .words_len = rnd(64) ? rnd(300) : MOST_WORDS};
	size_t *n = c.number;

	fill_random(data, 16);
	switch (e) {
	case X_flush:
	case X_flush_stores: n[0] = rnd(4) ? rnd(600) : rnd(NUMGALIS_ALLOWANCE + 1); break;
	case X_new_list: n[0] = some_stream(); break;
	case X_new_block: n[0] = some_stream(), n[1] = some_list(d), n[2] = rnd(3) ? 0 : some_block(d); break;
	case X_write: n[0] = some_stream(), n[1] = some_block(d), n[2] = rnd(NUMGALIS_RACES + 1); break;
	case X_delete_block: n[0] = some_stream(), n[1] = some_block(d); break;
	case X_delete_list: n[0] = some_stream(), n[1] = some_list(d); break;
	case X_begin: n[0] = some_unit(), n[1] = 1 + rnd(NUMGALIS_WINDOWS); break;
	case X_end: n[0] = some_unit(); break;
	case X_read: n[0] = some_view(), n[1] = some_block(d); break;
	case X_next: n[0] = some_view(), n[1] = some_list(d), n[2] = rnd(2) ? 0 : some_block(d); break;
	case X_inventory: n[0] = some_view(), c.data_len = NUMGALIS_INVENTORY; break;
	case X_page: n[0] = some_view(), c.data_len = PICK(lens); break;
	case X_conflicts: n[0] = 1 + rnd(NUMGALIS_WINDOWS); break;
	default: break;
	}
	return c;
}

/* The same, with numbers and lengths that no sound caller would bring. */
static struct call wild_call(enum export e, const struct disk *d)
{
	static const size_t numbers[] = {0, 1, 4, 5, 6, 16, 17, 24, 25, 64, 65, 255, 256, 257, 65535, 65536, 65537,
		(size_t)1 << 32, ((size_t)1 << 32) + 1, (size_t)1 << 63, SIZE_MAX - 255, SIZE_MAX - 1, SIZE_MAX};
	static const size_t lens[] = {0, 1, 15, 16, 17, 40, 41, 255, 256, 257, 820, 860, 861, 862, MOST_DATA};
	struct call c = sound_call(e, d);

	for (int i = 0; i < 3; i++)
		if (rnd(2))
			c.number[i] = PICK(numbers);
	if (rnd(2))
		c.data_len = PICK(lens);
	if (rnd(2))
		c.words_len = rnd(3);
	return c;
}

/* ---- Disks ---- */

enum { DISKS = 28, TEMPERS = 7 };
static struct disk disks[DISKS];

/* How often a disk of each temper is asked for each call. What fills: the card with anything, the lists, the
 * blocks, the journals, the slots, the conflict counts, the queue. */
static const unsigned char weights[EXPORT_COUNT][TEMPERS] = {
	[X_format] = {4, 1, 1, 2, 6, 3, 1},
	[X_mount] = {4, 2, 1, 1, 8, 2, 1},
	[X_flush] = {64, 48, 64, 20, 80, 80, 4},
	[X_new_list] = {32, 120, 16, 24, 8, 32, 24},
	[X_new_block] = {64, 32, 240, 60, 40, 80, 60},
	[X_write] = {96, 16, 16, 80, 160, 40, 60},
	[X_delete_block] = {8, 4, 4, 32, 8, 48, 24},
	[X_delete_list] = {4, 2, 1, 12, 2, 12, 12},
	[X_begin] = {40, 16, 16, 32, 16, 64, 8},
	[X_end] = {40, 16, 16, 3, 16, 64, 8},
	[X_read] = {80, 16, 16, 24, 120, 24, 24},
	[X_next] = {32, 16, 16, 24, 24, 24, 24},
	[X_inventory] = {16, 16, 16, 8, 8, 8, 8},
	[X_page] = {16, 24, 24, 8, 8, 8, 8},
	[X_conflicts] = {8, 4, 4, 12, 4, 32, 4},
	[X_flush_stores] = {8, 4, 4, 4, 8, 4, 4},
	[X_format_stores] = {4, 4, 4, 4, 4, 4, 4},
};

static enum export weighed(size_t temper)
{
	size_t sum = 0, at;
	int e = 0;

	for (int i = 0; i < EXPORT_COUNT; i++)
		sum += weights[i][temper];
	for (at = rnd(sum); at >= weights[e][temper]; e++)
		at -= weights[e][temper];
	return (enum export)e;
}

/* Sound calls, one on what the other left. A power cut comes before each mount. */
static void live(struct disk *d, size_t temper, size_t steps)
{
	while (steps-- > 0) {
		struct call c = sound_call(weighed(temper), d);
		size_t refused;

		if (c.export == X_mount)
			fill_random(d->record, NUMGALIS_RECORD);
		refused = try_on(&c, d);
		if (refused == 0 || refused == NUMGALIS_CONFLICT)
			keep(d);
		if (refused == 0 && c.export == X_new_block)
			d->blocks[rnd(BLOCKS_GIVEN)] = out(OUT);
		else if (refused == 0 && c.export == X_new_list)
			d->lists[rnd(LISTS_GIVEN)] = out(OUT);
		else if (refused && c.export == X_mount)
			fail("a card that calls left is not mounted: %zu", refused);
	}
}

static void make_disks(void)
{
	static const size_t segments[] = {1, 1, 2, 2, 3, 3, 4, 8};
	const struct call format = {.export = X_format};

	for (size_t i = 0; i < DISKS; i++) {
		struct disk *d = &disks[i];
		d->card_len = (i == 0 ? NUMGALIS_SEGMENTS : segments[i % 8]) * NUMGALIS_SEGMENT;
		d->queue_len = NUMGALIS_QUEUE;
		d->journals_len = NUMGALIS_JOURNALS;
		for (size_t k = 0; k < BLOCKS_GIVEN; k++)
			d->blocks[k] = k + 1;
		for (size_t k = 0; k < LISTS_GIVEN; k++)
			d->lists[k] = k + 1;
		if (i % 2)
			fill_random(d->card, MOST_CARD);
		else
			memset(d->card, i % 4 ? 0 : 0xff, MOST_CARD);
		fill_random(d->queue, sizeof d->queue);
		fill_random(d->journals, sizeof d->journals);
		if (perform(&format, d) != 0)
			fail("a card is not formatted");
		keep(d);
		live(d, i % TEMPERS, i == 0 ? 500 : 8000);
	}
}

/* ---- Hostile input ---- */

static enum export any(void)
{
	return (enum export)rnd(EXPORT_COUNT);
}

/* A disk of the pool; the long card comes seldom, for it takes time. */
static size_t any_disk(void)
{
	return rnd(64) ? 1 + rnd(DISKS - 1) : 0;
}

static void change_bytes(uint8_t *bytes, size_t len, size_t most)
{
	for (size_t n = 1 + rnd(most); n > 0; n--) {
		uint8_t *b = &bytes[rnd(len)];
		switch (rnd(3)) {
		case 0: *b = (uint8_t)rnd(256); break;
		case 1: *b ^= (uint8_t)(1u << rnd(8)); break;
		default: *b = (uint8_t)(*b + (rnd(2) ? 1 : 255));
		}
	}
}

static struct disk lent;

static void take(size_t number)
{
	const struct disk *d = &disks[number];

	memcpy(lent.card, d->card, d->card_len);
	memcpy(lent.queue, d->queue, sizeof d->queue);
	memcpy(lent.journals, d->journals, sizeof d->journals);
	memcpy(lent.record, d->record, sizeof d->record);
	lent.card_len = d->card_len;
	lent.queue_len = d->queue_len;
	lent.journals_len = d->journals_len;
	memcpy(lent.blocks, d->blocks, sizeof d->blocks);
	memcpy(lent.lists, d->lists, sizeof d->lists);
}

static void records(size_t how_many)
{
	for (size_t i = 0; i < how_many; i++) {
		size_t number = any_disk();

		if (i % 8 == 0)
			live(&disks[number], number % TEMPERS, 1);
		take(number);
		switch (rnd(10)) {
		case 0: fill_random(lent.record, NUMGALIS_RECORD); break;
		case 1: memset(lent.record, 0, NUMGALIS_RECORD); break;
		case 2: memset(lent.record, 0xff, NUMGALIS_RECORD); break;
		case 3:
		case 4: memcpy(lent.record, disks[any_disk()].record, NUMGALIS_RECORD); break;
		default: change_bytes(lent.record, NUMGALIS_RECORD, 3);
		}
		for (int k = 0; k < 3; k++) {
			struct call c = rnd(8) ? sound_call(any(), &lent) : wild_call(any(), &lent);
			try_on(&c, &lent);
		}
	}
}

static void cards(size_t how_many)
{
	static const size_t lens[] = {0, 1, 4095, 4096, 4097, 8191, 8192, 8193, 12288, 20480, 262143, 262144, 262145, 266240,
		MOST_CARD};

	for (size_t i = 0; i < how_many; i++) {
		size_t number = any_disk();

		take(number);
		switch (rnd(6)) {
		case 0: fill_random(lent.card, lent.card_len); break;
		case 1:
			fill_random(lent.card, lent.card_len);
			for (size_t at = 14 * NUMGALIS_BLOCK; at < lent.card_len; at += NUMGALIS_SEGMENT)
				lent.card[at] = (uint8_t)rnd(4); /* few entries: the walk comes further */
			break;
		case 2: lent.card_len = rnd(8) ? lens[rnd(10)] : PICK(lens); break;
		case 3: change_bytes(lent.card, lent.card_len, 4); break;
		default:
			/* the first bytes of some summaries */
			for (size_t n = 1 + rnd(3); n > 0; n--) {
				size_t segment = rnd(lent.card_len / NUMGALIS_SEGMENT);
				change_bytes(lent.card + segment * NUMGALIS_SEGMENT + 14 * NUMGALIS_BLOCK, 40, 1);
			}
		}
		for (int k = 0; k < 3; k++) {
			struct call c = sound_call(k == 0 ? X_mount : any(), &lent);
			try_on(&c, &lent);
		}
	}
}

static void lengths_and_numbers(size_t how_many)
{
	static const size_t queue_lens[] = {0, 1, 256, 8191, 8193, 8448, NUMGALIS_QUEUE + PAGE_BYTES};
	static const size_t journals_lens[] = {0, 1, 3840, 15359, 15361, 15616, NUMGALIS_JOURNALS + PAGE_BYTES};

	for (size_t i = 0; i < how_many; i++) {
		const size_t number = any_disk();
		struct call c = rnd(2) ? wild_call(any(), &disks[number]) : sound_call(any(), &disks[number]);

		if (i % 8 == 0)
			live(&disks[number], number % TEMPERS, 1);
		take(number);
		if (rnd(8) == 0)
			lent.queue_len = PICK(queue_lens);
		if (rnd(8) == 0)
			lent.journals_len = PICK(journals_lens);
		try_on(&c, &lent);
	}
}

/* ---- What was reached ---- */

static int report(void)
{
	int missed = 0;

	printf("%-24s%8s%10s  refused with each number\n", "", "calls", "accepted");
	for (int e = 0; e < EXPORT_COUNT; e++) {
		unsigned long sum = 0;
		for (int k = 0; k < KINDS; k++)
			sum += counts[e][k];
		printf("%-24s%8lu%10lu ", names[e], sum, counts[e][0]);
		for (int k = 1; k < KINDS; k++)
			if (refusals[e] >> k & 1)
				printf(" %d: %lu", k, counts[e][k]);
		putchar('\n');
	}
	for (int e = 0; e < EXPORT_COUNT; e++)
		for (int k = 0; k < KINDS; k++)
			if ((k == 0 || (refusals[e] >> k & 1)) && counts[e][k] == 0) {
				fprintf(stderr, "%s: never answered %d\n", names[e], k);
				missed = 1;
			}
	printf("%lu calls\n", calls);
	return missed;
}

int main(void)
{
	struct sigaction action = {.sa_handler = crashed};

	sigaction(SIGSEGV, &action, NULL);
	sigaction(SIGBUS, &action, NULL);
	sigaction(SIGALRM, &action, NULL);
	make_regions();
	fill_random(data, sizeof data);
	for (size_t i = 0; i < MOST_WORDS; i++)
		words[i] = (uint32_t)rnd((size_t)1 << 32);
	make_disks();
	records(100000);
	cards(20000);
	lengths_and_numbers(60000);
	return report();
}

/* Which race card does a terminal wake up with, if the power drops while runner 2 is being scratched?
 * One unit takes the runner's block off its list and writes the others and the pool anew. The power is cut in
 * the middle of its flush: it is the old race card, whole. The power is cut behind it: the new one, whole. */
#include <stdio.h>
#include <stdlib.h>
#include <string.h>
#include <numgalis.h>

static uint8_t card[NUMGALIS_SEGMENT], queue[NUMGALIS_QUEUE], journals[NUMGALIS_JOURNALS], record[NUMGALIS_RECORD];

/* What every call is lent first. */
#define DISK card, sizeof card, queue, sizeof queue, journals, sizeof journals, record
#define MUST(call) expect(#call, (call), NUMGALIS_OK)

enum { RUNNERS = 1, OTHERS = 2, POOL = 4, UNIT = 1, WINDOW = 1 };

static const char OLD[] = "1 Alba | 2 Brio | 3 Cima | pool: Alba 120 Brio 80 Cima 50";
static const char NEW[] = "1 Alba, of two | 3 Cima, of two | pool: Alba 120 Cima 50, Brio's 80 refunded";

static void expect(const char *what, size_t found, size_t expected)
{
	if (found != expected) {
		fprintf(stderr, "%s: %zu, not %zu\n", what, found, expected);
		exit(1);
	}
}

static void write_text(size_t stream, size_t block, const char *text)
{
	uint8_t content[NUMGALIS_BLOCK] = {0};

	memcpy(content, text, strlen(text));
	MUST(numgalis_write(DISK, stream, block, 0, content, sizeof content));
}

static void set_up(void)
{
	static const char *const text[] = {"1 Alba", "2 Brio", "3 Cima", "pool: Alba 120 Brio 80 Cima 50"};
	size_t list, block, stores, ending;

	memset(card, 0xff, sizeof card);
	MUST(numgalis_format(DISK));
	MUST(numgalis_new_list(DISK, 0, &list));
	expect("the runners' list", list, RUNNERS);
	MUST(numgalis_new_list(DISK, 0, &list));
	expect("the pool's list", list, OTHERS);
	for (size_t i = 0; i < 4; i++) {
		MUST(numgalis_new_block(DISK, 0, i + 1 < POOL ? RUNNERS : OTHERS, i + 1 < POOL ? i : 0, &block));
		expect("a new block", block, i + 1);
		write_text(0, block, text[i]);
	}
	MUST(numgalis_flush(DISK, NUMGALIS_ALLOWANCE, &stores, &ending));
	expect("the flush of the race card", ending, NUMGALIS_DRAINED);
}

static void scratch(size_t allowance, size_t expected)
{
	size_t stores, ending;

	MUST(numgalis_begin(DISK, UNIT, WINDOW));
	MUST(numgalis_delete_block(DISK, UNIT, 2));
	write_text(UNIT, 1, "1 Alba, of two");
	write_text(UNIT, 3, "3 Cima, of two");
	write_text(UNIT, POOL, "pool: Alba 120 Cima 50, Brio's 80 refunded");
	MUST(numgalis_end(DISK, UNIT));
	MUST(numgalis_flush(DISK, allowance, &stores, &ending));
	expect("the flush of the scratch", ending, expected);
	printf("Runner 2 is scratched; the power is cut after %zu stores.\n", stores);
}

/* The power is back: of the disk only the card is left. */
static void wake(const char *which, const char *expected)
{
	char seen[4 * (NUMGALIS_BLOCK + 4)] = "";
	size_t segment, entry, block = 0, race, at = 0;
	uint8_t content[NUMGALIS_BLOCK];

	memset(queue, 0xa5, sizeof queue);
	memset(journals, 0xa5, sizeof journals);
	memset(record, 0xa5, sizeof record);
	MUST(numgalis_mount(DISK, &segment, &entry));
	for (size_t list = RUNNERS; list <= OTHERS; list++)
		for (MUST(numgalis_next(DISK, 0, list, 0, &block)); block; MUST(numgalis_next(DISK, 0, list, block, &block))) {
			MUST(numgalis_read(DISK, 0, block, content, sizeof content, &race));
			at += (size_t)snprintf(seen + at, sizeof seen - at, "%s%.256s", at ? " | " : "", (const char *)content);
		}
	expect(which, strcmp(seen, expected) == 0, 1);
	printf("  It wakes up with %s:\n  %s\n", which, seen);
}

int main(void)
{
	set_up();
	scratch(600, NUMGALIS_SPENT);
	wake("the old race card, whole", OLD);
	scratch(NUMGALIS_ALLOWANCE, NUMGALIS_DRAINED);
	wake("the new race card, whole", NEW);
	return 0;
}

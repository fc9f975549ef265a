/* A driver for a device that cannot be lent as memory: here a file. It keeps a copy of the card in memory,
 * asks for the list of stores before each call that stores, makes them on the device one byte at a time, and
 * then makes the call on the copy. A power cut is played after every single store: what is left on the device
 * mounts, and shows the state before the unit or the state with it, whole. */
#include <stdio.h>
#include <stdlib.h>
#include <string.h>
#include <numgalis.h>

/* WORDS is less than a unit has stores: the driver goes on in turns. */
enum { CARD = 2 * NUMGALIS_SEGMENT, WORDS = 100 };

struct disk {
	uint8_t card[CARD], queue[NUMGALIS_QUEUE], journals[NUMGALIS_JOURNALS], record[NUMGALIS_RECORD];
};

#define LENT(d) (d)->card, CARD, (d)->queue, NUMGALIS_QUEUE, (d)->journals, NUMGALIS_JOURNALS, (d)->record
#define MUST(call) expect(#call, (call), NUMGALIS_OK)

/* What can be read of a disk in a view. */
struct state {
	size_t refused[NUMGALIS_BLOCKS], race[NUMGALIS_BLOCKS], length;
	uint8_t content[NUMGALIS_BLOCKS][NUMGALIS_BLOCK], page[NUMGALIS_PAGE];
};

static void expect(const char *what, size_t found, size_t expected)
{
	if (found != expected) {
		fprintf(stderr, "%s: %zu, not %zu\n", what, found, expected);
		exit(1);
	}
}

static void look(const struct disk *d, size_t view, struct state *s)
{
	memset(s, 0, sizeof *s);
	MUST(numgalis_page(LENT(d), view, s->page, sizeof s->page, &s->length));
	for (size_t i = 0; i < NUMGALIS_BLOCKS; i++)
		s->refused[i] = numgalis_read(LENT(d), view, i + 1, s->content[i], NUMGALIS_BLOCK, &s->race[i]);
}

static void read_device(FILE *device, uint8_t *bytes)
{
	expect("seeking on the device", (size_t)fseek(device, 0, SEEK_SET), 0);
	expect("bytes read off the device", fread(bytes, 1, CARD, device), CARD);
}

/* One store on the device: its byte, and nothing else. */
static void store(FILE *device, uint32_t word)
{
	expect("seeking on the device", (size_t)fseek(device, (long)NUMGALIS_OFFSET(word), SEEK_SET), 0);
	expect("the byte stored", (size_t)fputc(NUMGALIS_BYTE(word), device), NUMGALIS_BYTE(word));
	expect("flushing the device", (size_t)fflush(device), 0);
}

static void compare(FILE *device, const struct disk *d)
{
	uint8_t bytes[CARD];

	read_device(device, bytes);
	expect("device and copy differ", memcmp(bytes, d->card, CARD) != 0, 0);
}

static void format(FILE *device, struct disk *d)
{
	uint32_t stores[NUMGALIS_SEGMENTS];
	size_t count;

	MUST(numgalis_format_stores(LENT(d), stores, NUMGALIS_SEGMENTS, &count));
	expect("stores of a formatting", count, CARD / NUMGALIS_SEGMENT);
	for (size_t k = 0; k < count; k++)
		store(device, stores[k]);
	MUST(numgalis_format(LENT(d)));
	compare(device, d);
}

/* The power drops now: a terminal finds the device, and nothing else. Is it the new state? */
static int wakes_new(FILE *device, const struct state *old, const struct state *new)
{
	static struct disk found;
	static struct state woken;
	size_t segment, entry;

	memset(&found, 0xa5, sizeof found);
	read_device(device, found.card);
	MUST(numgalis_mount(LENT(&found), &segment, &entry));
	look(&found, NUMGALIS_COMMITTED, &woken);
	expect("a mixture of old and new", memcmp(&woken, old, sizeof woken) && memcmp(&woken, new, sizeof woken), 0);
	return memcmp(&woken, new, sizeof woken) == 0;
}

/* The queue goes to the device in turns: list, store, flush as many as were listed. With cuts, the power drops
 * after each store in turn; the last one alone is to bring the new state. */
static size_t drain(FILE *device, struct disk *d, int cuts)
{
	static struct state old, new;
	uint32_t stores[WORDS];
	size_t count, made, ending, total = 0, first_new = 0;

	look(d, NUMGALIS_PERSISTENT, &old);
	look(d, NUMGALIS_COMMITTED, &new);
	do {
		MUST(numgalis_flush_stores(LENT(d), NUMGALIS_ALLOWANCE, stores, WORDS, &count));
		for (size_t k = 0; k < count; k++) {
			store(device, stores[k]);
			total++;
			if (cuts && wakes_new(device, &old, &new) && !first_new)
				first_new = total;
		}
		MUST(numgalis_flush(LENT(d), count, &made, &ending));
		expect("stores made on the copy", made, count);
		expect("nothing listed of a queue that waits", count == 0 && ending == NUMGALIS_SPENT, 0);
		compare(device, d);
	} while (ending == NUMGALIS_SPENT);
	expect("the flush's ending", ending, NUMGALIS_DRAINED);
	if (cuts)
		expect("the first store that brings the new state", first_new, total);
	return total;
}

int main(void)
{
	static struct disk disk;
	uint8_t content[NUMGALIS_BLOCK] = {7};
	size_t list, first, second, stores;
	FILE *device = tmpfile();

	expect("a file as device", device != NULL, 1);
	memset(disk.card, 0xff, CARD);
	expect("bytes of the device", fwrite(disk.card, 1, CARD, device), CARD);
	format(device, &disk);
	MUST(numgalis_new_list(LENT(&disk), 0, &list));
	MUST(numgalis_new_block(LENT(&disk), 0, list, 0, &first));
	MUST(numgalis_write(LENT(&disk), 0, first, 5, content, sizeof content));
	printf("%zu stores set the disk up; device and copy are the same\n", drain(device, &disk, 0));
	MUST(numgalis_begin(LENT(&disk), 1, 1));
	MUST(numgalis_new_block(LENT(&disk), 1, list, first, &second));
	MUST(numgalis_write(LENT(&disk), 1, second, 0, content, sizeof content));
	MUST(numgalis_write(LENT(&disk), 1, first, 6, content, sizeof content));
	MUST(numgalis_end(LENT(&disk), 1));
	stores = drain(device, &disk, 1);
	printf("%zu stores bring the unit, at most %d in a turn; the power was cut after each of them:\n", stores, WORDS);
	printf("%zu times the old state, whole; with the last store the new one, whole\n", stores - 1);
	fclose(device);
	return 0;
}

/*
 * Prints a listing file as MASM lines, by the archive.
 *
 *     gcc -Iinclude -o host examples/host.c target/staticlib/libhost.a
 *     ./host examples/drive.lst
 *     ./host examples/drive.lst crate
 *     ./host examples/drive2.lst target
 *
 * Three steps: read the file, ask how long the text is by lending a buffer of length 0, print into a
 * buffer of that length. Exit status: 0 printed; 1 the listing could not be read, printed or written;
 * 2 called wrongly.
 */
#include <errno.h>
#include <stdio.h>
#include <stdlib.h>
#include <string.h>

#include "masm_listing.h"

static int complain(const char *about, const char *why)
{
	fprintf(stderr, "host: %s: %s\n", about, why);
	return 1;
}

/* The bytes of a whole file, or NULL with errno set. One byte more than the longest listing is
   enough: the archive refuses it. */
static uint8_t *read_whole(const char *path, size_t *length)
{
	size_t room = (size_t)MASM_LISTING_MAX + 1;
	uint8_t *bytes = malloc(room);
	FILE *file = fopen(path, "rb");
	int why = 0;

	*length = 0;
	if (bytes == NULL || file == NULL) {
		why = errno;
	} else {
		errno = 0;
		*length = fread(bytes, 1, room, file);
		if (ferror(file))
			why = errno != 0 ? errno : EIO;
	}
	if (file != NULL)
		fclose(file);
	if (why != 0) {
		free(bytes);
		bytes = NULL;
		errno = why;
	}
	return bytes;
}

/* What the archive answered, in words. */
static const char *meaning(uint32_t answer)
{
	switch (answer) {
	case MASM_BAD_MODE:
		return "the mode is above 2";
	case MASM_BAD_LENGTH:
		return "the listing is longer than 16777216 bytes";
	case MASM_NO_ROOM:
		return "the text is longer than the buffer";
	default:
		return "an answer that a listing does not get";
	}
}

int main(int argc, char **argv)
{
	uint32_t mode = MASM_MODE_STRAIGHT;
	uint8_t none[1] = {0};
	uint8_t *listing, *text = NULL;
	size_t listing_len, text_len;
	uint64_t returned;
	int status = 0;

	if (argc == 3 && strcmp(argv[2], "crate") == 0)
		mode = MASM_MODE_CRATE;
	else if (argc == 3 && strcmp(argv[2], "target") == 0)
		mode = MASM_MODE_TARGET;
	else if (argc != 2 && !(argc == 3 && strcmp(argv[2], "straight") == 0)) {
		fprintf(stderr, "use: %s FILE [crate|straight|target]\n", argc > 0 ? argv[0] : "host");
		return 2;
	}

	listing = read_whole(argv[1], &listing_len);
	if (listing == NULL)
		return complain(argv[1], strerror(errno));

	/* A buffer of length 0: the answer is 6 with the bytes needed, or 0 where there is no text. */
	returned = masm_print_listing(listing, listing_len, mode, none, 0);
	text_len = masm_length(returned);
	if (masm_answer(returned) == MASM_NO_ROOM) {
		text = malloc(text_len);
		if (text == NULL) {
			free(listing);
			return complain(argv[1], "there is no memory for its text");
		}
		returned = masm_print_listing(listing, listing_len, mode, text, text_len);
	}

	if (masm_answer(returned) != MASM_PRINTED)
		status = complain(argv[1], meaning(masm_answer(returned)));
	else if (text != NULL && fwrite(text, 1, masm_length(returned), stdout) != masm_length(returned))
		status = complain("standard output", strerror(errno));
	if (fflush(stdout) != 0 && status == 0)
		status = complain("standard output", strerror(errno));

	free(text);
	free(listing);
	return status;
}

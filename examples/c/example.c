/* Reads and drafts again a recorded group key message through the C interface of the library. Run it by examples/run-c.sh. */
#include "mikey.h"

#include <stdio.h>
#include <string.h>

static const uint64_t KEY = 0x0123456789abcdef;

/* The one signer whom the station trusts: a length byte, and the bytes. */
static const char TRUSTED[] = "\x15sip:gms@line4.example";

/* Reads a file into lent bytes. One byte more than the longest message, so that a longer one is refused for its length. */
static size_t load(const char *name, uint8_t *bytes, size_t room)
{
    FILE *file = fopen(name, "rb");
    if (file == NULL) {
        perror(name);
        return 0;
    }
    size_t length = fread(bytes, 1, room, file);
    fclose(file);
    return length;
}

static void print_rows(const uint8_t *rows, uint32_t count, uint32_t header, uint32_t span)
{
    printf("%u payloads, a header of %u bytes, a span of %u\n", count, header, span);
    printf("code slot start length\n");
    for (uint32_t i = 0; i < count; i++)
        printf("%u %u %u %u\n", mikey_row_code(rows, i), mikey_row_slot(rows, i), mikey_row_start(rows, i),
               mikey_row_length(rows, i));
}

static void print_refusal(const char *what, uint32_t code, uint32_t place, uint32_t detail)
{
    printf("%s: refused %u %u %u\n", what, code, place, detail);
}

/* Walks a message, prints its rows and the time of its first payload. */
static int walk(const uint8_t *message, size_t length)
{
    uint8_t rows[MIKEY_TABLE_BYTES];
    uint32_t count = 0, header = 0, span = 0, place = 0, detail = 0;
    uint32_t code = mikey_walk(message, length, rows, sizeof rows, &count, &header, &span, &place, &detail);
    if (code != MIKEY_OK) {
        print_refusal("walk", code, place, detail);
        return 1;
    }
    print_rows(rows, count, header, span);
    uint64_t seconds = 0;
    code = mikey_time(message + mikey_row_start(rows, 0), mikey_row_length(rows, 0), &seconds, &place, &detail);
    if (code != MIKEY_OK) {
        print_refusal("time", code, place, detail);
        return 1;
    }
    printf("time %llu\n", (unsigned long long)seconds);
    return 0;
}

/* Reads a message as that of a group key. */
static void read_group_key(const char *what, const uint8_t *message, size_t length)
{
    uint8_t rows[MIKEY_TABLE_BYTES];
    uint32_t count = 0, header = 0, span = 0, place = 0, detail = 0;
    uint32_t code = mikey_read_fixed(message, length, rows, sizeof rows, MIKEY_GMK, KEY, (const uint8_t *)TRUSTED,
                                     sizeof TRUSTED - 1, &count, &header, &span, &place, &detail);
    if (code == MIKEY_OK)
        printf("%s: ok %u %u %u\n", what, count, header, span);
    else
        print_refusal(what, code, place, detail);
}

/* Drafts a message again, and compares it with itself. */
static int redraft(const uint8_t *message, size_t length)
{
    uint8_t buffer[MIKEY_LONGEST];
    uint32_t again = 0, place = 0, detail = 0;
    uint32_t code = mikey_redraft_fixed(message, length, MIKEY_GMK, KEY, (const uint8_t *)TRUSTED, sizeof TRUSTED - 1, buffer,
                                        sizeof buffer, &again, &place, &detail);
    if (code != MIKEY_OK) {
        print_refusal("redraft", code, place, detail);
        return 1;
    }
    int same = again == length && memcmp(buffer, message, length) == 0;
    printf("redraft: ok %u, %s\n", again, same ? "the same bytes" : "other bytes");
    return !same;
}

int main(int argc, char **argv)
{
    if (argc != 3) {
        fprintf(stderr, "usage: %s SAMPLE GROUP-MESSAGE\n", argv[0]);
        return 2;
    }
    static uint8_t sample[MIKEY_LONGEST + 1], message[MIKEY_LONGEST + 1];
    size_t sample_length = load(argv[1], sample, sizeof sample);
    size_t length = load(argv[2], message, sizeof message);
    if (sample_length == 0 || length == 0)
        return 2;
    if (walk(sample, sample_length) != 0)
        return 1;
    /* its signature is no tag of this key */
    read_group_key("sample", sample, sample_length);
    /* without its last byte */
    read_group_key("cut", message, length - 1);
    read_group_key("message", message, length);
    return redraft(message, length);
}

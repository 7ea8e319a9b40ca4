/*
 * The three calls on one file: the root in hex on the first line, the strip in hex on the second.
 *
 *     example FILE [ANSWER]
 *
 * Prints a table's size, the strip's length and the verdict. Ends with 1 if an answer is not the expected
 * one (for the verdict this is ANSWER, if it is given), and with 2 if there is no such file of hex.
 */
#include <inttypes.h>
#include <stdio.h>
#include <stdlib.h>
#include <string.h>

#include "strips.h"

/* More than the longest strip, so that one with surplus bytes can still be shown to be none. */
enum { MOST = 1024, ROOT_BYTES = 32 };

static int wrong;

static void expect(const char *what, uint64_t found, uint64_t expected)
{
    if (found != expected) {
        fprintf(stderr, "%s: %" PRIu64 ", not %" PRIu64 "\n", what, found, expected);
        wrong = 1;
    }
}

static _Noreturn void give_up(const char *path, const char *why)
{
    fprintf(stderr, "%s: %s\n", path, why);
    exit(2);
}

static int digit(char c)
{
    if (c >= '0' && c <= '9')
        return c - '0';
    if (c >= 'a' && c <= 'f')
        return c - 'a' + 10;
    return -1;
}

/* Reads a line of hex into bytes and answers how many there are. */
static size_t read_line(FILE *file, const char *path, uint8_t bytes[MOST])
{
    char line[2 * MOST + 3]; /* the digits, \r, \n and the closing zero */
    if (!fgets(line, sizeof line, file))
        give_up(path, "not two lines");
    size_t digits = strcspn(line, "\r\n");
    if (digits % 2 != 0)
        give_up(path, "an odd number of digits");
    if (digits / 2 > MOST)
        give_up(path, "a line that is too long");
    for (size_t i = 0; i < digits / 2; i++) {
        int high = digit(line[2 * i]), low = digit(line[2 * i + 1]);
        if (high < 0 || low < 0)
            give_up(path, "a character that is no digit");
        bytes[i] = (uint8_t)(high * 16 + low);
    }
    return digits / 2;
}

static const char *in_words(uint32_t answer)
{
    switch (answer) {
    case STRIPS_YES:
        return "yes";
    case STRIPS_NO:
        return "no";
    case STRIPS_ROOT_LENGTH:
        return "refused, the root has not 32 bytes";
    case STRIPS_NO_STRIP:
        return "refused, the bytes are no sealed strip";
    default:
        return "an answer that there is not";
    }
}

int main(int argc, char **argv)
{
    if (argc != 2 && argc != 3) {
        fprintf(stderr, "usage: %s FILE [ANSWER]\n", argv[0]);
        return 2;
    }
    FILE *file = fopen(argv[1], "r");
    if (!file)
        give_up(argv[1], "cannot be read");
    uint8_t root[MOST] = {0}, strip[MOST] = {0};
    size_t root_len = read_line(file, argv[1], root);
    size_t strip_len = read_line(file, argv[1], strip);
    fclose(file);

    uint64_t cells = strips_table_size(4, 2);
    printf("table for height 4 and subtrees of height 2: %" PRIu64 " cells\n", cells);
    expect("table size", cells, 19);
    expect("table size where 3 does not divide 4", strips_table_size(4, 3), 0);

    /* Kind and height stand at places 1 and 2, if the bytes go so far. */
    uint32_t kind = strip_len > 1 ? strip[1] : 0;
    uint32_t height = strip_len > 2 ? strip[2] : 0;
    uint64_t length = strips_strip_length(kind, height);
    printf("strip of kind %" PRIu32 " and height %" PRIu32 ": %" PRIu64 " bytes, here %zu\n",
           kind, height, length, strip_len);
    expect("strip length of an unknown kind", strips_strip_length(3, 4), 0);

    uint32_t answer = strips_check(strip, strip_len, root, root_len);
    printf("verdict: %s\n", in_words(answer));
    if (argc == 3)
        expect("verdict", answer, strtoul(argv[2], NULL, 10));
    if (answer == STRIPS_YES || answer == STRIPS_NO) /* then it is a sealed strip, and has its length */
        expect("strip length", length, strip_len);

    /* No bytes: the pointer may be NULL, and the root's length comes first. */
    expect("no strip", strips_check(NULL, 0, root, ROOT_BYTES), STRIPS_NO_STRIP);
    expect("no root", strips_check(strip, strip_len, NULL, 0), STRIPS_ROOT_LENGTH);
    expect("neither", strips_check(NULL, 0, NULL, 0), STRIPS_ROOT_LENGTH);

    return wrong;
}

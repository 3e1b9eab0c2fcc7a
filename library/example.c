/* Prints the answer to a table: of the file that is named, or of standard input. */
#include <inttypes.h>
#include <stdio.h>

#include "pdl.h"

/* One record more than a table may have, so that a longer input is seen to be longer. */
#define INPUT_BYTES (PDL_TABLE_BYTES + PDL_RECORD_BYTES)

/* A reply's name, and how many values it has. */
struct row {
    const char *name;
    int values;
};

/* By the number of the reply. */
static const struct row rows[] = {
    [PDL_UNEVEN] = {"Uneven", 0},
    [PDL_TOO_LONG] = {"TooLong", 0},
    [PDL_MALFORMED] = {"Malformed", 1},
    [PDL_FAULTY] = {"Faulty", 2},
    [PDL_SWOLLEN] = {"Swollen", 0},
    [PDL_UNFIT] = {"Unfit", 1},
    [PDL_LOOSE] = {"Loose", 1},
    [PDL_OVERLISTED] = {"Overlisted", 0},
    [PDL_NO_ROOM] = {"NoRoom", 1},
    [PDL_ACCEPTED] = {"Accepted", 1},
};

static uint8_t input[INPUT_BYTES], table[PDL_TABLE_BYTES], faults[PDL_TABLE_BYTES];

/* Reads all, and returns the length; of an input longer than the buffer one with the same remainder by 40, which gets the same reply. */
static size_t read_input(FILE *file)
{
    size_t length = 0;
    int byte;
    while ((byte = getc(file)) != EOF) {
        if (length == INPUT_BYTES)
            length -= PDL_RECORD_BYTES;
        input[length++] = (uint8_t)byte;
    }
    return length;
}

/* The number of some bytes, little endian. */
static uint64_t number(const uint8_t *bytes, int length)
{
    uint64_t sum = 0;
    while (length-- > 0)
        sum = sum << 8 | bytes[length];
    return sum;
}

static void print_reply(const uint64_t reply[3])
{
    const struct row *row = &rows[reply[0]];
    printf("%s", row->name);
    for (int value = 1; value <= row->values; value++)
        printf(" %" PRIu64, reply[value]);
    printf("\n");
}

/* Kind, marks, name, second, third, one, two, key, start, end. */
static void print_record(const uint8_t *bytes)
{
    static const struct { int at, length; } parts[] = {
        {0, 1}, {1, 1}, {2, 2}, {4, 2}, {6, 2}, {8, 8}, {16, 8}, {24, 2}, {28, 2}, {32, 2},
    };
    for (size_t part = 0; part < sizeof parts / sizeof *parts; part++)
        printf("%s%" PRIu64, part ? " " : "", number(bytes + parts[part].at, parts[part].length));
    printf("\n");
}

/* The code, then the primary location, then the secondary one if there is one. */
static void print_fault(const uint8_t *bytes)
{
    int end = number(bytes + 2, 2) ? PDL_FAULT_BYTES : 12;
    printf("%" PRIu64, number(bytes, 2));
    for (int at = 4; at < end; at += 4)
        printf(" %" PRIu64, number(bytes + at, 4));
    printf("\n");
}

int main(int argc, char **argv)
{
    uint64_t reply[3];
    FILE *file = argc > 1 ? fopen(argv[1], "rb") : stdin;
    if (file == NULL) {
        perror(argv[1]);
        return 1;
    }
    pdl_analyze(input, read_input(file), table, sizeof table, faults, sizeof faults, reply);
    print_reply(reply);
    if (reply[0] == PDL_ACCEPTED)
        for (uint64_t place = 0; place < reply[1]; place++)
            print_record(table + place * PDL_RECORD_BYTES);
    if (reply[0] == PDL_FAULTY)
        for (uint64_t kept = 0; kept < reply[2] && kept < sizeof faults / PDL_FAULT_BYTES; kept++)
            print_fault(faults + kept * PDL_FAULT_BYTES);
    return 0;
}

/* Writes a column file by its parts and lists it:
 *
 *     write FILE PRE POST STRING...
 *
 * Each line of standard input is a column: its bases, a space, and its qualities as letters, ! for 0 and I for 40. An empty line
 * is a column without observations. A further space as a letter is an absent quality, 255, which the writer refuses. */
#include <consensus.h>
#include <inttypes.h>
#include <stdio.h>
#include <stdlib.h>
#include <string.h>

enum { LONGEST = CONSENSUS_LONGEST_FILE, COLUMNS = 32764 };

static uint8_t file[LONGEST], text[CONSENSUS_LISTING_ROOM];
static char *columns[COLUMNS];
static char line[2 * LONGEST];

/* The writer after a step; a refused step ends the program. */
static uint64_t stepped(uint64_t reply, const char *part) {
    if (CONSENSUS_IS_REFUSED(reply)) {
        fprintf(stderr, "write: %s is refused by condition %" PRIu64 "\n", part, reply);
        exit(1);
    }
    return reply;
}

/* A column in its file form: its count in two bytes, low byte first, then base and quality in turn. Reply: its length. */
static size_t column_of(const char *words, uint8_t *part) {
    size_t depth = strcspn(words, " ");
    const char *qualities = words + depth + (words[depth] == ' ');
    if (depth > 65535 || strlen(qualities) != depth) {
        fprintf(stderr, "write: as many qualities as bases, please: %s\n", words);
        exit(2);
    }
    part[0] = (uint8_t)(depth & 255);
    part[1] = (uint8_t)(depth >> 8);
    for (size_t i = 0; i < depth; i++) {
        part[2 + 2 * i] = (uint8_t)words[i];
        part[3 + 2 * i] = (uint8_t)((unsigned char)qualities[i] - 33);
    }
    return 2 + 2 * depth;
}

/* The lines of standard input; the file announces how many columns there are before the first. */
static size_t read_columns(void) {
    size_t many = 0;
    while (fgets(line, sizeof line, stdin)) {
        if (many == COLUMNS) {
            fprintf(stderr, "write: a file has room for at most %d columns\n", COLUMNS);
            exit(2);
        }
        line[strcspn(line, "\n")] = 0;
        columns[many] = (char *)malloc(strlen(line) + 1);
        if (!columns[many])
            exit(2);
        strcpy(columns[many++], line);
    }
    return many;
}

int main(int count, char **words) {
    static uint8_t part[2 + 2 * 65535 + 2];
    if (count < 4 || count - 4 > 255) {
        fprintf(stderr, "usage: write FILE PRE POST STRING... < COLUMNS\n");
        return 2;
    }
    size_t many = read_columns();
    const uint8_t settings[] = {3, (uint8_t)atoi(words[2]), (uint8_t)atoi(words[3]), CONSENSUS_FGBIO_COMPAT,
                                (uint8_t)(many & 255), (uint8_t)(many >> 8)};
    uint64_t writer = consensus_writer();
    writer = stepped(consensus_write_settings(writer, settings, sizeof settings, file, sizeof file), "the settings");
    for (size_t i = 0; i < many; i++) {
        size_t length = column_of(columns[i], part);
        writer = stepped(consensus_write_column(writer, part, length, file, sizeof file), "a column");
        free(columns[i]);
    }

    /* The string set: how many strings there are, then each after its length. */
    size_t length = 1;
    part[0] = (uint8_t)(count - 4);
    for (int i = 4; i < count; i++) {
        size_t letters = strlen(words[i]);
        if (letters > 255) {
            fprintf(stderr, "write: a string has at most 255 letters\n");
            return 2;
        }
        part[length++] = (uint8_t)letters;
        memcpy(part + length, words[i], letters);
        length += letters;
    }
    writer = stepped(consensus_write_strings(writer, part, length, file, sizeof file), "the strings");
    writer = stepped(consensus_write_finish(writer), "the finish");

    size_t written = (size_t)consensus_written(writer);
    FILE *out = fopen(words[1], "wb");
    if (!out || fwrite(file, 1, written, out) != written || fclose(out) != 0) {
        perror(words[1]);
        return 2;
    }
    fwrite(text, 1, (size_t)consensus_list(file, written, text, sizeof text), stdout);
    return 0;
}

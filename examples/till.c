/*
 * A till in C. It reads a day from standard input, line by line, and prints each verdict:
 *
 *   set I                the set of parameters: the library has this one
 *   a V V ..             the words of the public key's polynomial a, and `t V V ..` those of t
 *   poke public I V      writes word I of the public key
 *   till, till C         opens a till under the public key as it stands, with no last counter or with C
 *   check HEX, check     shows the till that record, or no bytes
 *   last                 tells the till's last counter
 *
 * An empty line and a line that begins with # do nothing. All lines but `last` are those of docs/SCENARIO.md, and told alike; one
 * that is not understood ends the program with status 1.
 */
#include <ctype.h>
#include <inttypes.h>
#include <stdbool.h>
#include <stdio.h>
#include <string.h>

#include "cavrudez.h"

#define MOST_WORDS 1024
#define MOST_BYTES 4096
#define LINE_ROOM 32768

struct words {
    size_t length;
    uint32_t items[MOST_WORDS];
};

struct bytes {
    size_t length;
    uint8_t items[MOST_BYTES];
};

/* The public key as its lines set it, and the till with the key that it was opened under. */
struct shop {
    struct words a;
    struct words t;
    bool is_open;
    struct cavrudez_till till;
    size_t key_length;
    uint32_t key[2 * MOST_WORDS];
};

static bool read_number(const char *text, uint32_t most, uint32_t *number)
{
    uint64_t read = 0;
    if (text == NULL || *text == '\0')
        return false;
    for (; *text != '\0'; text++) {
        if (*text < '0' || *text > '9')
            return false;
        read = 10 * read + (uint64_t)(*text - '0');
        if (read > most)
            return false;
    }
    *number = (uint32_t)read;
    return true;
}

/* The words of the rest of the line. */
static bool read_words(struct words *words)
{
    char *text;
    words->length = 0;
    while ((text = strtok(NULL, " ")) != NULL) {
        if (words->length == MOST_WORDS || !read_number(text, UINT32_MAX, &words->items[words->length]))
            return false;
        words->length++;
    }
    return true;
}

static int digit_value(char digit)
{
    static const char digits[] = "0123456789abcdef";
    const char *found = digit == '\0' ? NULL : strchr(digits, tolower((unsigned char)digit));
    return found == NULL ? -1 : (int)(found - digits);
}

static bool read_bytes(const char *hex, struct bytes *bytes)
{
    bytes->length = 0;
    for (; *hex != '\0'; hex += 2) {
        int high = digit_value(hex[0]);
        int low = digit_value(hex[1]);
        if (high < 0 || low < 0 || bytes->length == MOST_BYTES)
            return false;
        bytes->items[bytes->length++] = (uint8_t)(16 * high + low);
    }
    return true;
}

static void tell(uint8_t number, const struct cavrudez_answer *answer)
{
    switch (number) {
    case CAVRUDEZ_ACCEPTED:
        printf("check ok counter %" PRIu16 " digest ", answer->counter);
        for (size_t i = 0; i < CAVRUDEZ_DIGEST_BYTES; i++)
            printf("%02" PRIx8, answer->digest[i]);
        printf("\n");
        break;
    case CAVRUDEZ_NOT_RESIDUE:
        printf("check refused %" PRIu8 " area public index %zu\n", number, answer->index);
        break;
    case CAVRUDEZ_OUT_OF_REACH:
    case CAVRUDEZ_UNUSED_CODE:
        printf("check refused %" PRIu8 " index %zu\n", number, answer->index);
        break;
    default:
        printf("check refused %" PRIu8 "\n", number);
    }
}

static bool poke(struct shop *shop)
{
    const char *area = strtok(NULL, " ");
    uint32_t index;
    uint32_t word;
    if (area == NULL || strcmp(area, "public") != 0)
        return false;
    if (!read_number(strtok(NULL, " "), UINT32_MAX, &index) || !read_number(strtok(NULL, " "), UINT32_MAX, &word))
        return false;
    if (index < shop->a.length)
        shop->a.items[index] = word;
    else if (index - shop->a.length < shop->t.length)
        shop->t.items[index - shop->a.length] = word;
    else
        return false;
    return true;
}

static bool open_till(struct shop *shop)
{
    const char *counter = strtok(NULL, " ");
    uint32_t last = CAVRUDEZ_NO_COUNTER;
    if (counter != NULL && !read_number(counter, UINT16_MAX, &last))
        return false;
    memcpy(shop->key, shop->a.items, shop->a.length * sizeof(uint32_t));
    memcpy(shop->key + shop->a.length, shop->t.items, shop->t.length * sizeof(uint32_t));
    shop->key_length = shop->a.length + shop->t.length;
    cavrudez_till_open(&shop->till, last);
    shop->is_open = true;
    return true;
}

static bool check(struct shop *shop)
{
    const char *hex = strtok(NULL, " ");
    struct bytes record = {0};
    struct cavrudez_answer answer;
    if (hex != NULL && !read_bytes(hex, &record))
        return false;
    if (!shop->is_open) {
        printf("check no till\n");
        return true;
    }
    /* What is empty may come from anywhere, also from nowhere. */
    const uint8_t *bytes = record.length == 0 ? NULL : record.items;
    const uint32_t *key = shop->key_length == 0 ? NULL : shop->key;
    uint8_t number = cavrudez_till_check(&shop->till, &answer, key, shop->key_length, bytes, record.length);
    tell(number, &answer);
    return true;
}

static bool tell_last(const struct shop *shop)
{
    if (!shop->is_open)
        return false;
    uint32_t last = cavrudez_till_last(&shop->till);
    if (last == CAVRUDEZ_NO_COUNTER)
        printf("last none\n");
    else
        printf("last %" PRIu32 "\n", last);
    return true;
}

static bool is_set_I(const char *name)
{
    return name != NULL && strcmp(name, "I") == 0;
}

static bool obey(struct shop *shop, char *line)
{
    const char *command = strtok(line, " ");
    if (command == NULL)
        return false;
    if (strcmp(command, "set") == 0)
        return is_set_I(strtok(NULL, " "));
    if (strcmp(command, "a") == 0)
        return read_words(&shop->a);
    if (strcmp(command, "t") == 0)
        return read_words(&shop->t);
    if (strcmp(command, "poke") == 0)
        return poke(shop);
    if (strcmp(command, "till") == 0)
        return open_till(shop);
    if (strcmp(command, "check") == 0)
        return check(shop);
    if (strcmp(command, "last") == 0)
        return tell_last(shop);
    return false;
}

int main(void)
{
    static struct shop shop;
    static char line[LINE_ROOM];
    for (unsigned long number = 1; fgets(line, sizeof line, stdin) != NULL; number++) {
        char *end = strchr(line, '\n');
        if (end != NULL)
            *end = '\0';
        if (line[0] == '\0' || line[0] == '#')
            continue;
        if (end == NULL || !obey(&shop, line) || strtok(NULL, " ") != NULL) {
            fprintf(stderr, "till: line %lu is not understood\n", number);
            return 1;
        }
    }
    return ferror(stdin) ? 1 : 0;
}

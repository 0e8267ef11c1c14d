#include "reply.h"

#include "reading.h"

#include <stdio.h>

enum { LONGEST_VALUE = 2 + 2 * 64 };

static char words[MOST_REPLIED * LONGEST_VALUE];
static size_t used;
static uint64_t next;

void reply_begin(void)
{
    used = 0;
}

/* Makes sure that one more value has room. */
static void make_sure(size_t length)
{
    if (length > 64 || sizeof words - used < LONGEST_VALUE)
        fail("a reply is too long");
}

void reply_number(int64_t number)
{
    char digits[20];
    size_t count = 0;
    uint64_t left = number < 0 ? -(uint64_t)number : (uint64_t)number;
    make_sure(0);
    do
        digits[count++] = (char)('0' + left % 10);
    while ((left /= 10) > 0);
    words[used++] = ' ';
    if (number < 0)
        words[used++] = '-';
    while (count > 0)
        words[used++] = digits[--count];
}

void reply_text(const char *text, size_t length)
{
    static const char hex[] = "0123456789abcdef";
    make_sure(length);
    words[used++] = ' ';
    words[used++] = 'x';
    for (size_t place = 0; place < length; place++) {
        unsigned char byte = (unsigned char)text[place];
        words[used++] = hex[byte >> 4];
        words[used++] = hex[byte & 15];
    }
}

void reply_commit(void)
{
    printf("%ju commit", (uintmax_t)next++);
    fwrite(words, 1, used, stdout);
    putchar('\n');
}

void reply_abort(int code)
{
    printf("%ju abort %d\n", (uintmax_t)next++, code);
}

/* The reply lines that a client writes, as docs/language.md has them. */
#ifndef REPLY_H
#define REPLY_H

#include <stddef.h>
#include <stdint.h>

enum { MOST_REPLIED = 64 };

/* Begins the words of a call that commits; drops what was begun before. */
void reply_begin(void);
void reply_number(int64_t number);
void reply_text(const char *text, size_t length);

/* Writes the reply line of the next call: what was begun, or an abort. */
void reply_commit(void);
void reply_abort(int code);

#endif

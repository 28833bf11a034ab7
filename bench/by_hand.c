/* What one would write by hand in C, over expat, for the queries of bench/query: by_hand NAME DOCUMENT.
   Writes as it reads, holds no more than it must, and escapes as the answers of `gcx run` do. It reads into the parser's own room. */
#include <expat.h>
#include <fcntl.h>
#include <stdlib.h>
#include <string.h>
#include <unistd.h>

enum { PIECE = 1 << 16 };

/* Bytes that grow. */
struct bytes { char *at; size_t size, room; };

/* Room for so many bytes more behind the others. */
static char *more(struct bytes *to, size_t size) {
  if (to->room - to->size < size) {
    to->room = 2 * (to->room + size);
    to->at = realloc(to->at, to->room);
    if (!to->at) exit(7);
  }
  char *at = to->at + to->size;
  to->size += size;
  return at;
}

static void put(struct bytes *to, const char *from, size_t size) { memcpy(more(to, size), from, size); }

static void put_word(struct bytes *to, const char *word) { put(to, word, strlen(word)); }

/* How a byte of a text is written, where it isn't written as it is. */
static const char *escape_of(char byte) {
  switch (byte) {
    case '<': return "&lt;";
    case '>': return "&gt;";
    case '&': return "&amp;";
    default: return NULL;
  }
}

/* Puts a text, in runs of bytes that are written as they are. */
static void put_text(struct bytes *to, const char *from, size_t size) {
  size_t run = 0;
  for (size_t i = 0; i < size; i++) {
    const char *escape = escape_of(from[i]);
    if (!escape) continue;
    put(to, from + run, i - run);
    put_word(to, escape);
    run = i + 1;
  }
  put(to, from + run, size - run);
}

static void put_start(struct bytes *to, const char *name) {
  size_t size = strlen(name);
  char *at = more(to, size + 2);
  *at = '<';
  memcpy(at + 1, name, size);
  at[size + 1] = '>';
}

static void put_end(struct bytes *to, const char *name) {
  size_t size = strlen(name);
  char *at = more(to, size + 3);
  memcpy(at, "</", 2);
  memcpy(at + 2, name, size);
  at[size + 2] = '>';
}

enum query { ITEMS_BY_PRICE, ITEMS, NOTES, RECORDS_BY_MAIL, RECORDS_BY_AGE };

static enum query query;
static struct bytes out, held, price;
static int depth;              /* open elements */
static int copying;            /* the depth of the element that is copied, or 0 */
static int in_price, has_price, has_mail;
static double age;

static void flush(void) {
  size_t done = 0;
  while (done < out.size) {
    ssize_t size = write(1, out.at + done, out.size - done);
    if (size < 0) exit(6);
    done += (size_t)size;
  }
  out.size = 0;
}

/* The element in whose copy we are goes to `held` while it isn't known whether it is wanted. */
static struct bytes *copy_to(void) { return query == ITEMS || query == NOTES ? &out : &held; }

static const char *value_of(const XML_Char **attributes, const char *name) {
  for (; *attributes; attributes += 2)
    if (!strcmp(attributes[0], name)) return attributes[1];
  return NULL;
}

static int begins_copy(const char *name) {
  switch (query) {
    case ITEMS: return depth == 2 && !strcmp(name, "item");
    case NOTES: return !strcmp(name, "note");
    case ITEMS_BY_PRICE: return depth == 3 && !strcmp(name, "note");
    default: return depth == 3 && !strcmp(name, "name");
  }
}

/* An element that is the root's child: nothing is known of it yet but its attributes. */
static void begins_row(const XML_Char **attributes) {
  held.size = 0;
  has_price = has_mail = 0;
  if (query == RECORDS_BY_AGE) {
    const char *told = value_of(attributes, "age");
    age = told ? atof(told) : -1;
  }
}

static void begins_part(const char *name) {
  if (query == RECORDS_BY_MAIL && !strcmp(name, "mail")) has_mail = 1;
  if (query == ITEMS_BY_PRICE && !strcmp(name, "price")) {
    in_price = 1;
    price.size = 0;
  }
}

static void XMLCALL begins(void *unused, const XML_Char *name, const XML_Char **attributes) {
  (void)unused;
  depth++;
  if (copying) {
    put_start(copy_to(), name);
    return;
  }
  if (depth == 2) begins_row(attributes);
  if (depth == 3) begins_part(name);
  if (begins_copy(name)) {
    copying = depth;
    put_start(copy_to(), name);
  }
}

static int is_wanted(void) {
  switch (query) {
    case ITEMS_BY_PRICE: return has_price;
    case RECORDS_BY_MAIL: return has_mail;
    case RECORDS_BY_AGE: return age >= 60;
    default: return 0;
  }
}

static void XMLCALL ends(void *unused, const XML_Char *name) {
  (void)unused;
  if (copying) {
    put_end(copy_to(), name);
    if (copying == depth) copying = 0;
  }
  if (in_price && depth == 3) {
    in_price = 0;
    put(&price, "", 1);
    if (atof(price.at) >= 50) has_price = 1;
  }
  if (depth == 2 && is_wanted()) put(&out, held.at, held.size);
  depth--;
}

static void XMLCALL text(void *unused, const XML_Char *from, int size) {
  (void)unused;
  if (in_price) put(&price, from, size);
  if (copying) put_text(copy_to(), from, size);
}

int main(int argc, char **argv) {
  static const char *const names[] = {"price", "items", "notes", "mail", "age"};
  if (argc != 3) return 2;
  while (query < 5 && strcmp(names[query], argv[1])) query++;
  if (query == 5) return 2;
  int file = open(argv[2], O_RDONLY);
  if (file < 0) return 5;
  XML_Parser parser = XML_ParserCreate(NULL);
  XML_SetElementHandler(parser, begins, ends);
  XML_SetCharacterDataHandler(parser, text);
  if (query == ITEMS_BY_PRICE) put_start(&out, "r");
  for (;;) {
    void *piece = XML_GetBuffer(parser, PIECE);
    if (!piece) return 7;
    ssize_t size = read(file, piece, PIECE);
    if (size < 0) return 5;
    if (XML_ParseBuffer(parser, (int)size, size == 0) == XML_STATUS_ERROR) return 4;
    if (!size) break;
    flush();
  }
  if (query == ITEMS_BY_PRICE) put_end(&out, "r");
  flush();
  return 0;
}

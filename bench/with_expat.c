/* Reads a document with expat, and ends with 0 where it is one: with_expat DOCUMENT. */
#include <expat.h>
#include <stdio.h>
static unsigned long events;
static void XMLCALL begins(void *u, const XML_Char *n, const XML_Char **a) { (void)u; (void)n; (void)a; events++; }
static void XMLCALL ends(void *u, const XML_Char *n) { (void)u; (void)n; events++; }
static void XMLCALL text(void *u, const XML_Char *s, int n) { (void)u; (void)s; (void)n; events++; }
int main(int argc, char **argv) {
  static char buf[65536];
  if (argc < 2) return 2;
  FILE *file = fopen(argv[1], "rb");
  if (!file) return 5;
  XML_Parser parser = XML_ParserCreate(NULL);
  XML_SetElementHandler(parser, begins, ends);
  XML_SetCharacterDataHandler(parser, text);
  for (;;) {
    size_t n = fread(buf, 1, sizeof buf, file);
    if (XML_Parse(parser, buf, (int)n, n == 0) == XML_STATUS_ERROR) return 4;
    if (n == 0) return events ? 0 : 4;
  }
}

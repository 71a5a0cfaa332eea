/* Makes libxml2's tree of a file, for its memory alone. */
#include <libxml/parser.h>
#include <libxml/tree.h>

#include "timing.h"

int main(int argc, char **argv) {
    if (argc != 2) return 2;
    long length;
    char *bytes = contents(argv[1], &length);
    xmlDocPtr tree = xmlReadMemory(bytes, (int)length, NULL, NULL,
                                   XML_PARSE_NOERROR | XML_PARSE_NOWARNING | XML_PARSE_NONET | XML_PARSE_HUGE);
    return !tree;
}

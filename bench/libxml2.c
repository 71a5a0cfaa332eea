/* Times libxml2's SAX2 interface, with handlers that only count. */
#include <libxml/parser.h>
#include <string.h>

#include "timing.h"

static long counted;

static void start_element(void *data, const xmlChar *name, const xmlChar *prefix, const xmlChar *space, int spaces,
                          const xmlChar **declarations, int attributes, int defaulted, const xmlChar **values) {
    (void)data, (void)name, (void)prefix, (void)space, (void)spaces, (void)declarations, (void)attributes;
    (void)defaulted, (void)values;
    counted++;
}

static void end_element(void *data, const xmlChar *name, const xmlChar *prefix, const xmlChar *space) {
    (void)data, (void)name, (void)prefix, (void)space;
    counted++;
}

static void characters(void *data, const xmlChar *text, int length) {
    (void)data, (void)text;
    counted += length;
}

static int read_document(const char *bytes, int length) {
    xmlSAXHandler handler;
    memset(&handler, 0, sizeof handler);
    handler.initialized = XML_SAX2_MAGIC;
    handler.startElementNs = start_element;
    handler.endElementNs = end_element;
    handler.characters = characters;
    return xmlSAXUserParseMemory(&handler, NULL, bytes, length) == 0;
}

int main(int argc, char **argv) {
    xmlInitParser();
    time_files("libxml2", read_document, argc - 1, argv + 1);
    xmlCleanupParser();
    return counted == 0;
}

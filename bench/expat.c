/* Times libexpat in namespace mode, with handlers that only count. */
#include <expat.h>

#include "timing.h"

static long counted;

static void XMLCALL start_element(void *data, const XML_Char *name, const XML_Char **attributes) {
    (void)data, (void)name, (void)attributes;
    counted++;
}

static void XMLCALL end_element(void *data, const XML_Char *name) {
    (void)data, (void)name;
    counted++;
}

static void XMLCALL characters(void *data, const XML_Char *text, int length) {
    (void)data, (void)text;
    counted += length;
}

static int read_document(const char *bytes, int length) {
    XML_Parser parser = XML_ParserCreateNS("UTF-8", ' ');
    XML_SetElementHandler(parser, start_element, end_element);
    XML_SetCharacterDataHandler(parser, characters);
    int read = XML_Parse(parser, bytes, length, 1) == XML_STATUS_OK;
    XML_ParserFree(parser);
    return read;
}

int main(int argc, char **argv) {
    time_files("expat", read_document, argc - 1, argv + 1);
    return counted == 0;
}

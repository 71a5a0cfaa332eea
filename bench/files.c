/* Writes the documents that the readers are timed on into a folder. None has more than 2097152 bytes. */
#include <stdio.h>
#include <stdlib.h>

enum { MEGABYTE = 1048576 };

static FILE *document(const char *folder, const char *name) {
    char path[4096];
    snprintf(path, sizeof path, "%s/%s.xml", folder, name);
    FILE *file = fopen(path, "wb");
    if (!file) exit(2);
    return file;
}

/* The same piece again and again, up to a megabyte, between two tags. */
static void repeated(const char *folder, const char *name, const char *start, const char *piece, const char *end) {
    FILE *file = document(folder, name);
    int length = fprintf(file, "%s", start);
    while (length < MEGABYTE) length += fprintf(file, "%s", piece);
    fprintf(file, "%s", end);
    fclose(file);
}

/* One element with many attributes. */
static void attributes(const char *folder) {
    FILE *file = document(folder, "attributes");
    fprintf(file, "<a");
    for (int i = 0; i < 20000; i++) fprintf(file, " name%d='value'", i);
    fprintf(file, "/>");
    fclose(file);
}

/* Many declarations at each of many levels, and at the deepest many names whose prefix the outermost declares. */
static void declarations(const char *folder) {
    enum { LEVELS = 99, EACH = 500, NAMES = 100000 };
    FILE *file = document(folder, "declarations");
    for (int level = 0; level < LEVELS; level++) {
        fprintf(file, "<a");
        for (int i = 0; i < EACH; i++) fprintf(file, " xmlns:p%d='u'", level * EACH + i);
        fprintf(file, ">");
    }
    for (int i = 0; i < NAMES; i++) fprintf(file, "<p0:b/>");
    for (int level = 0; level < LEVELS; level++) fprintf(file, "</a>");
    fclose(file);
}

/* A namespace of half a megabyte, and many names in it. */
static void long_namespace(const char *folder) {
    FILE *file = document(folder, "namespace");
    fprintf(file, "<p:a xmlns:p='");
    for (int i = 0; i < MEGABYTE / 2; i++) fputc('u', file);
    fprintf(file, "'>");
    for (int i = 0; i < 100000; i++) fprintf(file, "<p:b/>");
    fprintf(file, "</p:a>");
    fclose(file);
}

/* Names that each stand there once. */
static void names(const char *folder) {
    FILE *file = document(folder, "names");
    int length = fprintf(file, "<a>");
    for (int i = 0; length < MEGABYTE; i++) length += fprintf(file, "<name%d/>", i);
    fprintf(file, "</a>");
    fclose(file);
}

/* Elements side by side, in each of which 79 more stand in one another. */
static void deep(const char *folder) {
    enum { LEVELS = 80 };
    FILE *file = document(folder, "deep");
    int length = fprintf(file, "<a>");
    while (length < MEGABYTE) {
        for (int level = 0; level < LEVELS; level++) length += fprintf(file, "<d>");
        for (int level = 0; level < LEVELS; level++) length += fprintf(file, "</d>");
    }
    fprintf(file, "</a>");
    fclose(file);
}

int main(int argc, char **argv) {
    if (argc != 2) return 2;
    const char *folder = argv[1];
    repeated(folder, "ascii", "<a>", "The quick brown fox jumps over the lazy dog. ", "</a>");
    repeated(folder, "three", "<a>", "\xe6\xbc\xa2\xe5\xad\x97\xe3\x81\x8b\xe3\x81\xaa", "</a>");
    repeated(folder, "cdata", "<a>", "<![CDATA[The quick & the <brown> fox.]]>", "</a>");
    repeated(folder, "comments", "<a>", "The quick<!-- and rather lazy --> fox. ", "</a>");
    repeated(folder, "dense", "<p:t xmlns:p='urn:p' xmlns='urn:d'>",
             "<p:row id=\"17\" p:kind=\"x\"><p:cell a=\"b\">t</p:cell><q/></p:row>", "</p:t>");
    repeated(folder, "tiny", "<a>", "<b/>", "</a>");
    repeated(folder, "declaring", "<a>", "<b xmlns='urn:d'/>", "</a>");
    attributes(folder);
    declarations(folder);
    long_namespace(folder);
    names(folder);
    deep(folder);
    return 0;
}

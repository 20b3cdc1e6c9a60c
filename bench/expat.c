/* Times libexpat on a text that is in memory, given to it in blocks of 64 KiB: without handlers, and with those for start and end tags.
       expat FILE [RUNS]      (7)
   Shown is the least user time, in nanoseconds a byte. */
#include <expat.h>
#include <stdio.h>
#include <stdlib.h>
#include <sys/resource.h>

#define BLOCK 65536

static long opened, closed;

static void opens(void *data, const XML_Char *name, const XML_Char **attributes) {
    (void)data, (void)name, (void)attributes;
    opened++;
}

static void closes(void *data, const XML_Char *name) {
    (void)data, (void)name;
    closed++;
}

static double user_seconds(void) {
    struct rusage used;
    getrusage(RUSAGE_SELF, &used);
    return (double)used.ru_utime.tv_sec + (double)used.ru_utime.tv_usec / 1e6;
}

static double parse(const char *text, long bytes, int with_handlers) {
    double start = user_seconds();
    XML_Parser parser = XML_ParserCreate(NULL);
    if (with_handlers) XML_SetElementHandler(parser, opens, closes);
    for (long at = 0; at < bytes; at += BLOCK) {
        int is_last = bytes - at <= BLOCK;
        if (XML_Parse(parser, text + at, is_last ? (int)(bytes - at) : BLOCK, is_last) == XML_STATUS_ERROR) {
            fprintf(stderr, "expat: %s\n", XML_ErrorString(XML_GetErrorCode(parser)));
            exit(1);
        }
    }
    XML_ParserFree(parser);
    return user_seconds() - start;
}

static char *content(const char *path, long *bytes) {
    FILE *file = fopen(path, "rb");
    if (!file || fseek(file, 0, SEEK_END) || (*bytes = ftell(file)) <= 0 || fseek(file, 0, SEEK_SET)) return NULL;
    char *text = malloc((size_t)*bytes);
    if (text && fread(text, 1, (size_t)*bytes, file) != (size_t)*bytes) return NULL;
    fclose(file);
    return text;
}

static void show(const char *what, const char *text, long bytes, int with_handlers, int runs) {
    double least = parse(text, bytes, with_handlers);
    for (int run = 1; run < runs; run++) {
        double seconds = parse(text, bytes, with_handlers);
        if (seconds < least) least = seconds;
    }
    printf("  %-36s %7.2f ns a byte\n", what, least * 1e9 / (double)bytes);
}

int main(int count, char **words) {
    int runs = count == 3 ? atoi(words[2]) : 7;
    long bytes;
    char *text = count == 2 || count == 3 ? content(words[1], &bytes) : NULL;
    if (!text || runs < 1) {
        fprintf(stderr, "expat FILE [RUNS]\n");
        return 2;
    }
    show("expat, no handlers", text, bytes, 0, runs);
    show("expat, start and end handlers", text, bytes, 1, runs);
    printf("  (%s; %ld elements)\n", XML_ExpatVersion(), opened / runs);
    return opened != closed;
}

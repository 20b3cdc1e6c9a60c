/* What libxml2 says of each text of a batch (second/src/xml/batch.rs): a line with its elements and the comments inside the document element, as the second
   program writes them, and 'end', or 'refused' if it is not well-formed. Namespaces are off, and so are the limits of its own.
       libxml2 < cases.bin */
#include <libxml/parserInternals.h>
#include <stdio.h>
#include <stdlib.h>

#define HEADER 8

static int depth;

static void opens(void *context, const xmlChar *name, const xmlChar **attributes) {
    (void)context, (void)attributes;
    depth++;
    printf("(%s ", name);
}

static void closes(void *context, const xmlChar *name) {
    (void)context;
    depth--;
    printf(")%s ", name);
}

static void comment(void *context, const xmlChar *text) {
    (void)context, (void)text;
    if (depth) printf("! ");
}

static void nothing(void *context, const char *message, ...) { (void)context, (void)message; }

/* The names are those of the first kind of handlers: with the second libxml2 splits them at colons. */
static int well_formed(const char *text, int bytes) {
    xmlParserCtxtPtr parser = xmlCreateMemoryParserCtxt(text, bytes);
    if (!parser) return 0;
    xmlCtxtUseOptions(parser, XML_PARSE_SAX1 | XML_PARSE_HUGE | XML_PARSE_NONET | XML_PARSE_NOERROR | XML_PARSE_NOWARNING);
    xmlSAXHandler handlers = {.startElement = opens, .endElement = closes, .comment = comment, .initialized = 1};
    *parser->sax = handlers;
    depth = 0;
    xmlParseDocument(parser);
    int answer = parser->wellFormed;
    if (parser->myDoc) xmlFreeDoc(parser->myDoc);
    xmlFreeParserCtxt(parser);
    return answer;
}

static unsigned number(const unsigned char *bytes) {
    return (unsigned)bytes[0] << 24 | (unsigned)bytes[1] << 16 | (unsigned)bytes[2] << 8 | bytes[3];
}

int main(void) {
    unsigned char header[HEADER];
    xmlSetGenericErrorFunc(NULL, nothing);
    while (fread(header, 1, HEADER, stdin) == HEADER) {
        unsigned bytes = number(header);
        char *text = malloc(bytes + 1);
        if (!text || fread(text, 1, bytes, stdin) != bytes) return 1;
        puts(well_formed(text, (int)bytes) ? "end" : "refused");
        free(text);
    }
    return 0;
}

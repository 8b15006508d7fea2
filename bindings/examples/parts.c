/* Prints the parts of a tag: parts zh-Hant-TW */
#include <langtag.h>
#include <stdio.h>
#include <string.h>

static void print(const char *name, const char *text, langtag_span span) {
    if (span.len > 0) printf("%s %.*s\n", name, (int)span.len, text + span.start);
}

int main(int argc, char **argv) {
    const char *text = argc > 1 ? argv[1] : "zh-Hant-TW";
    langtag_parts parts;
    if (langtag_parse(text, strlen(text), &parts) == LANGTAG_NONE) {
        puts("not a tag");
        return 1;
    }
    print("language", text, parts.language);
    print("script", text, parts.script);
    print("region", text, parts.region);
    print("variants", text, parts.variants);
    print("extensions", text, parts.extensions);
    print("private use", text, parts.private_use);
    return 0;
}

/* Replaces some functions of the library, for a test of updates: a later registry replaces de by xx, and in a later CLDR the likely
 * region of fr is BE. langtag_pg.c is built with -Dlangtag_canonical=later_canonical and so on (cluster.sh). */
#include <langtag.h>
#include <string.h>

size_t later_canonical(const char *bytes, size_t len, char *buffer, size_t buffer_len);
uint32_t later_registry_date(void);
size_t later_maximized(const char *bytes, size_t len, char *buffer, size_t buffer_len);
size_t later_cldr_version(char *buffer, size_t buffer_len);

size_t later_canonical(const char *bytes, size_t len, char *buffer, size_t buffer_len) {
    size_t form_len = langtag_canonical(bytes, len, buffer, buffer_len);
    if (form_len >= 2 && form_len <= buffer_len && memcmp(buffer, "de", 2) == 0) memcpy(buffer, "xx", 2);
    return form_len;
}

uint32_t later_registry_date(void) { return 20310101; }

size_t later_maximized(const char *bytes, size_t len, char *buffer, size_t buffer_len) {
    size_t form_len = langtag_maximized(bytes, len, buffer, buffer_len);
    if (form_len == 10 && form_len <= buffer_len && memcmp(buffer, "fr-Latn-FR", 10) == 0) memcpy(buffer + 8, "BE", 2);
    return form_len;
}

size_t later_cldr_version(char *buffer, size_t buffer_len) {
    if (buffer_len >= 4) memcpy(buffer, "99.1", 4);
    return 4;
}

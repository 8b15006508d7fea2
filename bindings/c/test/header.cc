// Tests langtag.h in C++: the names of its types, and langtag_bytes for a null pointer.
#include <langtag.h>

int main() {
    static const char text[] = "zh-Hant";
    langtag_parts parts;
    langtag_kind_answer kind = static_cast<langtag_kind_answer>(langtag_parse(text, sizeof text - 1, &parts));
    langtag_range_kind_answer range = static_cast<langtag_range_kind_answer>(langtag_range_kind("*", 1));
    bool is_read = kind == LANGTAG_NORMAL && parts.script.start == 3 && range == LANGTAG_RANGE_BASIC;
    bool is_empty = langtag_kind(langtag_bytes(0), 0) == LANGTAG_NONE && langtag_bytes(0) != 0 && langtag_bytes(text) == text;
    return is_read && is_empty ? 0 : 1;
}

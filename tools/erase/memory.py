"""Changes calls that allocate: in Rattle's std they take an allocator and return a Result. In Rust, the functions of src/memory.rs
return a Result."""

FORMS = [
    ("alloc: Global,", ""),
    (", alloc: Global", ""),
    ("String::from_str(alloc,", "try_string("),
    ("String::with_capacity(alloc,", "try_string_with_capacity("),
    ("String::new(*text.allocator())", "String::new()"),
    ("Vec::new(alloc)", "Vec::new()"),
    ("vec![in alloc; $item; $len]", "try_vec($item, $len)"),
    ("alloc,", ""),
    ("(alloc)", "()"),
]
METHODS = ["push", "push_str", "replace_range", "sort_by_key"]


def erase_allocators(code):
    for old, new in FORMS:
        code.rewrite(old, new)
    if "AllocError" in code.words():
        for method in METHODS:
            code.rewrite(f".{method}(", f".try_{method}(")
    erase_clones(code)


def erase_clones(code):
    """Removes `Clone` of an iterator, which copies each field, and derives it (attributes.py)."""
    place = 0
    while (place := code.find("impl Clone for", place)) >= 0:
        code.drop(place, code.after(code.next_of(("{",), place)))

# Looks for leaks of the C module in three ways: references, in a debug Python if there is one, blocks with valgrind, and sanitizers. A
# block that is not freed is planted, and has to be found; wrong_wrappers.py plants lost references. leaks_of NAME CFLAGS COMMAND..: builds
# the module in a copy of its own, and runs the command there.
leaks_of() {
    local folder=$work/bindings/leaks-$1 flags=$2
    shift 2
    rm -rf "$folder" && cp -r python "$folder" && cd "$folder" || return 1
    if [ -n "${PLANT:-}" ]; then sed -i "$PLANT" native/*.c; fi
    INCLUDE=$here/include CFLAGS=$flags native/compile "$archive" langtag/_native.abi3.so python3 && "$@"
}

by_references() { leaks_of references "${debug:+-DPy_DEBUG}" "${debug:-$real}" leaks.py; }
# The sources of the module, as valgrind names them.
sources=$(cd "$here/python/native" && printf '%s|' *.c)
by_blocks() {
    PYTHONMALLOC=malloc leaks_of valgrind -g valgrind --leak-check=full --show-leak-kinds=definite --log-file=valgrind.log \
        "$real" leaks.py 3 && ! grep -E "\\((${sources%|}):" "$work/bindings/leaks-valgrind/valgrind.log"
}
by_sanitizers() {
    local runtime
    runtime="$(cc -print-file-name=libasan.so) $(cc -print-file-name=libubsan.so)"
    ASAN_OPTIONS=detect_leaks=0 LD_PRELOAD= leaks_of sanitized "-g -fsanitize=address,undefined -fno-sanitize-recover" \
        env LD_PRELOAD="$runtime" ASAN_OPTIONS=detect_leaks=0 "$real" leaks.py 20
}
unfreed_is_seen() {
    ! PLANT='s/^    if (list->text != list->little) PyMem_Free(list->text);$//' by_blocks >"$work/said" 2>&1 && grep 'list\.c' "$work/said"
}

debug=
for python in python3.11-dbg python3-dbg python3.12-dbg python3.13-dbg; do
    if "$python" -c 'import sys; sys.gettotalrefcount()' 2>/dev/null; then debug=$python; break; fi
done
real=$(python3 -c 'import sys; print(sys.executable)')
check "Python: no reference is kept" by_references
needs 'has valgrind' "there is no valgrind" "Python: no block is kept, by valgrind" by_blocks
needs 'has valgrind' "there is no valgrind" "Python: a block that is not freed is seen" unfreed_is_seen
check "Python: the C module under sanitizers" by_sanitizers

# Checks the library that cargo builds for aarch64, with Debian's cross compiler and qemu. Nothing ran on a real aarch64 processor.
on_aarch64() { qemu-aarch64 -L /usr/aarch64-linux-gnu "$work/built/test-aarch64" "$@"; }
aarch64_rows() {
    "$here/archive" --target aarch64-unknown-linux-gnu "$work/aarch64.a" || return 1
    aarch64-linux-gnu-gcc -std=c99 -O2 -Wall -Wextra -Werror -Iinclude c/test/*.c "$work/aarch64.a" -o "$work/built/test-aarch64" || return 1
    on_aarch64 $(make -s -C c ROWS="$work/vectors" asked)
}
# The answers to the questions of the oracles have to be the same as on this processor.
aarch64_answers() { cat "$work"/answers "$work"/answers_about_tags "$work"/told_of_likely "$work"/told_of_unicode | on_aarch64 --answer "$work/vectors/calls.txt"; }
lacks "aarch64: everything" 'has aarch64-linux-gnu-gcc && has qemu-aarch64' "there is no cross compiler or qemu (in Debian: gcc-aarch64-linux-gnu libc6-dev-arm64-cross qemu-user)" && return 0
check "aarch64: C's tests, under qemu" aarch64_rows
check "aarch64: C's answers to the oracles' questions, under qemu" aarch64_answers

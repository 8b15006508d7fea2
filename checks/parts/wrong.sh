# Plants faults in the wrappers. The rows have to find each of them.
languages=(C++ Python)
if has cargo; then languages+=(Rust); else not_run "wrong wrappers in Rust" "there is no cargo"; fi
if [ -e "$work/built/sqlite_langtag.so" ]; then languages+=(SQLite); fi
if [ -e js/module.js ] && node_is_new; then languages+=(JavaScript); else not_run "wrong wrappers in JavaScript" "its tests were not run"; fi
check "wrong wrappers in ${languages[*]} are refused by the rows" env CFLAGS=-w python3 wrong_wrappers.py --record "$root" "$work/usr/lib" "${languages[@]}"

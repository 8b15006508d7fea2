# Checks the Python module.
dated() { (cd python && python3 -c 'import langtag; print("File-Date:", langtag.REGISTRY_DATE)') | cmp - <(sed 1q "$root/data/registry/language-subtag-registry"); }
check "Python: the date of the registry is that of its file" dated

# The C module is one binary, which each installed CPython loads. A Python with several names is used once.
pythons= programs=
for python in python3 /usr/bin/python3 python3.8 python3.9 python3.10 python3.11 python3.12 python3.13 python3.14 ~/.pyenv/versions/3.*/bin/python3; do
    program=$("$python" -c 'import os, sys; assert sys.version_info >= (3, 8); print(os.path.realpath(sys.executable))' 2>/dev/null) || continue
    if [[ " $programs " != *" $program "* ]]; then pythons+=" $python" programs+=" $program"; fi
done
[[ $pythons == *3.8* ]] || not_run "Python: the tests by Python 3.8" "it is not there"

python_tests() { cd python && LANGTAG_ANSWERS="$work/answers" "$@" -m unittest; }
for python in $pythons; do check "Python: tests and doctests, and C's answers to random calls, by $python" python_tests "$python"; done
# PyPy has its own module, and neither tracemalloc, subinterpreters nor a lock that a test can watch.
on_pypy() {
    cp -r python pypy && cd pypy && pypy3 -c 'import backend; print(backend.kind()[1])' >"$work/ending" &&
        native/compile "$archive" "langtag/_native$(cat "$work/ending")" pypy3 &&
        pypy3 -m unittest test_rows test_langtag.{Values,Negotiation,Sites,WrongCalls,Help}
}
needs 'ls /usr/include/pypy3*/Python.h >/dev/null 2>&1' "its headers are not there (in Debian: apt-get install pypy3-dev)" "Python: tests by PyPy" on_pypy
. "$root/checks/parts/python_leaks.sh"

# mypy of this Python, or the program that Debian installs. It also checks a user's program, and has to find the mistake in it.
mypy=
if python3 -m mypy --version >/dev/null 2>&1; then mypy="python3 -m mypy"; elif has mypy; then mypy=mypy; fi
type_check() { cd python && $mypy --strict langtag && $mypy --strict ../examples/{gettext_catalogue,film,hreflang}.py; }
mistake() {
    cd python && printf '%s\n' 'import langtag' 'langtag.Tag("de").replace(script=5)' >"$work/mistake.py"
    ($mypy --strict "$work/mistake.py" || true) | grep 'mistake.py:2: error: Argument "script"'
}
lacks "Python: types" '[ -n "$mypy" ]' "there is no mypy (in Debian: apt-get install mypy)" && return 0
check "Python: types" env MYPYPATH=. bash -c type_check
check "Python: types of a call that is wrong" env MYPYPATH=. bash -c mistake

# The tools without which nothing can be checked.
for tool in cc c++ make ar nm readelf python3; do
    has $tool || give_up "there is no $tool"
done
python3 -c 'import sys; sys.exit(sys.version_info < (3, 9))' ||
    give_up "python3 is older than 3.9, which generate.py needs"

# The path of the real Python. With pyenv, `python3` is a script that takes as long to start as Python, and Python starts hundreds
# of times.
mkdir "$work/bin"
printf '#!/bin/sh\nexec "%s" "$@"\n' "$(python3 -c 'import sys; print(sys.executable)')" >"$work/bin/python3"
chmod +x "$work/bin/python3"
PATH=$work/bin:$PATH
[ -f "$(python3 -c 'import sysconfig; print(sysconfig.get_paths()["include"])')/Python.h" ] ||
    give_up "there is no Python.h for python3 (in Debian: apt-get install python3-dev)"

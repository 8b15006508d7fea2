# The archive is the one that is named. Otherwise cargo builds it.
archive=${LANGTAG_ARCHIVE:-}
if [ -z "$archive" ]; then
    archive=$work/cargo/liblangtag_c.a
    "$here/archive" "$archive" 2>"$work/log" || { tail -20 "$work/log"; give_up "there is no archive: see above, or name one by LANGTAG_ARCHIVE"; }
fi
[ -f "$archive" ] || give_up "there is no $archive"

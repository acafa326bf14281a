#!/usr/bin/env bash
# The mapper of a streaming map-reduce job that counts words: it reads its share of the lines, and writes a line 'word TAB number' for
# each word of them. The reducer is 'merge_counts.py --reduce'. If the program refuses the text or fails, so does the mapper.
#
# usage: count_mapper.sh [PROGRAM] < LINES      PROGRAM is the built `atoms`, on the path if none is given
#        count_mapper.sh --help
set -euo pipefail
case ${1:-} in
-h | --help)
    sed -n '2,/^set /{/^set /d;s/^# \{0,1\}//;p}' "$0"
    exit 0
    ;;
esac
"${1:-atoms}" count 1 | LC_ALL=C sed 's/^\([0-9]*\) \(.*\)$/\2\t\1/'

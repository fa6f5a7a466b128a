#!/usr/bin/env bash
# Lets four scripts run on one heap beside two visitors, outside the gate, and tells how much memory the program has.
#
#   bash judge/scripts.sh PROGRAM [TIMES]
#
# PROGRAM is a built tide_lisp. The scripts of judge/scripts make so many rounds each, 3,930 in all, TIMES (100) over, and
# compare in each round what comes with what is to come. There is a line at the beginning and each minute: the seconds, the
# kilobytes in memory, those of them that are no file's, the time of the processor, and the load of the machine. It ends with
# 1 where the scripts print something else than they are to.
set -u
[ "${1---help}" != --help ] || { sed -n '2,/^[^#]/s/^# \{0,1\}//p' "$0"; exit $(($# == 0)); }

program=$(realpath "$1")
times=${2-100}
here=$(cd "$(dirname "$0")" && pwd)
folder=$(mktemp -d)
trap 'rm -rf "$folder"' EXIT
cd "$folder" || exit 1
while read -r name rounds; do
    sed "s/ROUNDS/$((rounds * times))/" "$here/scripts/$name.scm" > "$name.scm"
done <<< 'lists 350
objects 800
caches 2300
shares 480'

"$program" --helpers=2 lists.scm objects.scm caches.scm shares.scm > out 2> err &
process=$!
sleep 1
while kill -0 $process 2> /dev/null; do
    memory=$(awk '/^VmRSS|^RssAnon/ { printf "%s %s ", $1, $2 }' /proc/$process/status)
    echo "$SECONDS s, $memory, processor $(ps -o time= -p $process), load $(cut -d' ' -f1 /proc/loadavg)"
    for ((second = 0; second < 60; second++)); do
        kill -0 $process 2> /dev/null && sleep 1
    done
done
wait $process
status=$?
echo "status $status after $SECONDS s"
cat err
diff out - <<< '; lists.scm
1 4501500
; objects.scm
1 7 8
; caches.scm
1
; shares.scm
1' && [ $status = 0 ]

#!/bin/sh
# How many provers `rt ci` is to run at once (RT_JOBS): as many as there are processors, at most four, where 18 GB of
# memory are free, since four take 12 to 16. Else nothing: then `rt ci` goes by its own estimate of memory, which is
# several times what is taken. What RT_JOBS says already stands.
#
#     RT_JOBS=$(tools/jobs.sh)
if [ -n "$RT_JOBS" ]; then
    echo "$RT_JOBS"
elif [ "$(awk '/^MemAvailable:/ { print int($2 / 1000000) }' /proc/meminfo 2>/dev/null || echo 0)" -ge 18 ]; then
    processors=$(getconf _NPROCESSORS_ONLN)
    [ "$processors" -le 4 ] || processors=4
    echo "$processors"
fi

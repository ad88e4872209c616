#!/bin/sh
# limited.sh worker SECONDS PROGRAM: a worker process by this program, which is ended after so many seconds.
#
# The last two words are the `args` of the plan; the run puts `worker` before them. A process that ignores its end is killed a
# second later.
[ "$1" = worker ] && [ $# -eq 3 ] || exit 2
exec timeout -k 1 "$2" "$3" worker

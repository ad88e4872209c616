#!/bin/sh
# far.sh worker HOST FOLDER PROGRAM: a worker process on another machine, in a folder there, by the program `leases` there.
#
# The last three words are the `args` of the plan; the run puts `worker` before them. ssh asks nothing, and gives a connection
# up that has been silent for 15 seconds.
set -u
[ "$1" = worker ] && [ $# -eq 4 ] || exit 2

# A word in quotes, as the shell there reads it.
quoted() {
    printf "'%s'" "$(printf %s "$1" | sed "s/'/'\\\\''/g")"
}

exec ssh -T -o BatchMode=yes -o ConnectTimeout=10 -o ServerAliveInterval=5 -o ServerAliveCountMax=3 \
    "$2" "cd $(quoted "$3") && exec $(quoted "$4") worker"

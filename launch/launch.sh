# What both launchers and c/build.sh do. Each sets `name`, that of a program or an archive, `crate`, from which it is built, and
# `top`, the repository's folder with a slash behind, and reads this file. Then `built` is the file, built from the sources.
#
# The file is out/NAME. A build leaves it alone until the new one is whole, so a build that fails or is cut off takes nothing
# away. Beside it, in out/NAME.sum, stand the sum of the sources that it was built from, and the crates that these are. Where
# the sources have this sum, nothing but the file is needed. Else launch/build.py proves and builds it first. What that says
# goes to standard error.
#
# Statuses of its own: 126 where it can't be built, 127 where there is no `rt`, or no Python to run it.
set -u

say() {
    printf '%s: %s\n' "$name" "$*" >&2
}

stop() {
    status=$1
    shift
    say "$@"
    exit "$status"
}

out=${top}out
built=$out/$name
. "${top}launch/sources.sh"

# Whether the file that is there is that of the sources as they stand.
is_current() {
    [ -f "$built" ] && [ -r "$out/$name.sum" ] || return
    { read -r built_of && read -r below; } <"$out/$name.sum" || return
    # The names of crates are words.
    # shellcheck disable=SC2086
    [ "$built_of" = "$(sum_of_sources "$top" $below 2>/dev/null)" ]
}

# The command `rt`: that of the path, or else the one that the last build here used, so that a call by cron or ssh finds it.
find_rt() {
    rt=$(command -v rt) && return
    [ -r "$out/rt" ] && read -r rt <"$out/rt" && [ -x "$rt" ]
}

build() {
    find_rt || stop 127 "it has to be built, and there is no command rt on the path, which is $PATH"
    command -v python3 >/dev/null ||
        stop 127 "it has to be built, and there is no command python3 on the path, which is $PATH"
    (mkdir -p -- "$out" && : >>"$out/lock") 2>/dev/null ||
        stop 126 "it has to be built, and $out can't be written"
    # One call builds. Another waits for it, and then finds what it built. All that builds keeps the lock, also where this
    # process is killed and they aren't.
    exec 9>>"$out/lock"
    if ! flock -n 9; then
        say "another call builds here; waiting for it"
        flock 9
        is_current && exec 9>&- && return
    fi
    python3 -B -- "${top}launch/build.py" --rt "$rt" --lock 9 "$name" "$crate" 9>&9 ||
        stop 126 "it couldn't be built; $out/$name.log says why"
    exec 9>&-
}

is_current || build

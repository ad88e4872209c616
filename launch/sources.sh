# sum_of_sources TOP CRATE..: one sum of what these crates of a repository are made from, of their files' names, and of
# crates.txt. It depends on no setting of the caller's. The status tells whether all of it could be read.
sum_of_sources() (
    LC_ALL=C
    export LC_ALL
    cd -- "$1" || exit
    shift
    for crate; do
        set -- "$@" "crates/$crate"
        shift
    done
    # A pipe has the status of its last command alone, so that of the first is said by a way of its own.
    told=$({
        {
            find "$@" crates.txt -name out -prune -o -type f \
                \( -name '*.rt' -o -name '*.antt' -o -name crates.txt \) -exec sha256sum {} +
            echo "$?" >&3
        } | sort | sha256sum
    } 3>&1) || exit
    # The status of `find`, a line's end, the sum, and what `sha256sum` calls its input.
    case $told in
    0*-) told=${told#0?} && printf '%s\n' "${told%% *}" ;;
    *) exit 1 ;;
    esac
)

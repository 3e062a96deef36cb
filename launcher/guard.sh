# What the launcher of a checkout and an installed `castle` share: words, refusals, locks, and the run itself.
#
# The script that reads this file sets `program`, the path of the proved program, `documents`, the folder of the
# documents, and `client`, that of the client's package. It has the functions show_version and make_ready; the latter
# ends with a status other than 0 where there is no program to run. Then it calls `run` with its words.
#
# Exit status 125: the store is open already, or something would be overwritten. 1, 2 and 5 are as the program's own:
# wrong words, no store, and a file that can't be opened.

refuse() {
    forget_lock
    printf 'castle: %s\n' "$2" >&2
    exit "$1"
}

# Takes FILE.lock away where this run has made it, since no store came of it. Who opens one later makes another.
forget_lock() {
    [ -z "${made_lock-}" ] || rm -f -- "$real.lock"
    made_lock=
}

# The program's own line. It stands here too, so that nothing has to be built to say it.
usage() {
    refuse 1 "usage: castle format FILE M C V, serve FILE, levels FILE, check FILE, workload FILE SEED COUNT, lead FILE, \
follow FILE, export FILE VERSION"
}

show_help() {
    cat <<END
castle keeps dictionaries whose versions form a tree, in one file.

    castle format FILE M C V          makes a store: M changes in a region of its journal (4 to 4096),
                                      C in its life (1 to 16777216), V versions (1 to 16384)
    castle serve FILE                 answers frames on standard input; people use castle-shell FILE
    castle levels FILE                prints what is in which level of a store
    castle check FILE                 tells whether a store's file keeps every rule, and which one it breaks
    castle workload FILE SEED COUNT   makes a store of COUNT drawn changes, and prints a summary
    castle lead FILE                  serves a store, and sends its changes in place of replies
    castle follow FILE                carries out the changes of a leader on a store
    castle export FILE VERSION        writes the pairs of a version as frames that put them, at version 0
    castle --overwrite format ..      the same where FILE is not empty, which is lost; also workload
    castle --build                    proves and builds the program, where that has to be done
    castle --version, castle --help   say what this is

The documents are in $documents: README.md; docs/QUICKSTART.md to begin with; docs/ERRORS.md for each status.
END
}

# Whether a text is a number as the program reads it, without a zero in front, and from $2 to $3.
is_number() {
    case $1 in
        '' | *[!0-9]* | 0?* | ?????????????????????*) return 1 ;;
    esac
    # as text, since the largest seed is too large for the shell's own numbers
    printf '%20s\n' "$2" "$1" "$3" | LC_ALL=C sort -c 2>/dev/null
}

# Ends with the usage, unless the program takes these words.
check_words() {
    case ${1-}:$#:$overwrite in
        serve:2: | levels:2: | check:2: | lead:2: | follow:2:) ;;
        export:3:) is_number "$3" 0 4294967295 || usage ;;
        format:5:*) is_number "$3" 4 4096 && is_number "$4" 1 16777216 && is_number "$5" 1 16384 || usage ;;
        workload:4:*) is_number "$3" 0 18446744073709551615 && is_number "$4" 0 1000000 || usage ;;
        *) usage ;;
    esac
    [ -n "$2" ] || usage
    if command -v iconv >/dev/null 2>&1; then
        printf '%s' "$2" | iconv -f UTF-8 -t UTF-8 >/dev/null 2>&1 || usage
    fi
}

# A store's file that is a standard stream as well would be overwritten, or read as its own input.
refuse_stream() {
    if [ "$1" -ef "/dev/$2" ]; then
        refuse 1 "the store's file is standard $3 as well"
    fi
}

# Sets `real` to the path of FILE without symbolic links. Its last byte may be a line feed.
resolve() {
    case $1 in
        serve | levels | check | lead | follow | export)
            if [ ! -e "$2" ]; then
                folder=$(dirname -- "$2")
                [ ! -d "$folder" ] || [ -x "$folder" ] || refuse 5 "$2: its folder can't be entered"
                refuse 2 "$2: no such file"
            fi
            ;;
    esac
    real=$(readlink -f -- "$2" && echo .) || refuse 5 "$2: its folder is not there, or its links lead in a circle"
    real=${real%??}
}

# Whether the file has the text of a superblock slot at this byte.
has_slot() {
    [ "$(dd if="$real" bs=1 skip="$1" count=8 2>/dev/null | tr -d '\0')" = STRATBT1 ]
}

seems_store() {
    has_slot 1 || has_slot 4097
}

# Ends where FILE is not what the subcommand takes, or has something that it would destroy.
look_at_file() {
    if [ -e "$real" ] && [ ! -f "$real" ]; then
        refuse 5 "$2: it is no plain file"
    fi
    case $1 in
        serve | levels | check | lead | follow | export)
            [ -r "$real" ] && [ -w "$real" ] || refuse 5 "$2: it can't be read and written; castle-shell reads a copy"
            seems_store || refuse 2 "$2: not a store"
            ;;
        *)
            [ -z "$overwrite" ] && [ -s "$real" ] || return 0
            held="a file that is no castle store"
            ! seems_store || held="a castle store"
            refuse 125 "$2: $held is there, and stays as it is; to lose it, use castle --overwrite $1 .."
            ;;
    esac
}

# Locks an open descriptor: `lock -n 8` fails at once where somebody else has it locked, and `lock -x 8` waits. With -s in
# front others may lock it so at the same time.
lock() {
    if command -v flock >/dev/null 2>&1; then
        flock "$@" || [ "$?" -ne 1 ]  # other failures it has told itself: this file system has no locks
    elif command -v python3 >/dev/null 2>&1; then
        python3 -c 'import fcntl, sys
*ways, number = sys.argv[1:]
try:
    fcntl.flock(int(number), (fcntl.LOCK_SH if "-s" in ways else fcntl.LOCK_EX) | (fcntl.LOCK_NB if "-n" in ways else 0))
except BlockingIOError:
    sys.exit(1)' "$@"
    else
        echo "castle: nothing is locked, since neither flock nor python3 is here: let nobody else use the file" >&2
    fi
}

# Whether the caller has the store's locks, on the descriptors that CASTLE_LOCKS names: of FILE.lock and of FILE.
is_locked_by_caller() {
    case ${CASTLE_LOCKS-} in
        *[!0-9,]* | *,*,* | ,*) return 1 ;;
        *,*) ;;
        *) return 1 ;;
    esac
    beside=${CASTLE_LOCKS%,*} itself=${CASTLE_LOCKS#*,}
    [ "/dev/fd/$beside" -ef "$real.lock" ] || return 1
    if [ -e "$real" ]; then
        # to lock again what is locked does nothing
        [ "/dev/fd/${itself:-none}" -ef "$real" ] && lock -n "$beside" && lock -n "$itself"
    else
        lock -n "$beside"
    fi
}

# Whether an open file is the one at a path still, as far as the system tells.
is_at() {
    [ ! -e "/dev/fd/$1" ] || [ "/dev/fd/$1" -ef "$2" ]
}

# Locks FILE.lock, and FILE itself, which may have other names. The program inherits both, so they last until its end.
take_locks() {
    is_new=yes
    [ ! -e "$real.lock" ] || is_new=
    (exec 8<>"$real.lock") 2>/dev/null || refuse 125 "$real.lock: the lock can't be opened; look at it and at its folder"
    exec 8<>"$real.lock"
    if [ -n "$is_new" ]; then
        chmod --reference="$real" -- "$real.lock" 2>/dev/null  # who may open the store may lock it
    fi
    if ! lock -n 8; then
        holder=$(head -n 1 <"$real.lock")
        case $holder in
            '' | *[!0-9]*) refuse 125 "$1: the store is open already" ;;
            *) refuse 125 "$1: the store is open already, by process $holder" ;;
        esac
    elif ! is_at 8 "$real.lock"; then
        take_locks "$1"  # whoever had it took it away; there is another one, or none
        return
    fi
    made_lock=$is_new
    echo "$$" >"$real.lock" 2>/dev/null
    if [ -r "$real" ]; then
        lock_itself "$1" "the store is open already under another name, or is being copied" -n
    fi
}

# Locks FILE itself, in the way that is said, or ends with what is said.
lock_itself() {
    exec 9<"$real"
    lock $3 9 || refuse 125 "$1: $2"
    is_at 9 "$real" || refuse 125 "$1: the file was replaced meanwhile; try again"
}

# Shows once a second how large a file has become, as long as this shell is there. The cursor goes back to the line's
# beginning, so that what the program prints stands over it.
show_growth() {
    while sleep 1 && kill -0 "$$" 2>/dev/null; do
        printf '\r\033[Kcastle: %s MB\r' "$(($(wc -c <"$1") / 1000000))" >&2
    done
}

# Shows once a second how many blocks a check has read, as the system counts it for its process, and how many it reads at
# most: a block of an array three times. The line is below the cursor, so that what the program prints stands above it.
show_reads() {
    while reads=$(sed -n 's/^rchar: //p' "/proc/$1/io" 2>/dev/null) && [ -n "$reads" ]; do
        blocks=$((($(wc -c <"$2") + 4095) / 4096))
        printf '\n\033[Kcastle: blocks read: %s of %s at most\r\033[A' "$((reads / 4096))" "$((blocks * 3))" >&2
        sleep 1
    done
}

# Shows the same with the level that is read, where python3 is there to look for it. Who ends this shell ends that too.
show_check() {
    sleep 1
    if [ -r "$client/castle/checkline.py" ] && python3 -c 'import sys; sys.exit(sys.version_info < (3, 9))' 2>/dev/null; then
        exec env PYTHONPATH="$client" python3 -B -m castle.checkline "$1" "$2" >&2 2>/dev/null
    fi
    show_reads "$1" "$2"
}

# Ends what was started and waits for its end. A shell that is just forked may lose a weaker signal, and then go on for ever.
end() {
    { kill -KILL "$1"; wait "$1"; } 2>/dev/null
}

# Ends the program, and then this shell.
give_up() {
    trap '' HUP INT TERM
    end "${child:-$!}"
    forget_lock
    exit "$1"
}

# Has a signal that ends this shell end the program first.
give_up_by_signals() {
    trap 'give_up 129' HUP
    trap 'give_up 130' INT
    trap 'give_up 143' TERM
}

# Has what shows the progress of a run be ended with this shell, and what it shows be taken away: K for a line, J for all below too.
shows_progress() {
    progress=$! cleared=$1
    trap 'end "$progress"; printf "\r\033[%s" "$cleared" >&2' EXIT
}

# Checks a store at a terminal, since a long check says nothing before its end. The program reads no input.
check_store() {
    give_up_by_signals
    "$program" "$@" &
    child=$!
    (show_check "$child" "$real") 9>&- </dev/null >/dev/null &
    shows_progress J
    wait "$child"
    exit "$?"
}

# Makes a store, and forgets the names that versions of the one before it had. The program reads no input.
make_store() {
    give_up_by_signals
    # A long workload says nothing before its end.
    if [ "$1" = workload ] && [ -t 2 ]; then
        (show_growth "$real") 8>&- 9>&- </dev/null >/dev/null &
        shows_progress K
    fi
    "$program" "$@" &
    wait "$!"
    status=$?
    # with 7 the store is there as well, and only what is said of it could not be written
    if [ "$status" -eq 0 ] || [ "$status" -eq 7 ]; then
        rm -f -- "$real.names" || echo "castle: $real.names: these names are of the store before; remove them" >&2
    else
        forget_lock
    fi
    exit "$status"
}

run() {
    overwrite=
    case ${1-} in
        -h | --help) show_help; exit ;;
        --version) show_version; exit ;;
        --build) [ "$#" -eq 1 ] || usage; make_ready; exit ;;
        --overwrite) overwrite=yes; shift ;;
    esac
    check_words "$@"
    refuse_stream "$2" stdin input
    refuse_stream "$2" stdout output
    resolve "$@"
    # `levels` and `check` change nothing. A caller that has the locks has looked at the file, and sees to the names.
    locks=needed
    if is_locked_by_caller; then
        locks=
    else
        look_at_file "$@"
        case $1 in
            levels) locks= ;;
            check) locks=itself ;;
        esac
    fi
    # in a shell of its own, since it opens descriptors, and the caller may have passed on some
    (make_ready) || exit
    # A write past the largest size of a file is then a fault of the device, which the program tells, and no signal.
    if (trap '' XFSZ) 2>/dev/null; then
        trap '' XFSZ
    fi
    if [ "$locks" = itself ]; then
        # What is written meanwhile would be read at different times. Nothing is made beside the file.
        lock_itself "$2" "the store is open already" "-s -n"
    elif [ -n "$locks" ]; then
        take_locks "$2"
        look_at_file "$@"  # again, since it may have changed before it was locked
        case $1 in
            format | workload) make_store "$@" ;;
        esac
        # Behind `exec` nobody takes it away. `levels` is refused what `serve` and `export` are, and changes nothing. Where
        # one of these runs none the less, the lock on FILE itself keeps others away.
        if [ -n "$made_lock" ] && ! "$program" levels "$2" </dev/null >/dev/null 2>&1; then
            forget_lock
        fi
    fi
    if [ "$1" = check ] && [ -t 2 ]; then
        check_store "$@"
    fi
    case $1 in
        serve | lead) people=castle-shell ;;
        follow) people="castle-replicate feed" ;;
        *) people= ;;
    esac
    if [ -n "$people" ] && [ -t 0 ]; then
        echo "castle: $1 reads frames from standard input, which is a terminal here; people use $people" >&2
    fi
    exec "$program" "$@"
}

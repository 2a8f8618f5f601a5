# Starts the program `nameserver` for a test in a shell script, reads its log, and stops it. For any POSIX shell.
#
#     . clients/shell/nameserver.sh
#     nameserver_start zone.txt --limit 512
#     dig @"$NAMESERVER_ADDRESS" -p "$NAMESERVER_PORT" www.example.com
#     nameserver_wait_for 1
#     nameserver_count '"type":"A"'
#     nameserver_stop
#
# The program is NAMESERVER, or else `nameserver` on the PATH. It listens on a free port of 127.0.0.1. A shell has one server
# at a time, whose standard input is the file descriptor 9 of the shell, so it ends with the shell, however that ends. A
# background job that may outlive the shell has to be started with `9>&-`.

# nameserver_start ARGUMENT..
#
# Starts the program with these arguments, mostly a zone file, and waits until it can be asked. Sets NAMESERVER_ADDRESS,
# NAMESERVER_PORT and NAMESERVER_LOG, the path of the log. The limit is NAMESERVER_SECONDS, 10 unless it is set; while the
# front of a checkout compiles the program, it does not count. If the server does not start, prints why and returns 1.
nameserver_start() {
    if [ -n "${NAMESERVER_FOLDER:-}" ]; then
        echo "nameserver_start: there is a server already" >&2
        return 1
    fi
    NAMESERVER_FOLDER=$(mktemp -d) || return 1
    NAMESERVER_LOG=$NAMESERVER_FOLDER/log
    mkfifo "$NAMESERVER_FOLDER/stdin" || return 1
    "${NAMESERVER:-nameserver}" "$@" --listen 127.0.0.1:0 --log "$NAMESERVER_LOG" --until-stdin-closes \
        <"$NAMESERVER_FOLDER/stdin" >"$NAMESERVER_FOLDER/stdout" 2>"$NAMESERVER_FOLDER/stderr" &
    NAMESERVER_PID=$!
    exec 9>"$NAMESERVER_FOLDER/stdin"
    nameserver_begin_wait
    until nameserver_read_address; do
        if ! kill -0 "$NAMESERVER_PID" 2>/dev/null; then
            nameserver_give_up "ended before it could be asked"
            return 1
        fi
        if nameserver_is_compiling; then
            nameserver_begin_wait
        elif [ "$(date +%s)" -gt "$nameserver_end_of_wait" ]; then
            nameserver_give_up "printed no address in time"
            return 1
        fi
        nameserver_pause
    done
}

# Sets the end of the time in which the server has to start.
nameserver_begin_wait() {
    nameserver_end_of_wait=$(($(date +%s) + ${NAMESERVER_SECONDS:-10}))
}

# Whether the front of a checkout is compiling the program.
nameserver_is_compiling() {
    case $(tail -n 1 "$NAMESERVER_FOLDER/stderr" 2>/dev/null) in
    *": compiling"* | *": waiting for another start"*) return 0 ;;
    *) return 1 ;;
    esac
}

# Prints why a server did not start, and ends it.
nameserver_give_up() {
    echo "nameserver_start: the server $1" >&2
    cat "$NAMESERVER_FOLDER/stderr" >&2
    nameserver_stop
}

# Sets the address and the port that the server has printed, if it has.
nameserver_read_address() {
    nameserver_line=$(sed -n '1s/^listening on //p' "$NAMESERVER_FOLDER/stdout" 2>/dev/null)
    NAMESERVER_ADDRESS=${nameserver_line%:*}
    NAMESERVER_PORT=${nameserver_line##*:}
    [ -n "$nameserver_line" ]
}

# Waits for a moment. A `sleep` that takes no fractions waits for a second.
nameserver_pause() {
    sleep 0.05 2>/dev/null || sleep 1
}

# nameserver_stop
#
# Ends the server, and removes its log.
nameserver_stop() {
    [ -n "${NAMESERVER_FOLDER:-}" ] || return 0
    exec 9>&-
    wait "$NAMESERVER_PID" 2>/dev/null
    rm -rf "$NAMESERVER_FOLDER"
    NAMESERVER_FOLDER= NAMESERVER_LOG= NAMESERVER_PID= NAMESERVER_ADDRESS= NAMESERVER_PORT=
}

# nameserver_count PATTERN
#
# Prints how many lines of the log match a basic regular expression. Without one, prints the number of all lines.
nameserver_count() {
    grep -c -e "${1:-}" "$NAMESERVER_LOG" || true
}

# nameserver_wait_for NUMBER
#
# Waits until the log has so many requests, at most five seconds: a reply may arrive before its line of the log.
nameserver_wait_for() {
    nameserver_end_of_wait=$(($(date +%s) + 5))
    until [ -e "$NAMESERVER_LOG" ] && [ "$(nameserver_count)" -ge "$1" ]; do
        [ "$(date +%s)" -le "$nameserver_end_of_wait" ] || return 1
        nameserver_pause
    done
}

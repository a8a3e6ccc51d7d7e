# Keeps processors busy: `keep_busy PROCESSORS COUNT` starts so many processes that do nothing else on these processors, and `leave` ends them.
# Who sources this ends them when it is left.

busy=()

keep_busy() {
    local processors=$1 count=$2
    for _ in $(seq "$count"); do
        taskset -c "$processors" bash -c 'while :; do :; done' &
        busy+=($!)
    done
}

leave() {
    kill "${busy[@]}" 2>/dev/null || true
    wait "${busy[@]}" 2>/dev/null || true
    busy=()
}

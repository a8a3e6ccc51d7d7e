# Runs a command with at most $1 processes or threads of its user. The superuser isn't bound by the limit, so that
# one runs it as a user that has no process.
limited() {
    local limit=$1
    shift
    if [ "$(id -u)" = 0 ]; then
        setpriv --reuid 65534 --regid 65534 --clear-groups bash -c 'ulimit -u "$0"; exec "$@"' "$limit" "$@"
    else
        bash -c 'ulimit -u "$0"; exec "$@"' "$limit" "$@"
    fi
}

# What those scripts share that begin a collector, the program "$wef" in the folder "collector" beside them.

collector=
port=$((20000 + $$ % 10000))
trap 'end_collector' EXIT
trap 'exit 1' HUP INT TERM

# Kills the collector, if there is one.
end_collector() {
    [ -n "$collector" ] || return 0
    kill -9 "$collector" 2> /dev/null
    wait "$collector" 2> /dev/null
    collector=
}

# Begins a collector that serves so many connections, at a port that is free, and waits until it listens.
collect() {
    while :; do
        address=127.0.0.1:$port
        rm -f lines
        mkfifo lines
        (cd collector && exec "$wef" collect "$address" "$1") > lines 2>&1 &
        collector=$!
        exec 3< lines
        read -r line <&3
        case $line in
            "listening $address") return ;;
            "listening failed") port=$((port + 1)) ;;
            *) echo "$line" && exit 1 ;;
        esac
    done
}

# Waits until the collector ends, and shows its lines.
collected() {
    cat <&3
    wait "$collector"
    collector=
}

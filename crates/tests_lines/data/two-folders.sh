#!/bin/sh
# Forwards events from one folder to another: a collector keeps its store in the one, a source in the other.
# Then it does so again with more events, and kills the collector in the middle. Behind each it shows what is kept.
#
#     sh examples/two-folders.sh crates/wef/out/wef [FOLDER]
#
# The two folders are made in FOLDER and stay there; where none is given, in a new one below /tmp, which is removed in
# the end. A line as `collector$ wef show` says what is run, and in which of them.

wef=$(realpath "$1") || exit 2
if [ -n "$2" ]; then
    room=$(realpath "$2") || exit 2
    made=
else
    room=$(mktemp -d) || exit 2
    made=$room
fi
collector=
port=$((20000 + $$ % 10000))
trap 'end_collector; rm -f "$room/lines" "$room/sent"; [ -z "$made" ] || rm -rf "$made"' EXIT
trap 'exit 1' HUP INT TERM
mkdir "$room/collector" "$room/source" || exit 2

# Runs a command in one of the folders.
run_in() {
    folder=$1
    shift
    (cd "$room/$folder" && exec "$wef" "$@" 2>&1) || echo "status $?"
}

# Shows a command and runs it in one of the folders.
show_in() {
    folder=$1
    shift
    echo "$folder\$ wef $*"
    run_in "$folder" "$@"
}

# So many events of a channel, one a line.
events() {
    for data in $(seq "$1"); do
        echo "<Event xmlns='http://schemas.microsoft.com/win/2004/08/events/event'><System><Level>4</Level><Channel>Application</Channel></System><EventData><Data>$data</Data></EventData></Event>"
    done
}

# Begins a collector that serves so many connections, at a port that is free, and waits until it listens.
collect() {
    echo "collector\$ wef collect ADDRESS $1 &"
    while :; do
        address=127.0.0.1:$port
        rm -f "$room/lines"
        mkfifo "$room/lines"
        (cd "$room/collector" && exec "$wef" collect "$address" "$1") > "$room/lines" 2>&1 &
        collector=$!
        exec 3< "$room/lines"
        read -r line <&3
        case $line in
            "listening $address") return ;;
            "listening failed") port=$((port + 1)) ;;
            *) echo "$line" && exit 1 ;;
        esac
    done
}

# Waits until the collector has served so many connections.
until_served() {
    while read -r line <&3; do
        case $line in
            "connection $1 "*) return ;;
        esac
    done
    echo "the collector has ended: $line"
    exit 1
}

# Kills the collector, if there is one.
end_collector() {
    [ -n "$collector" ] || return 0
    kill -9 "$collector" 2> /dev/null
    wait "$collector" 2> /dev/null
    collector=
}

echo "A subscription is added, which wants at most two events in a batch."
echo '<Subscription xmlns="http://schemas.microsoft.com/2006/03/windows/events/subscription">
  <SubscriptionId>base</SubscriptionId>
  <SubscriptionType>SourceInitiated</SubscriptionType>
  <Delivery Mode="Push"><Batching><MaxItems>2</MaxItems></Batching></Delivery>
  <Query><QueryList><Query><Select Path="Application">*</Select></Query></QueryList></Query>
</Subscription>' | show_in collector add

echo
echo "The source has an event. The collector serves two connections: the source asks in one, and sends in the other."
events 1 | show_in source write
collect 2
echo "source\$ wef forward ADDRESS pc1 1"
run_in source forward "$address" pc1 1
echo "and the collector:"
cat <&3
wait "$collector"
collector=

echo
echo "The collector has it."
show_in collector show
show_in collector events base pc1 application

echo
echo "There are 400 more, and the collector is killed while the source sends them."
events 400 | show_in source write | tail -n 1
collect 1000
echo "source\$ wef forward ADDRESS pc1 1000 &"
run_in source forward "$address" pc1 1000 > "$room/sent" &
source=$!
until_served 5
end_collector
wait $source
acked=$(grep -c "^sent base acked 2" "$room/sent")
[ "$acked" -ge 4 ] && [ "$acked" -lt 200 ] && echo "some batches were sent, but not all"

echo
echo "It is begun again, and the source sends the rest."
collect 1000
echo "source\$ wef forward ADDRESS pc1 1000"
run_in source forward "$address" pc1 1000 > "$room/sent"
tail -n 1 "$room/sent"
end_collector

echo
echo "Each event is kept, and once."
show_in collector show
run_in collector events base pc1 application > "$room/sent"
echo "events: $(grep -c "^event " "$room/sent")"
echo "numbers that come twice: $(grep "^event " "$room/sent" | cut -d " " -f 2 | sort | uniq -d | wc -l)"

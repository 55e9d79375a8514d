#!/bin/sh
# A subscription that the collector begins, from its document to its end: a source in one folder, the collector in
# another, and a copy of that, over which it listens, since a store has one process at a time.
#
#     sh examples/collector-begins.sh crates/wef/out/wef [FOLDER]
#
# The folders are made in FOLDER and stay there; where none is given, in a new one below /tmp, which is removed in the
# end. A line as `collector$ wef request` says what is run, and in which of them.

wef=$(realpath "$1") || exit 2
if [ -n "$2" ]; then
    room=$(realpath "$2") || exit 2
    made=
else
    room=$(mktemp -d) || exit 2
    made=$room
fi
listening=
serving=
port=$((30000 + $$ % 10000))
trap 'end_all; rm -f "$room/collecting" "$room/sending"; [ -z "$made" ] || rm -rf "$made"' EXIT
trap 'exit 1' HUP INT TERM
mkdir "$room/beginning" "$room/begun" || exit 2

# Kills what still runs.
end_all() {
    for process in $listening $serving; do
        kill -9 "$process" 2> /dev/null
        wait "$process" 2> /dev/null
    done
}

# Runs a command in one of the folders.
run_in() {
    folder=$1
    shift
    (cd "$room/$folder" && exec "$wef" "$@" 2>&1) || echo "status $?"
}

# Shows a command and runs it in one of the folders.
show_in() {
    folder=$1
    shift
    echo "$folder\$ wef $*"
    run_in "$folder" "$@"
}

# Begins a command in a folder that listens at a port that is free, with these words behind its address, and waits until
# it listens. What it prints comes from a pipe of this name.
listen() {
    folder=$1
    command=$2
    pipe=$3
    shift 3
    echo "$folder\$ wef $command ADDRESS $* &"
    while :; do
        port=$((port + 1))
        address=127.0.0.1:$port
        rm -f "$room/$pipe"
        mkfifo "$room/$pipe"
        (cd "$room/$folder" && exec "$wef" "$command" "$address" "$@") > "$room/$pipe" 2>&1 &
        process=$!
        case $pipe in
            collecting) exec 3< "$room/$pipe" && read -r line <&3 ;;
            *) exec 4< "$room/$pipe" && read -r line <&4 ;;
        esac
        case $line in
            "listening $address") return ;;
            "listening failed") ;;
            *) echo "$line" && exit 1 ;;
        esac
    done
}

echo "The source has three events. It listens, for two connections of a collector."
for data in 1 2 3; do
    echo "<Event xmlns='http://schemas.microsoft.com/win/2004/08/events/event'><System><Level>4</Level><Channel>Application</Channel></System><EventData><Data>$data</Data></EventData></Event>"
done | show_in begun write
listen begun serve sending 127.0.0.1 2
serving=$process
source=$address

echo
echo "The collector has a subscription that it begins there, and wants at most two events in a batch."
echo "<Subscription xmlns='http://schemas.microsoft.com/2006/03/windows/events/subscription'>
  <SubscriptionId>link</SubscriptionId>
  <SubscriptionType>CollectorInitiated</SubscriptionType>
  <Delivery Mode='Push'><Batching><MaxItems>2</MaxItems></Batching></Delivery>
  <Query><QueryList><Query><Select Path='Application'>*</Select></Query></QueryList></Query>
  <EventSources><EventSource><Address>$source</Address></EventSource></EventSources>
</Subscription>" | show_in beginning add
show_in beginning list

echo
echo "It listens over a copy of its folder, for two batches, and asks over the first."
cp -r "$room/beginning" "$room/copy" || exit 2
listen copy collect collecting 2
listening=$process
echo "beginning\$ wef request ADDRESS 9"
run_in beginning request "$address" 9
echo "the source:"
for line in connection first second; do
    read -r line <&4 && echo "$line"
done
echo "and the collector:"
cat <&3
wait "$listening"
listening=

echo
echo "The copy has the events, and knows that the source was heard."
show_in copy status link
show_in copy show

echo
echo "The subscription is removed, and the source is told."
show_in beginning remove link
echo "beginning\$ wef request ADDRESS 9"
run_in beginning request "$address" 9
echo "the source:"
cat <&4
wait "$serving"
serving=
show_in beginning list

# Has requests with long bodies refused, and stops each end inside a request and continues it.
#
#     sh connections.sh WEF

wef=$1
. ./collecting.sh
mkdir connections connections/collector connections/source && cd connections || exit 2

# Shows what comes of what a link is to do.
link() {
    { echo "=== link: a client" && cat; } | "$wef" | tail -n +2
}

# The head of a request to a path, as Go's client writes it where it keeps no connection, whose body has so many bytes.
head_of() {
    printf 'writes POST %s HTTP/1.1%s\n' "$1" "\\r\\nHost: $address\\r\\nUser-Agent: Go-http-client/1.1\\r\\nConnection: close\\r\\nContent-Length: $2\\r\\nContent-Type: application/soap+xml;charset=UTF-8\\r\\nAccept-Encoding: gzip\\r\\n\\r\\n"
}

# Shows each of several lines once, behind how often it is there.
count() {
    LC_ALL=C sort | uniq -c | sed 's/^ *//'
}

# Stops a process and continues it.
stop() {
    sleep 1
    kill -STOP "$1"
    sleep 1
    kill -CONT "$1"
}

echo "A hundred requests to another path, each with a body of 100,000 bytes, are refused, and each sender is told."
collect 100
for request in $(seq 100); do
    echo "connects $address"
    head_of /other 100000
    echo "fills 100"
    echo "reads"
done | link | count
collected > told
cut -d " " -f 3- told | count

echo
echo "The collector is stopped between the two halves of a request."
collect 1
{
    echo "connects $address"
    head_of /wsman/SubscriptionManager/WEC 2000
    echo "fills 1"
    stop "$collector"
    echo "fills 1"
    echo "reads"
} | link
collected

echo
echo "The source is stopped while it waits for an answer, and so is the collector."
(cd collector && "$wef" add) < ../all-events.xml
collect 1
kill -STOP "$collector"
(cd source && exec "$wef" forward "$address" pc1 1) > sent 2>&1 &
source=$!
stop "$source"
kill -CONT "$collector"
wait "$source"
cat sent
collected

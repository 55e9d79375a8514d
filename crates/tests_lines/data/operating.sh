# Does what docs/operating.md says: looks at a collector that runs, looks at its store between its runs, copies the store,
# and has a collector run in loops.
#
#     sh operating.sh WEF

wef=$1
loop=
. ./collecting.sh
trap 'end_loop; end_collector' EXIT
mkdir operating operating/collector operating/source operating/copy operating/bin && cd operating || exit 2

# A `wef` for the loops, which leaves its number.
printf '#!/bin/sh\necho $$ > "%s/number"\nexec "%s" "$@"\n' "$PWD" "$wef" > bin/wef
chmod +x bin/wef

# Ends the loop that runs, and its collector.
end_loop() {
    [ -n "$loop" ] || return 0
    kill -9 "$loop" 2> /dev/null
    wait "$loop" 2> /dev/null
    loop=
    kill -9 "$(cat number)" 2> /dev/null
}

# Writes an event for each word.
write() {
    for data in "$@"; do
        echo "<Event xmlns='http://schemas.microsoft.com/win/2004/08/events/event'><System><Level>4</Level><Channel>System</Channel></System><EventData><Data>$data</Data></EventData></Event>"
    done | (cd source && "$wef" write)
}

# Forwards what there is, once the collector listens.
forward() {
    for turn in $(seq 300); do
        (cd source && "$wef" forward "$address" pc1 4) > sent 2> /dev/null && cat sent && return
        sleep 0.1
    done
    echo "nobody listens"
    exit 1
}

# Waits until so many lines of a file begin so.
until_there() {
    for turn in $(seq 300); do
        [ "$(grep -c "^$2" "$3" 2> /dev/null)" = "$1" ] && return
        sleep 0.1
    done
    echo "$3: no $1 of $2"
    exit 1
}

# Shows what the collector holds, once nobody else has its store.
show() {
    for turn in $(seq 300); do
        (cd collector && "$wef" show) > shown 2> /dev/null && cat shown && return
        sleep 0.1
    done
    echo "the store isn't free"
    exit 1
}

# Waits until the collector ends, and shows how its connections ended and what it holds then.
look() {
    collected
    (cd collector && "$wef" show > report.new && mv report.new report && cat report)
}

echo "A collector is looked at while it runs and between its runs, and its store is copied."
write one two three
(cd collector && "$wef" add < ../../all-events.xml)
collect 2
(cd collector && "$wef" show 2>&1 || echo "status $?")
(cd source && "$wef" forward "$address" pc1 4)
look
collect 1
(cd source && "$wef" forward "$address" pc1 4)
look
cp collector/wef.db collector/wef.db-wal copy/ && (cd copy && "$wef" show) | diff collector/report - && echo copied

echo
echo "A loop looks at it between each two connections and the next two."
rm collector/report
(PATH=$PWD/bin:$PATH && cd collector && while wef collect "$address" 2; do wef show > report.new && mv report.new report; done) > lines.log 2>&1 &
loop=$!
write four
forward
until_there 2 listening lines.log
cat collector/report
write five
forward
until_there 3 listening lines.log
cat collector/report
end_loop

echo
echo "A loop begins it again when it is killed."
(PATH=$PWD/bin:$PATH && cd collector && while :; do wef collect "$address" 1000000 >> collect.log; sleep 1; done) 2> /dev/null &
loop=$!
until_there 1 listening collector/collect.log
kill -9 "$(cat number)"
until_there 2 listening collector/collect.log
write six
forward
end_loop
show

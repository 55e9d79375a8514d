# Adds, lists and ends the subscriptions of documents over one store, each command in a process of its own.
#
#     sh documents.sh WEF

wef=$1
mkdir documents || exit 2

# Shows a command, and runs it with the document that it reads.
run() {
    echo "wef $1${2:+ < $2}"
    (cd documents && exec "$wef" $1 2>&1) < "${2:-/dev/null}" || echo "status $?"
}

run list
run add all-events.xml
run add collector-initiated.xml
run add as-wecutil-prints.xml
run add all-events.xml
run list
run "remove Workstations"
run "remove Workstations"
run "remove workstations"
run list
run add as-wecutil-prints.xml

# Runs the program where the file of its store is none: it says so, and leaves what is there.
#
#     sh no-stores.sh WEF

wef=$1
mkdir no-stores && cd no-stores || exit 2

list() {
    "$wef" list 2>&1 || echo "status $?"
}

echo "no store" > wef.db
list
cat wef.db
rm wef.db
mkdir wef.db
list
rmdir wef.db
mkdir gone && cd gone && rmdir ../gone || exit 2
list

# Runs the program over a store, delivers one event, walks through two folders, looks at the stores that lie there then,
# runs it where there is no store, over connections, as who operates a collector does, and through a subscription that the
# collector begins.
#
#     sh test.sh WEF

exec < /dev/null
sh documents.sh "$1" && echo && sh one-event.sh "$1" && echo && sh two-folders.sh "$1" . && sh rows.sh "$1" && sh no-stores.sh "$1" && echo && sh connections.sh "$1" && echo && sh operating.sh "$1" && echo && sh collector-begins.sh "$1"

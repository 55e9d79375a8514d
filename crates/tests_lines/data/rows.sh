# Reads the stores that a walk through two folders has left by sqlite3, where it is installed and not older than the
# kind of their table, and compares the rows with those that are wanted. The program still reads them after it, and a
# store that sqlite3 wrote. Where it is missing, the error stream says that this was skipped.
#
#     sh rows.sh WEF

if ! sqlite3 :memory: "CREATE TABLE kept (number INTEGER) STRICT" > /dev/null 2>&1; then
    echo "rows.sh: skipped, there is no sqlite3 with strict tables" >&2
    exit 0
fi

# Fails where a query of a store gives something else than the input.
wanted() {
    sqlite3 "$1/wef.db" "$2" > rows
    diff - rows && return
    echo "$1: $2"
    exit 1
}

(cd collector && "$1" show) > before
for folder in collector source; do
    wanted $folder "SELECT sql FROM sqlite_schema WHERE name NOT LIKE 'sqlite%'" << END
CREATE TABLE kept (kind INTEGER NOT NULL, sub TEXT NOT NULL, source TEXT NOT NULL, channel TEXT NOT NULL, number INTEGER NOT NULL, value INTEGER NOT NULL, body TEXT NOT NULL, PRIMARY KEY (kind, sub, source, channel, number)) STRICT
END
    wanted $folder "PRAGMA integrity_check; PRAGMA journal_mode" << END
ok
wal
END
done

wanted collector "SELECT kind, sub, source, channel, count(*), min(number), max(number) FROM kept GROUP BY kind, sub, source, channel" << END
1|base|||1|0|0
2|base|pc1|application|1|0|0
3|base|pc1|application|401|1|401
6|base|pc1||1|0|0
8||||1|0|0
END
wanted collector "SELECT kind, value, body FROM kept WHERE kind = 2 OR kind = 3 AND value <> 0" << END
2|401|
END
wanted collector "SELECT count(*) FROM kept WHERE kind = 3 AND body LIKE '<Event %<EventRecordID>' || number || '</EventRecordID>%</Event>'" << END
401
END
wanted collector "SELECT value, body LIKE '<Subscription %<SubscriptionId>base</SubscriptionId>%' FROM kept WHERE kind = 1" << END
0|1
END
wanted collector "SELECT date(value / 1000, 'unixepoch') BETWEEN date('now', '-1 day') AND date('now') FROM kept WHERE kind = 6" << END
1
END

wanted source "SELECT kind, sub, source, channel, count(*), min(number), max(number) FROM kept GROUP BY kind, sub, source, channel" << END
9|||application|401|1|401
10|||application|1|0|0
11||||1|0|0
12||||1|0|0
END
wanted source "SELECT kind, value, body FROM kept WHERE kind = 10 OR kind = 11" << END
10|401|
11|65536|
END
wanted source "SELECT count(*) FROM kept WHERE kind = 9 AND value = 0 AND body LIKE '<Event %<EventRecordID>' || number || '</EventRecordID>%</Event>'" << END
401
END

(cd collector && "$1" show) | diff before - || exit 1

# A file that sqlite3 wrote, whose rows stand in the log beside it alone.
mkdir written copied
sqlite3 written/wef.db > written/out << END || exit 1
PRAGMA journal_mode = wal;
PRAGMA wal_autocheckpoint = 0;
CREATE TABLE kept (kind INTEGER NOT NULL, sub TEXT NOT NULL, source TEXT NOT NULL, channel TEXT NOT NULL, number INTEGER NOT NULL, value INTEGER NOT NULL, body TEXT NOT NULL, PRIMARY KEY (kind, sub, source, channel, number)) STRICT;
ATTACH 'collector/wef.db' AS other;
INSERT INTO kept SELECT * FROM other.kept;
.shell cp written/wef.db written/wef.db-wal copied
END
(cd copied && "$1" show) | diff before - || exit 1

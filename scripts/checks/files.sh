#!/usr/bin/env bash
# Opens a shelf over real files that `sqlite3` made, and reads with `sqlite3` what a shelf wrote.
#
#   scripts/check files
#
# Then it refuses files that aren't a shelf's (another shape, a damaged, locked or read-only file, a
# full disk): each with its fault, the file as it was.
#
# It needs the machine's sqlite3, to be root (for the read-only file), and the program of
# scripts/programs/shelf_files, which is built first unless PROGRAM names a built one: 12 processor
# minutes over libraries that are checked already. The checks themselves take seconds.
set -u
top=$(cd "$(dirname "$0")/../.." && pwd)
. "$top/scripts/checks/locked.sh"
room=$(mktemp -d)
trap 'rm -rf "$room"' EXIT
bad=0

# what the program says, but for how long it took
say() { timeout 60 "$program" "$@" 2>&1 | grep -v '^connect [0-9]'; }

# NAME WANTED FOUND
wanted() {
  if [ "$2" = "$3" ]; then
    echo "$1: ok"
  else
    echo "$1: FAILED, wanted: $2, found: $3"
    bad=1
  fi
}

# the tables of the older generation, without rows
older="CREATE TABLE page(no INTEGER PRIMARY KEY, version INTEGER NOT NULL, body BLOB NOT NULL)
  STRICT; CREATE TABLE mark(id INTEGER PRIMARY KEY, commits INTEGER NOT NULL,
  page_size INTEGER NOT NULL) STRICT;"

# the tables of a shelf with a store of two pages of 16 bytes, by sqlite3
by_sqlite() {
  rm -f "$1"*
  sqlite3 "$1" "CREATE TABLE mark2(id INTEGER PRIMARY KEY, commits INTEGER NOT NULL,
    page_size INTEGER NOT NULL, pages INTEGER NOT NULL) STRICT;
    CREATE TABLE page2(no INTEGER PRIMARY KEY, version INTEGER NOT NULL) STRICT;
    CREATE TABLE part(no INTEGER NOT NULL, place INTEGER NOT NULL, body BLOB NOT NULL,
    PRIMARY KEY(no, place)) STRICT;
    INSERT INTO mark2 VALUES (1, 3, 16, 2);
    INSERT INTO page2 VALUES (0, 3), (1, 0);
    INSERT INTO part VALUES (0, 0, x'07070707070707070707070707070707'), (1, 0, zeroblob(16));
    $2"
}

# the older tables with that store
old_by_sqlite() {
  rm -f "$1"*
  sqlite3 "$1" "$older
    INSERT INTO page VALUES (0, 3, x'07070707070707070707070707070707'), (1, 0, zeroblob(16));
    INSERT INTO mark VALUES (1, 3, 16)"
}

# the rows of a shelf's tables, as sqlite3 reads them
rows() {
  sqlite3 "$1" "SELECT * FROM mark2; SELECT * FROM page2 ORDER BY no; SELECT no, place,
    length(body), hex(substr(body, 1, 2)) FROM part ORDER BY no, place" | tr '\n' ' '
}

# NAME FAULT-WANTED: the program refuses the file, and leaves it byte for byte
refused() {
  local before after said
  before=$(sha256sum <"$room/a.db")
  said=$(say open "$room/a.db" 2 16)
  after=$(sha256sum <"$room/a.db")
  wanted "$1" "$2" "$said"
  wanted "$1, the file" "$before" "$after"
}

program=$(python3 "$top/scripts/building.py" shelf_files "$room") || exit 2

# written by the shelf, read by sqlite3
say fill "$room/w.db" 2 8208 1 9 >"$room/said"
wanted "a shelf writes" "written 1" "$(cat "$room/said")"
wanted "sqlite3 finds it whole" ok "$(sqlite3 "$room/w.db" 'PRAGMA integrity_check')"
tables="1|1|8208|2 0|1 1|0"
first="0|0|4096|0909 0|1|4096|0909 0|2|16|0909"
second="1|0|4096|0000 1|1|4096|0000 1|2|16|0000"
wanted "sqlite3 reads it" "$tables $first $second " "$(rows "$room/w.db")"

# written by sqlite3, read by the shelf, written by it, read by sqlite3
by_sqlite "$room/a.db" ""
shown="number 3
page 0: version 3, 16 bytes of 7, true
page 1: version 0, 16 bytes of 0, true"
wanted "a shelf reads what sqlite3 wrote" "$shown" "$(say show "$room/a.db" 2 16)"
wanted "and writes on" "written 4" "$(say fill "$room/a.db" 2 16 2 5)"
wanted "sqlite3 reads that" "1|4|16|2 0|4 1|4 0|0|16|0505 1|0|16|0505 " "$(rows "$room/a.db")"
old_by_sqlite "$room/a.db"
wanted "a shelf copies older tables" "$shown" "$(say show "$room/a.db" 2 16)"
wanted "sqlite3 reads the copy" "1|3|16|2 0|3 1|0 0|0|16|0707 1|0|16|0000 " "$(rows "$room/a.db")"
wanted "and the older ones are empty" "0|0" \
  "$(sqlite3 "$room/a.db" 'SELECT (SELECT count(*) FROM page), (SELECT count(*) FROM mark)')"

# files that aren't a store of these limits
while IFS='|' read -r name text; do
  by_sqlite "$room/a.db" "$text"
  refused "$name" "open: 1 Shape"
done <<'ROWS'
a page missing|DELETE FROM page2 WHERE no = 1
a version above the mark|UPDATE page2 SET version = 4 WHERE no = 0
a shorter body|UPDATE part SET body = zeroblob(15) WHERE no = 1
a longer body|UPDATE part SET body = zeroblob(17) WHERE no = 1
a part too many|INSERT INTO part VALUES (0, 1, x'07')
a part missing|DELETE FROM part WHERE no = 1
another page size|UPDATE mark2 SET page_size = 32
another count of pages|UPDATE mark2 SET pages = 3
no mark|DELETE FROM mark2
one table missing|DROP TABLE part
ROWS
by_sqlite "$room/a.db" "$older INSERT INTO mark VALUES (1, 3, 16)"
refused "both generations with rows" "open: 1 Shape"
old_by_sqlite "$room/a.db"
sqlite3 "$room/a.db" "DELETE FROM page WHERE no = 1"
refused "a page of the older tables missing" "open: 1 Shape"

# files that the database itself refuses
head -c 8192 /dev/urandom >"$room/a.db"; rm -f "$room"/a.db-*
refused "a file that isn't a database" "connect: 2 Store"
by_sqlite "$room/a.db" ""
dd if=/dev/zero of="$room/a.db" bs=1 seek=100 count=200 conv=notrunc 2>/dev/null
refused "a damaged database" "connect: 2 Store"
by_sqlite "$room/a.db" ""
lock_file "$room" "$room/a.db"
refused "a locked file" "connect: 2 Store"
let_go
by_sqlite "$room/a.db" ""
rm -f "$room"/a.db-*
chmod 755 "$room"; chmod 444 "$room/a.db"
cp "$program" "$room/program"; chmod 755 "$room/program"
before=$(sha256sum <"$room/a.db")
said=$(cd / && setpriv --reuid=65534 --clear-groups "$room/program" open "$room/a.db" 2 16 2>&1 \
  | grep -v '^connect [0-9]')
wanted "a read-only file" "connect: 2 Store" "$said"
wanted "a read-only file, the file" "$before" "$(sha256sum <"$room/a.db")"
chmod 644 "$room/a.db"

# a disk without room: no file may grow past 64 blocks of 1,024 bytes
rm -f "$room"/f.db*
say fill "$room/f.db" 64 4096 1 3 >/dev/null
before=$(rows "$room/f.db")
rm -f "$room"/f.db-*
said=$(trap '' XFSZ; ulimit -f 64; say fill "$room/f.db" 64 4096 64 9)
wanted "a full disk" "write: 2 Store" "$(echo "$said" | head -n 1)"
wanted "a full disk, the store" "$before" "$(rows "$room/f.db")"

exit $bad

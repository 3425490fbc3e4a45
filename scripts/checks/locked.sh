# For checks in shells: a file of a database that another process has locked.

# locks it by sqlite3, until let_go; ROOM is a folder for what both need: ROOM FILE
lock_file() {
  local given=$1/commands heard=$1/heard
  mkfifo "$given"
  sqlite3 "$2" <"$given" >"$heard" &
  locker=$!
  exec 9>"$given"
  echo "PRAGMA locking_mode=EXCLUSIVE; BEGIN EXCLUSIVE; SELECT 'locked';" >&9
  until grep -qx locked "$heard" || ! kill -0 "$locker" 2>/dev/null; do sleep 0.02; done
}

let_go() {
  exec 9>&-
  wait "$locker"
}

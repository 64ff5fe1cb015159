#!/bin/sh
# Records a conversation, imports the record into SQLite by its own command line, asks what was dropped, and gives the script again from the record.
#
# Usage: examples/recorder.sh NAME, of examples/NAME.iox with its replies in examples/NAME.replies. Says so, and ends well, where sqlite3 isn't there.
set -eu
name=${1:-first}
top=$(cd "$(dirname "$0")/.." && pwd)
work=$(mktemp -d)
trap 'rm -r "$work"' EXIT

# The program: proved and built at the first call.
tracer=$top/crates/example_tracer/out/example_tracer
[ -x "$tracer" ] || (cd "$top/crates/example_tracer" && rt run <stdin >/dev/null)

paste "$top/examples/$name.iox" "$top/examples/$name.replies" >"$work/conversation"
"$tracer" record <"$work/conversation" >"$work/record.csv"
"$tracer" replay <"$work/record.csv" >"$work/script"
cmp "$work/script" "$top/examples/$name.iox" && echo "the script again: the same $(wc -l <"$work/script") lines"

command -v sqlite3 >/dev/null || { echo "no sqlite3 here: the record isn't imported"; exit 0; }
sqlite3 "$work/record.db" ".import --csv $work/record.csv record"
echo "in SQLite: $(sqlite3 "$work/record.db" 'SELECT count(*) FROM record') rows, $(sqlite3 "$work/record.db" "SELECT count(*) FROM record WHERE kind = 'receive' AND reply LIKE 'ok %'") samples received"
sqlite3 "$work/record.db" "SELECT 'line ' || rowid || ': ' || line || ' was sent to ' || delivered || ', and nobody received it' FROM record AS sent
    WHERE kind = 'put' AND delivered <> ''
    AND NOT EXISTS (SELECT 1 FROM record AS got WHERE got.rowid > sent.rowid AND got.kind = 'receive' AND got.reply LIKE 'ok %' AND got.value = sent.value)"

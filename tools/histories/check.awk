# Reads the history of an exchange that was killed again and again, and of its desk, as tools/kills writes it, and asks of every table that a
# started exchange lists: that it is what the requests made of it that were answered until then, and the one that was not, if it was handled,
# whole. Whether it was is told by the last handled identifier. Of every page it asks that what is shown as known is that table's.
# Prints a line; exit 1 at the first breach.
#   = exchange    what an exchange says follows: each access's table, and `listening`
#   = desk        what a desk says follows: `ID: COMMAND`, then `ID: done`, `ID: error N` or `ID: no answer`; and its page
function breach(what) {
  if (!broken) print "kills: line " NR ": " what
  broken = 1
  exit 1
}

BEGIN {
  services = split("1 2 32", service, " ")
  number[0] = "13579"; number[1] = "13580"; numbers = 2
  place["13579"] = 0; place["13580"] = 1
  last = 0; pending = 0
}

# The request at hand: what, procedure, code of the service, where to, and the served number, or "" for all.
function parse(text,   part, n) {
  n = split(text, part, " ")
  what = part[1]; procedure = part[2]; code = part[3]
  to = what == "register" ? part[4] : ""
  served = what == "register" ? part[5] : part[4]
}

# By document 01: what it is answered.
function outcome(   i, s) {
  if (what == "ask") return "done"
  if (what == "register") return to ~ /^112/ ? "error 14" : "done"
  for (i = 0; i < numbers; i++)
    for (s = 1; s <= services; s++)
      if (selected(i, s) && ((procedure, i, service[s]) in held)) return "done"
  return "error 46"
}

function selected(i, s) {
  return (served == "" || place[served] == i) && (code == 0 || code == service[s])
}

function apply(   i, s) {
  if (what == "ask" || outcome() != "done") return
  for (i = 0; i < numbers; i++)
    for (s = 1; s <= services; s++)
      if (selected(i, s)) {
        if (what == "register") held[procedure, i, service[s]] = to
        else delete held[procedure, i, service[s]]
      }
}

function count_of(p,   key, part, n) {
  for (key in held) {
    split(key, part, SUBSEP)
    if (p == "" || part[1] == p) n++
  }
  return n + 0
}

# ---- a table

# The request without an answer was handled, or it was not: it is at hand, for no other was read since.
function settle() {
  if (pending && $5 == pending) { apply(); last = pending; handled++ }
  else if (pending) lost++
  pending = 0
  if ($5 < last) breach("the answered request " last " is missing: the last handled is " $5)
  if ($5 > last) breach("the last handled is " $5 ", which nobody sent")
  if ($7 != count_of("")) breach("the table has " $7 " instances and not " count_of("") ": an answered request is missing, or half of one is there")
}

$1 == "=" { speaks = $2; access = ""; known = ""; next }
speaks == "exchange" && $2 == "form" {
  access = $1
  if (access == "office") { starts++; settle() }
  next
}
speaks == "exchange" && access == "office" && $1 ~ /^cf/ {
  if (held[$1, $2, $3] "" != $5 "") breach("the table has " $0 ", where " held[$1, $2, $3] " was answered")
}
speaks == "exchange" { next }

# ---- a desk

/^[0-9]+: (register|cancel|ask) / {
  if (pending) breach("a request is sent while another is outstanding")
  pending = $1 + 0
  if (pending <= last) breach("identifier " pending " is used again")
  sub(/^[0-9]+: /, "")
  parse($0)
  next
}
/^[0-9]+: no answer$/ { next }
/^[0-9]+: / {
  if ($1 + 0 != pending) breach("an answer to no request: " $0)
  sub(/^[0-9]+: /, "")
  if ($0 != outcome()) breach("request " pending " is answered " $0 ", not " outcome())
  apply()
  last = pending; pending = 0; answered++
  next
}

# ---- its page

/^cf[a-z]+ in doubt$/ { doubts++; known = ""; next }
/^cf[a-z]+ known, / {
  known = $1; shown++
  if ($3 != count_of(known)) breach("the page shows " $3 " of " known " as known, and the table has " count_of(known))
  next
}
/^  [0-9]/ {
  if (held[known, place[$1], $2] "" != $4 "") breach("the page shows" $0 " as known of " known ", and the table has " held[known, place[$1], $2])
  next
}
{ breach("a line that nobody says: " $0) }

END {
  if (broken) exit 1
  if (!answered || !lost || !shown || !doubts) { print "kills: nothing was answered, or lost, or shown as known, or in doubt"; exit 1 }
  printf "kills: %d starts, %d requests answered, %d handled without an answer, %d lost, %d times known and %d in doubt: all as it must be\n",
    starts, answered, handled, lost, shown, doubts
}

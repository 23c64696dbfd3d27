# Events of a desk over a new file, for three programs: as lines for `desk run`, as requests for send.c, and as statements for
# `bench statements`, where the text of a statement is that of the desk. Variables:
#
#   form     lines, requests or statements
#   nights   how many nights each journey takes, 1 or 30; the file has as many events before, which loaded them
#   count    how many journeys there are, each of two steps, of which the second does not fit
#   kinds    how many of the four kinds of events there are: all begin; all take the places of their first step (T); all turn
#            back (B); all give the places back (C)
#   asked    1: journeys turn back because they are asked to, by an abort to position 0, in place of a step that does not fit
#   get      journey, unfinished or stock: with which request to continue, if any
#   gets     how often
#   load     the name of a batch: instead of these events, it is loaded after so many events as `before` says, as statements.
#            Its rows are the input, an allotment file with 250 nights of each product
#
# Requests have a key, and so have statements if `keyed` is 1. No turn depends on the plan: no step may be tried again.
function prepare(name, text) {
  printf "prepare%s%s%s", S, text, E
  number[name] = prepared++
}
function run(word, name, values) { printf "%s%s%d%s%s", word, S, number[name], values, E }
function int_of(value) { return S "i" value }
function text_of(value) { return S "t" value }

function prepare_all() {
  prepare("begin", "BEGIN")
  prepare("commit", "COMMIT")
  prepare("find answer", "SELECT ask, reply FROM answer WHERE agent = ?1 AND mark = ?2")
  prepare("find meta", "SELECT version, events, journeys FROM meta WHERE one = 1")
  prepare("find journey", "SELECT id, num, agent, steps, tries, pos, phase, target, used FROM journey WHERE id = ?1")
  prepare("find options", "SELECT place, opt, save, taken, kind, supplier, product, night, nights, places FROM step " \
    "WHERE journey = ?1 AND place = ?2 ORDER BY place, opt")
  prepare("find nights", "SELECT night, allot, free FROM stock WHERE kind = ?1 AND supplier = ?2 AND product = ?3 " \
    "AND night BETWEEN ?4 AND ?5 ORDER BY night")
  prepare("find items", "SELECT num, item, a, b FROM entry2 WHERE journey = ?1 AND num > ?2 ORDER BY num")
  prepare("find unfinished", "SELECT id, num, agent, steps, tries, pos, phase, target, used FROM journey " \
    "WHERE id > ?1 AND phase <= 1 ORDER BY id")
  prepare("find stock", "SELECT kind, supplier, product, night, allot, free FROM stock " \
    "ORDER BY kind, supplier, product, night")
  prepare("meta", "UPDATE meta SET version = ?1, events = ?2, journeys = ?3 WHERE one = 1")
  prepare("journey", "INSERT INTO journey VALUES (?1, ?2, ?3, ?4, ?5, ?6, ?7, ?8, ?9)")
  prepare("step", "INSERT INTO step VALUES (?1, ?2, ?3, ?4, 0, ?5, ?6, ?7, ?8, ?9, ?10)")
  prepare("nights", "UPDATE stock SET free = free - ?4 WHERE kind = ?1 AND supplier = ?2 AND product = ?3 " \
    "AND night BETWEEN ?5 AND ?6")
  prepare("taken", "UPDATE step SET taken = ?4 WHERE journey = ?1 AND place = ?2 AND opt = ?3")
  prepare("move", "UPDATE journey SET pos = ?2, phase = ?3, target = ?4, used = ?5 WHERE id = ?1")
  prepare("item", "INSERT INTO entry2 VALUES (?1, ?2, ?3, ?4, ?5)")
  prepare("unmark", "DELETE FROM mark WHERE journey = ?1 AND pos = ?2")
  prepare("answer", "INSERT INTO answer VALUES (?1, ?2, ?3, ?4)")
  prepare("find batch", "SELECT num, content FROM batch WHERE name = ?1")
  prepare("batch", "INSERT INTO batch VALUES (?1, ?2, ?3)")
  prepare("cell", "INSERT INTO stock VALUES (?1, ?2, ?3, ?4, ?5, ?6)")
  prepare("week", "INSERT INTO stock VALUES (?1, ?2, ?3, ?6, ?4, ?5), (?1, ?2, ?3, ?7, ?4, ?5), (?1, ?2, ?3, ?8, ?4, ?5), " \
    "(?1, ?2, ?3, ?9, ?4, ?5), (?1, ?2, ?3, ?10, ?4, ?5), (?1, ?2, ?3, ?11, ?4, ?5), (?1, ?2, ?3, ?12, ?4, ?5)")
  prepare("run", "UPDATE stock SET allot = ?4, free = ?5 WHERE kind = ?1 AND supplier = ?2 AND product = ?3 " \
    "AND night BETWEEN ?6 AND ?7")
}

# what every event reads, and what each but a begin does
function read_first(key) {
  if (keyed) run("query", "find answer", text_of("ann") text_of(key))
  run("query", "find meta", "")
}
function read_journey(id, place) {
  run("query", "find journey", int_of(id))
  run("query", "find options", int_of(id) int_of(place))
}
function read_nights(kind, supplier, product, nights) {
  run("query", "find nights", int_of(kind) text_of(supplier) text_of(product) int_of(first) int_of(first + nights - 1))
}
function put_nights(places) {
  run("execute", "nights", int_of(kind) text_of(supplier) text_of(product) int_of(places) int_of(first) \
    int_of(first + nights - 1))
}

# how every event ends
function end_event(key, ask, reply) {
  run("execute", "meta", int_of(2) int_of(events) int_of(journeys))
  if (keyed) run("execute", "answer", text_of("ann") text_of(key) S "b" ask text_of(reply))
  run("execute", "commit", "")
}
function end_item(id, item, a, b, pos, phase, used, key, way, reply) {
  run("execute", "move", int_of(id) int_of(pos) int_of(phase) int_of(0) int_of(used))
  run("execute", "item", int_of(++events) int_of(id) int_of(item) int_of(a) int_of(b))
  end_event(key, "/journeys/" id "/" way "\n", "journey " id " " reply)
}

function begin(id, key) {
  read_first(key)
  run("execute", "begin", "")
  run("execute", "journey", int_of(++journeys) int_of(++events) text_of(keyed ? "ann" : "desk") int_of(2) int_of(0) \
    int_of(0) int_of(0) int_of(0) int_of(0))
  run("execute", "step", int_of(id) int_of(1) int_of(1) int_of(0) int_of(kind) text_of(supplier) text_of(product) \
    int_of(first) int_of(nights) int_of(1))
  run("execute", "step", int_of(id) int_of(2) int_of(1) int_of(0) int_of(0) text_of("NO") text_of("NONE") int_of(first) \
    int_of(1) int_of(1))
  end_event(key, "/journeys\n" plan, "journey " id " begun")
}
function take(id, key) {
  read_first(key)
  read_journey(id, 1)
  read_nights(kind, supplier, product, nights)
  run("execute", "begin", "")
  put_nights(1)
  run("execute", "taken", int_of(id) int_of(1) int_of(1) int_of(1))
  end_item(id, 0, 1, 1, 1, 0, 0, key, "step", "T1.1 run 1")
}
function turn(id, key) {
  read_first(key)
  read_journey(id, 2)
  read_nights(0, "NO", "NONE", 1)
  run("execute", "begin", "")
  end_item(id, 2, 0, 1, 1, 1, 1, key, "step", "B0r back 1 to 0")
}
function turn_asked(id, key) {
  read_first(key)
  run("query", "find journey", int_of(id))
  run("execute", "begin", "")
  end_item(id, 2, 0, 2, 1, 1, 0, key, "abort/0", "B0a back 1 to 0")
}
function give(id, key) {
  read_first(key)
  read_journey(id, 1)
  run("execute", "begin", "")
  put_nights(-1)
  run("execute", "taken", int_of(id) int_of(1) int_of(1) int_of(0))
  run("execute", "unmark", int_of(id) int_of(1))
  end_item(id, 1, 1, 1, 0, 3, !asked, key, "step", "C1.1 undone 0")
}

# a batch of so many rows, whose cells are known by their texts and by their values: the nights of each product are a run, of
# which 64 are read at once, and all cells are new in the first batch, where 7 are added at once, and none in a later one
function load_batch(  at, together, night, week) {
  read_first("")
  run("query", "find batch", text_of(load))
  for (at = 1; at <= rows; at += together) {
    for (together = 1; together < 64 && cells[at + together] == cells[at]; ) together++
    run("query", "find nights", cells[at] int_of(days[at]) int_of(days[at] + together - 1))
  }
  run("execute", "begin", "")
  run("execute", "batch", text_of(load) int_of(++events) S "b" content)
  for (at = 1; at <= rows; at++) {
    if (cells[at] != cells[at - 1])
      run("execute", "run", cells[at] int_of(places[at]) int_of(places[at]) int_of(days[at]) int_of(days[at] + 249))
    if (before) continue
    night = days[at] - first
    if (night >= 245) run("execute", "cell", cells[at] int_of(days[at]) int_of(places[at]) int_of(places[at]))
    else if (night % 7 == 0) {
      week = ""
      for (together = 0; together < 7; together++) week = week int_of(days[at + together])
      run("execute", "week", cells[at] int_of(places[at]) int_of(places[at]) week)
    }
  }
  end_event("", "", "")
}

function statements_of(which, id, key) {
  if (which == 1) begin(id, key)
  if (which == 2) take(id, key)
  if (which == 3 && !asked) turn(id, key)
  if (which == 3 && asked) turn_asked(id, key)
  if (which == 4) give(id, key)
}
function line_of(which, id) {
  if (which == 1)
    printf "begin %s/%s/%s/2030-06-01/%d/1;F/NO/NONE/2030-06-01/1/1!0\n", substr("FR", kind + 1, 1), supplier, product, nights
  else if (which == 3 && asked)
    printf "abort %d 0\n", id
  else
    printf "step %d\n", id
}
function request_of(method, target, fields, body) {
  printf "%s %s HTTP/1.1\r\nHost: 127.0.0.1\r\nDesk-Agent: ann\r\n%s", method, target, fields
  if (method == "POST") printf "Content-Length: %d\r\n", length(body)
  printf "\r\n%s%s", body, E
}

function event(which, id,  key, way) {
  key = "k" which "-" id
  way = which == 3 && asked ? "abort/0" : "step"
  if (form == "statements") statements_of(which, id, key)
  if (form == "lines") line_of(which, id)
  if (form == "requests")
    request_of("POST", which == 1 ? "/journeys" : "/journeys/" id "/" way, "Desk-Key: " key "\r\n", which == 1 ? plan : "")
}

# the answer to a GET: of the journey of that number, which began at the event of that number
function get_one(id, num) {
  if (form == "requests") {
    request_of("GET", "/" (get == "journey" ? "journeys/" id : get), "", "")
    return
  }
  if (get == "unfinished") run("query", "find unfinished", int_of(0))
  if (get == "stock") run("query", "find stock", "")
  if (get == "journey") {
    run("query", "find journey", int_of(id))
    run("query", "find items", int_of(id) int_of(num))
  }
}

BEGIN {
  E = "\036"
  S = "\037"
  first = 22066 # 2030-06-01, in days from 1970-01-01
  if (!load) before = nights
  events = before
  journeys = 0
  kind = nights > 1
  supplier = kind ? "HOT" : "AL"
  product = kind ? "DBL" : "A1"
  option = "{\"options\":[{\"count\":1,\"first\":\"2030-06-01\",\"kind\":\"%s\",\"nights\":%d,\"product\":\"%s\"," \
    "\"supplier\":\"%s\"}],\"save\":false}"
  plan = sprintf("{\"steps\":[" option "," option "],\"tries\":0}", kind ? "room" : "flight", nights, product, supplier,
    "flight", 1, "NONE", "NO")
  if (form == "statements") prepare_all()
  for (which = 1; which <= kinds; which++)
    for (id = 1; id <= count; id++) event(which, id)
  for (at = 0; at < gets; at++) get_one(1, before + 1)
  FS = ","
  if (!load) exit
}

FNR > 1 {
  content = content toupper(substr($1, 1, 1)) "/" $2 "/" $3 "/" $4 "/" $5 "\n"
  cells[++rows] = int_of($1 == "flight" ? 0 : 1) text_of($2) text_of($3)
  days[rows] = first + (FNR - 2) % 250
  places[rows] = $5
}

END { if (load) load_batch() }

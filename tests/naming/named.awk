# Prints the names that the documents give, one to a line: 'DOCUMENT:LINE', kind and name with tabs between. How a document names things:
#   crate/specs/File: `name`, `name`   the definitions of a file, up to the next file, the end of the cell, the item or the paragraph;
#                                      the same with proofs/ for theorems and src/ for functions. A file that is given in brackets
#                                      holds up to the closing one. A name in brackets, after a file outside of them, is any word of it.
#   `crate::module::function`          a function, type or module of the code
#   `crate/edit`                       a must-fail edit; in the tables of PROMISES: crate `edit`
#   `rembulfose_..`, `make target`     a C call; a target of the Makefile
#   `panel command`                    a command of the panel program, which has a file of that name in host/
#   tests/.., host/.., ..              a file or folder, in backticks or not
#   `Owner.field`                      a part of a record or a type of a file that was given
# In TRACE and PROMISES no other name may stand in backticks (kind 'unplaced'); elsewhere any other is a crate. The variable foreign lists words
# that are no names of ours.
# Code that is set apart gives paths and make's targets only; but for ARCHITECTURE's list of promises, which has names and their file.
BEGIN {
  TOP = "^(bench|build|crates|demo|docs|examples|host|include|second|tests|tools|[.]ci)/"
  PLACE = "^[a-z_]+/(specs|proofs|src)([/:,;.]|$)"
  EDIT = "^[a-z_]+/[a-z_0-9]+$"
  FIELD = "^[A-Z][A-Za-z0-9]*[.][a-z][a-z_0-9]*$"
  n = split(foreign, words, " ")
  for (i = 1; i <= n; i++) is_foreign[words[i]]
}

FNR == 1 { begin_document() }
!/^\|/ { end_table() }
/^```/ { fenced = !fenced; next }
fenced || /^    / { code_line(); next }
/^#/ { section = $0; sub(/^#+ /, "", section) }
/^ *$/ || /^- / || /^#/ { forget() }
/^\|/ { row(); next }
{ scan(links($0)) }
END { end_table() }

function begin_document() {
  end_table()
  doc = FILENAME
  strict = doc ~ /TRACE|PROMISES/
  fenced = 0
  forget()
}

function forget() {
  depth = 0
  at[0] = ""
}

function say(kind, name) {
  print doc ":" FNR "\t" kind "\t" name
  names++
}

# ---- tables

# The first column of TRACE is the rule, and names nothing.
function row(   cells, n, i) {
  if (!in_table) {
    in_table = 1
    table_at = doc ":" FNR
    names = 0
    by_crate = /^\| Crate /
    return
  }
  n = split($0, cells, / *\| */)
  for (i = 2; i < n && $0 !~ /^\|-/; i++) {
    forget()
    if (doc ~ /TRACE/ && i == 2) continue
    if (by_crate && i == 2) say("crate", cells[i])
    else if (doc ~ /PROMISES/ && cells[i] ~ /^[a-z_]+ `[a-z_0-9]+`$/) promised_edit(cells[i])
    else scan(links(cells[i]))
  }
}

function promised_edit(cell) {
  gsub(/`/, "", cell)
  sub(/ /, "/", cell)
  say("edit", cell)
}

# A table of TRACE or PROMISES that names nothing is a fault.
function end_table() {
  if (in_table && strict) print table_at "\ttable\t" (names ? "of names" : "without a name")
  in_table = 0
}

# ---- text

# A link's path is said from the document's folder.
function links(text,   target, folder) {
  folder = doc
  if (!sub(/\/[^\/]*$/, "/", folder)) folder = ""
  while (match(text, /\]\([^)]*\)/)) {
    target = substr(text, RSTART + 2, RLENGTH - 3)
    text = substr(text, 1, RSTART - 1) " " substr(text, RSTART + RLENGTH)
    if (target ~ /^https?:/) continue
    target = folder target
    while (sub(/[^\/]+\/[.][.]\//, "", target));
    say("file", target)
  }
  return text
}

function scan(text,   tick, token) {
  while (tick = index(text, "`")) {
    plain(substr(text, 1, tick - 1))
    text = substr(text, tick + 1)
    tick = index(text, "`")
    if (!tick) {
      say("unplaced", "a backtick without its other")
      return
    }
    token = substr(text, 1, tick - 1)
    text = substr(text, tick + 1)
    ticked(token)
  }
  plain(text)
}

function plain(text,   words, n, i, w) {
  gsub(/[()]/, " & ", text)
  n = split(text, words, " ")
  for (i = 1; i <= n; i++) {
    w = words[i]
    if (w == "(") at[++depth] = ""
    else if (w == ")") depth -= depth > 0
    else if (w ~ TOP) path(w)
    else if (w ~ PLACE) place(w)
  }
}

function ticked(token) {
  if (token ~ /::/) {
    sub(/\(\)$/, "", token)
    say("function", token)
  } else if (token ~ /^rembulfose_/) say("call", token)
  else if (token ~ /^REMBULFOSE_/) say("word", "include/rembulfose.h " token)
  else if (token ~ /^make /) target(token)
  else if (token ~ /^panel [a-z]+/) command(token)
  else if (token ~ EDIT && token !~ TOP) say("edit", token)
  else if (token ~ TOP || token ~ /^[a-z-]+(\/|\.[a-z]+)$/) path(token)
  else if (token ~ PLACE) place(token)
  else name(token)
}

# A name by the file that was given: of the brackets in which it stands, or of the text around them.
function name(token,   d) {
  for (d = depth; d > 0 && at[d] == ""; d--);
  if (at[d] != "" && (d == depth || token ~ FIELD)) say(kind_of(at[d]), at[d] " " token)
  else if (at[d] != "") say("word", at[d] " " token)
  else if (doc !~ /host/) bare(token)
}

# Of an expression the first word. A variable has at most two letters, and signs and figures are no names.
function bare(token) {
  sub(/ .*/, "", token)
  if (token ~ /^[A-Za-z]/ && length(token) > 2 && !(token in is_foreign)) say(strict ? "unplaced" : "crate", token)
}

function kind_of(file) {
  return file ~ /\/specs\// ? "definition" : file ~ /\/proofs\// ? "theorem" : "function"
}

# crate/folder/File: the colon says that names of it follow. The documents write crate/specs/File where they say how files are named.
function place(w,   colon) {
  if (w ~ /^crate\//) return
  colon = w ~ /:$/
  sub(/[:,;.]+$/, "", w)
  if (w ~ /\/(specs|proofs)\/[A-Za-z0-9]+$/) w = w ".antt"
  w = "crates/" w
  say("file", w)
  at[depth] = colon ? w : ""
}

function path(w) {
  sub(/[:,;.]+$/, "", w)
  sub(/\/$/, "", w)
  if (w ~ /CRATE/ || w in is_foreign) return
  say("file", doc ~ /host/ && w !~ /\// ? "host/" w : w)
}

function target(text,   words) {
  split(text, words, " ")
  say("target", words[2])
}

function command(text,   words) {
  split(text, words, " ")
  say("file", "host/" words[2] ".c")
}

# ---- code that is set apart

function code_line(   i, w) {
  if ($1 == "make") target($1 " " $2)
  if (section == "How to read the promises") promise_line()
  else for (i = 1; i <= NF; i++) {
    w = $i
    sub(/[:,;]+$/, "", w)
    if (w ~ TOP) path(w)
    else if (section == "Layout" && w ~ /^[A-Z]+\.md$/) path("docs/" w)
    else if (section == "Files" && w ~ /^[a-z]+\.[ch]$/) path(w)
  }
}

# NAME, NAME  crates/CRATE/FOLDER/FILE  text. A name in backticks is one of the list (kind 'promise'); after 'ensures' come names of the contract,
# and shorter ones of its arguments.
function promise_line(   i, file, w, words) {
  for (i = 1; i <= NF && $i !~ /^crates\//; i++);
  file = $i
  say("file", file)
  while (--i) {
    w = $i
    sub(/,$/, "", w)
    say(kind_of(file), file " " w)
  }
  for (i = split($0, words, "`") - 1; i > 1; i -= 2) say("promise", words[i])
  if (!match($0, / ensures /)) return
  i = split(substr($0, RSTART + 9), words, /[^A-Za-z_]+/)
  for (; i > 0; i--) if (length(words[i]) > 4) say("word", file " " words[i])
}

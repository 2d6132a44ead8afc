# Prints the names that the crates' files define, one to a line, kind and name with a tab between: a definition of specs/ or a theorem of
# proofs/ as 'FILE NAME'; a function of src/ as 'FILE NAME', and by its path in the code: crate::module::name. Types, constants and modules of
# the code count as functions. A field or a constructor is there twice: by itself, and as 'Owner.field'.
FNR == 1 { begin_file() }
FILENAME ~ /\.antt$/ { antt_line() }
FILENAME ~ /\.rt$/ { rt_line() }

function say(kind, name) {
  print kind "\t" name
}

# A file is crates/CRATE/FOLDER/FILE.
function begin_file(   parts, module) {
  split(FILENAME, parts, "/")
  kind = parts[3] == "specs" ? "definition" : "theorem"
  owner = ""
  impl = ""
  module = parts[4]
  sub(/\.rt$/, "", module)
  path = parts[2] (module == "lib" ? "" : "::" module)
  if (parts[3] == "src") say("function", path)
}

# A definition is a line 'NAME : ..' with words before it such as pub. What stands further in is one only in a module, where it is pub, or as
# a part of a record or a type; else it is local to a proof.
function antt_line(   i, indent, public) {
  indent = match($0, /[^ ]/) - 1
  if (indent < 0 || $1 == "--") return
  if (indent <= owner_indent) owner = ""
  public = indent == 0
  for (i = 1; $i ~ /^(pub|abbrev|unfoldable)$/; i++) if ($i == "pub") public = 1
  if (public && $i ~ /^(record|data)$/) {
    owner = $(i + 1)
    owner_indent = indent
    say(kind, FILENAME " " owner)
  } else if ($(i + 1) == ":" && $i !~ /^\(/ && (public || owner != "")) {
    say(kind, FILENAME " " $i)
    if (owner != "") say(kind, FILENAME " " owner "." $i)
  }
}

# The type that a block of methods is of: impl Type {, impl<'a> Type<'a> {, impl Trait for Type {.
function type_of(line) {
  sub(/^impl(<[^>]*>)? /, "", line)
  sub(/^.* for /, "", line)
  sub(/[^A-Za-z0-9_].*/, "", line)
  return line
}

function rt_line(   name) {
  if ($1 ~ /^impl(<|$)/) impl = "::" type_of($0)
  if ($0 ~ /^}/) impl = ""
  name = $0
  gsub(/^ +|pub |extern "C" /, "", name)
  if (name !~ /^(fn|struct|enum|const) /) return
  sub(/^[a-z]+ /, "", name)
  sub(/[^A-Za-z0-9_].*/, "", name)
  say("function", FILENAME " " name)
  say("function", path impl "::" name)
}

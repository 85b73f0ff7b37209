# Makes the rounds of tools/kills from a seed. Of each it prints a line: its number; how many milliseconds to wait; what is killed (early: the
# exchange, while it starts; exchange; both: the desk first); and how many milliseconds lie between the two. The desk's commands of the round go
# to FOLDER/commands.NUMBER: no desk gets through them before it is killed, or on a fast machine every second one; and all of 100 rounds are
# fewer than there are identifiers.
#   awk -v seed=SEED -v rounds=N -v folder=FOLDER -f rounds.awk
function below(n) { # Park and Miller's numbers, which every awk counts alike
  seed = seed * 16807 % 2147483647
  return int(seed / 2147483647 * n)
}

function one_of(words,   part, n) {
  n = split(words, part, " ")
  return part[1 + below(n)]
}

function digits(   i, text) {
  text = 3 + below(7)
  for (i = below(12); i > 0; i--) text = text below(10)
  return text
}

function served() { return one_of("all all one") == "all" ? "" : " " one_of("13579 13580") }

# Half of the registrations are for all services; some get an error.
function command(   what) {
  what = below(10)
  if (what < 6) return "register " one_of("cfu cfb cfnr") " " one_of("0 0 0 1 2 32") " " (below(20) == 0 ? "112" : "") digits() served()
  if (what < 8) return "cancel " one_of("cfu cfb cfnr") " " one_of("0 1 2 32") served()
  return "ask " one_of("cfu cfb cfnr")
}

BEGIN {
  for (i = 1; i < 10; i++) below(2)
  for (round = 1; round <= rounds; round++) {
    file = folder "/commands." round
    print "page" >file
    for (i = 0; i < 300; i++) print command() (below(8) == 0 ? "\npage" : "") >file
    close(file)
    kind = one_of("early exchange exchange exchange exchange exchange both both")
    print round, below(kind == "early" ? 90 : 120), kind, below(10)
  }
}

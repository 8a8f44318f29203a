# From the figures of a run to its tables. A line of figures: time or count, family, disks, blocks, racer, figure.

{ figure[$1, $2, $3, $4, $5] = $6 }

# 1234567 as 1,234,567.
function grouped(number,    text, sign) {
  text = sprintf("%d", number)
  sign = ""
  while (length(text) > 3) {
    sign = "," substr(text, length(text) - 2) sign
    text = substr(text, 1, length(text) - 3)
  }
  return text sign
}

# A figure, and how many times ours it is.
function cell(what, family, disks, blocks, racer, unit,    key, ours, times) {
  key = what SUBSEP family SUBSEP disks SUBSEP blocks SUBSEP
  if (!((key racer) in figure)) return "not run"
  ours = (key "ours") in figure ? figure[key "ours"] : 0
  if (racer == "ours" || ours <= 0) return grouped(figure[key racer] / unit + 0.5)
  times = figure[key racer] / ours
  return sprintf(times < 10 ? "%s (%.2f)" : "%s (%.1f)", grouped(figure[key racer] / unit + 0.5), times)
}

function row(what, family, disks, blocks, unit,    line, r) {
  if (!((what, family, disks, blocks, "paper") in figure)) return
  line = "| " family " | " grouped(blocks) " |"
  for (r = 1; r <= racers; ++r) line = line " " cell(what, family, disks, blocks, racer[r], unit) " |"
  print line
}

function table(what, unit,    f, b) {
  print "| family | Q | ours | LEMON, paper | LEMON, tuned | LEMON, merged | second |"
  print "|---|---|---|---|---|---|---|"
  for (f = 1; f <= number; ++f) for (b = 1; b <= 4; ++b) row(what, family[f], 64, size[b], unit)
  print ""
}

# One racer over growing cases, if it ran; the last column is the power by which the count grew from the case `from` on.
function growth(name, racer, label, along, from,    c, d, q, line, first, last) {
  line = "| " name " | " label " |"
  for (c = 1; c <= 4; ++c) {
    d = along == "Q" ? 64 : count_of_disks[c]
    q = along == "Q" ? size[5 - c] : 1024
    if (!(("count", name, d, q, racer) in figure)) {
      print line " not run | | | | |"
      return
    }
    last = figure["count", name, d, q, racer]
    if (c == from) first = last
    line = line " " grouped(last / 1000 + 0.5) " |"
  }
  printf "%s %.2f |\n", line, log(last / first) / log(along == "Q" ? 16 : 8)
}

function growths(along, from,    f) {
  for (f = 1; f <= numbers_scaled; ++f) {
    if (!(("count", scaled_family[f], 64, 1024, "paper") in figure)) continue
    growth(scaled_family[f], "ours", "ours", along, from)
    growth(scaled_family[f], "paper", "LEMON, paper", along, from)
    growth(scaled_family[f], "tuned", "LEMON, tuned", along, from)
  }
  print ""
}

END {
  number = split(families, family, " ")
  numbers_scaled = split(scaled, scaled_family, " ")
  racers = split("ours paper tuned merged second", racer, " ")
  split("1024 256 64 16", size, " ")
  split("8 16 32 64", count_of_disks, " ")

  print "### Time"
  print ""
  print "Microseconds of processor time a request, N 64; in brackets how many times ours. The least of " repeat " runs over " timed " requests of Q 1,024, and as many blocks of smaller Q."
  print ""
  table("time", 1)
  print "### Instructions"
  print ""
  print "Thousands of instructions a request, N 64; in brackets how many times ours. Over " counted " requests of Q 1,024, and as many blocks of smaller Q."
  print ""
  table("count", 1000)
  print "### Growth with Q"
  print ""
  print "Thousands of instructions a request, N 64. Power: p where the count grows as Q to the p, from Q 64 to 1,024."
  print ""
  print "| family | program | Q 16 | Q 64 | Q 256 | Q 1,024 | power |"
  print "|---|---|---|---|---|---|---|"
  growths("Q", 2)
  print "### Growth with N"
  print ""
  print "Thousands of instructions a request, Q 1,024. Power: p where the count grows as N to the p, from N 8 to 64."
  print ""
  print "| family | program | N 8 | N 16 | N 32 | N 64 | power |"
  print "|---|---|---|---|---|---|---|"
  growths("N", 1)
}

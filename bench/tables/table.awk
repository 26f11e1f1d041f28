# The lines of the benchmark's runs as a table: a row for each call, a column for each history, the least microseconds.
$3 != "" && $NF == "ns" {
  place = $1 " " $2
  if (!(place in places)) { places[place] = ++columns; heads[columns] = place }
  if (!($3 in names)) { names[$3] = ++rows; calls[rows] = $3 }
  nanos = $(NF - 1)
  if (!(($3, place) in spent) || nanos < spent[$3, place]) spent[$3, place] = nanos
}

END {
  line = "| call |"; rule = "|---|"
  for (column = 1; column <= columns; column++) { line = line " " heads[column] " |"; rule = rule "---|" }
  print line; print rule
  for (row = 1; row <= rows; row++) {
    line = "| " calls[row] " |"
    for (column = 1; column <= columns; column++) line = line sprintf(" %.1f |", spent[calls[row], heads[column]] / 1000)
    print line
  }
}

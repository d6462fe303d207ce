# The table of times, from lines 'ENTRY SHEET PROVED INDEPENDENT' in nanoseconds of one program or of several: the best
# of each. Then what a run takes of as many single checks.
BEGIN { FS = "\t"; goal = 0.8; claims = 50 }
function better(old, new) { return old == "" || new < old ? new : old }
{
  line = $1 FS $2
  if (!(line in proved)) { lines[++count] = line; if ($1 == "check") sheets[++made] = $2 }
  proved[line] = better(proved[line], $3)
  independent[line] = better(independent[line], $4)
}
function part_of_checks(time, sheet) { return time["check_run" FS sheet] / (claims * time["check" FS sheet]) }
END {
  printf "%-14s %-20s %12s %12s %6s\n", "entry", "sheet", "proved, ns", "indep., ns", "ratio"
  for (k = 1; k <= count; k++) {
    line = lines[k]
    split(line, name)
    ratio = proved[line] / independent[line]
    over += ratio > goal
    mark = ratio > goal ? "  over" : ""
    printf "%-14s %-20s %12.0f %12.0f %6.2f%s\n", name[1], name[2], proved[line], independent[line], ratio, mark
  }
  printf "%d of %d over %.1f\n", over, count, goal
  printf "\n%-35s %12s %12s\n", "a run over its single checks", "proved", "indep."
  for (k = 1; k <= made; k++)
    printf "%-35s %12.2f %12.2f\n", sheets[k], part_of_checks(proved, sheets[k]), part_of_checks(independent, sheets[k])
}

#!/bin/bash
# One task of a job array: makes the cuts of one extract that aren't there yet, all in one run.
#
# usage: sbatch --array=1-COUNT cut.sh LEVEL
#
# LEVEL is a file with a line `PARENT NAME WEST,SOUTH,EAST,NORTH` for each cut, which reads PARENT.osm.pbf and makes NAME.osm.pbf in the folder of the
# job. COUNT is how many parents it has. OPTIONS, if it is set, has further options of pbfcutz. Cuts get their names when all of a run are whole.
set -u

# Ends the task. Slurm runs it again, two minutes later, the first two times; if a node fails it does so by itself.
try_again() {
  # The number of the job would mean the whole array, if this is its last task.
  [ "${SLURM_RESTART_COUNT:-0}" -ge 2 ] || scontrol requeue "${SLURM_ARRAY_JOB_ID}_$SLURM_ARRAY_TASK_ID"
  exit "$1"
}

parent=$(awk -v task="$SLURM_ARRAY_TASK_ID" 'NF && !seen[$1]++ && ++count == task { print $1 }' "$1")
extracts=$(while read -r from name box || [ -n "$from" ]; do
  [ "$from" = "$parent" ] && [ ! -e "$name.osm.pbf" ] || continue
  rm -f "$name.osm.pbf".*.part # if a run was killed, what it left
  echo "{\"output\": \"$name.osm.pbf\", \"bbox\": [$box]}"
done <"$1" | paste -s -d ,)
[ -n "$extracts" ] || exit 0

config=$(mktemp) && trap 'rm -f "$config"' EXIT && echo "{\"extracts\": [$extracts]}" >"$config" || try_again 3
status=0
pbfcutz extract ${OPTIONS:-} -c "$config" "$parent.osm.pbf" || status=$?
case $status in
0 | 1 | 2) exit $status ;; # a fault of the file or of the list stays
*) try_again $status ;;
esac

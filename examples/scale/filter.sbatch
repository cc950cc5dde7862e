#!/bin/bash
# A job array of Slurm: each task writes the packets of one FILE that match to FILE.match, in the same folder.
#
# usage: sbatch --wait --array=0-LAST filter.sbatch EXPRESSION FILE..
#
# LAST is the number of files less one. All nodes see the files, and have capkit in PATH. With --wait, the status of
# sbatch is the greatest of the tasks' statuses. What a task reports is in capkit-NUMBER.log.
#
# A task first removes the .match of an earlier run, writes to a temporary name, and renames it at its end. So each .match
# is of this run, and complete if the status is 0. A file that can't be read has none, and neither has any file if the
# expression is refused. A FILE that is the .match of another one is refused, and so are two files that would have the
# same .match.
#SBATCH --job-name=capkit
#SBATCH --ntasks=1
#SBATCH --mem=64M
#SBATCH --output=capkit-%a.log

expression=$1
shift
files=("$@")
file=${files[SLURM_ARRAY_TASK_ID]}
out=${file%.pcap}.match
for place in "${!files[@]}"; do
    other=${files[place]}
    if [ "$other" = "$out" ] || [ "$other" -ef "$out" ] ||
        { [ "$place" != "$SLURM_ARRAY_TASK_ID" ] && [ "${other%.pcap}.match" = "$out" ]; }; then
        printf 'filter.sbatch: %q: %q is used twice\n' "$file" "$out" >&2
        exit 2
    fi
done
part=$out.$SLURM_ARRAY_TASK_ID.part
rm -f "$out" "$part"
status=0
capkit print -w "$part" --format pcap "$file" "$expression" || status=$?
if [ -s "$part" ]; then
    mv "$part" "$out"
else
    rm -f "$part"
fi
exit "$status"

#!/bin/bash
#SBATCH --array=1-101
#SBATCH --cpus-per-task=8
#SBATCH --mem-per-cpu=1G
# The digests of all deliveries of a department, one department a task of a job array. Under Slurm, with a list of one folder a line:
#
#     sbatch --array=1-$(wc -l < departments.txt) examples/cluster/departments.sh departments.txt OUT
#
# A task writes NAME.digests, in the order of paths, and NAME.refusals, what standard error got, to the folder OUT, where NAME is that of the
# department's folder. Other schedulers have other names for the number of the task and for the processors.
set -eu
list=$1 out=$2
department=$(sed -n "${SLURM_ARRAY_TASK_ID}p" "$list")
name=$out/$(basename "$department")
# (xargs has status 123 where something is refused; that is no failure of the task)
find "$department" -iname '*.THF' -print0 |
    { xargs -0 -n 64 -P "${SLURM_CPUS_PER_TASK:-1}" edicad delivery 2> "$name.refusals" || [ $? -eq 123 ]; } |
    LC_ALL=C sort -k 2 > "$name.digests"
echo "$department: $(wc -l < "$name.digests") sheets have a digest, $(grep -c ': refused ' "$name.refusals" || true) files are refused"

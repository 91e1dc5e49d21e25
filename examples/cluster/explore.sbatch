#!/bin/bash
# An array of jobs for Slurm, each of which explores seeds of its own (docs/how-to/MANY_MACHINES.md):
#
#     sbatch --array=0-99 examples/cluster/explore.sbatch lock.elf found
#
# ELF is the file, and FOLDER where the texts go. Each job writes FOLDER/TASK.explored; `sweep merge FOLDER` adds them up.
# tools/sweep/tests/test_cluster.py runs this as Slurm does.
#SBATCH --job-name=explore
#SBATCH --cpus-per-task=4
#SBATCH --mem-per-cpu=256M
#SBATCH --time=01:00:00
set -eu
elf=$1 folder=$2
runs=${RUNS:-1000000}
first=$(( ${FIRST_SEED:-1} + SLURM_ARRAY_TASK_ID * runs ))
mkdir -p "$folder"
# A job that is ended leaves an empty file, which `sweep merge` names.
: > "$folder/$SLURM_ARRAY_TASK_ID.explored"
"${RSEQ_RUN:-rseq_run}" explore "$elf" --seed "$first" --runs "$runs" --jobs "${SLURM_CPUS_PER_TASK:-1}" \
    > "$folder/$SLURM_ARRAY_TASK_ID.part"
mv "$folder/$SLURM_ARRAY_TASK_ID.part" "$folder/$SLURM_ARRAY_TASK_ID.explored"

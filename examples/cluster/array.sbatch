#!/usr/bin/env bash
#SBATCH --job-name=gcx
#SBATCH --ntasks=1
#SBATCH --mem=200M
#SBATCH --time=00:30:00
#SBATCH --output=filter-%a.log
# Each of N tasks answers FOLDER/query over its slice of FOLDER/list: task I over the lines whose number is I modulo N.
# What has an answer is passed over, so that the same command, given again, does only what failed or is missing.
# usage: sbatch --array=0-19 array.sbatch FOLDER     in the folder of ./filter
set -eu
tasks=$SLURM_ARRAY_TASK_COUNT
if [ "$SLURM_ARRAY_TASK_MIN-$SLURM_ARRAY_TASK_MAX" != "0-$((tasks - 1))" ]; then
  echo 'array.sbatch: give all tasks, --array=0-N: the slices depend on their number' >&2
  exit 2
fi
awk -v tasks="$tasks" -v task="$SLURM_ARRAY_TASK_ID" 'NR % tasks == task' "$1/list" | xargs -r -d '\n' ./filter "$1"

#!/bin/sh
#SBATCH --job-name=pefidx
#SBATCH --cpus-per-task=1
#SBATCH --requeue
#SBATCH --open-mode=append
# task.sbatch COMMAND..: a job of Slurm, or one task of a job array, which `slurm` submits. The word {} stands for the number of the task.
#
# A command that ends with 75 may succeed another time: the job goes back into the queue, three times at most. Every other status is the job's.
for word do
    shift
    if [ "$word" = '{}' ]; then word=$SLURM_ARRAY_TASK_ID; fi
    set -- "$@" "$word"
done
"$@"
status=$?
job=${SLURM_ARRAY_JOB_ID:+${SLURM_ARRAY_JOB_ID}_$SLURM_ARRAY_TASK_ID}
if [ "$status" -eq 75 ] && [ "${SLURM_RESTART_COUNT:-0}" -lt 3 ]; then
    scontrol requeue "${job:-$SLURM_JOB_ID}"
fi
exit "$status"

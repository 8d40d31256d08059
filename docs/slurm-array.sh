#!/bin/bash
# A sweep as a Slurm job array: task K sweeps part K of N. A task that is killed or requeued goes on where it was.
#
#   sbatch --array=1-20 slurm-array.sh plan.toml 20
#
# The second argument is N, the same each time. The array chooses parts: --array=7 submits part 7 again, alone, and it goes on where it was.
#
# Once all tasks have ended, where their journals are, or where plan.toml, the CSV files, each plan.partK.journal and the
# plan.partK.journal.plan beside it were copied to:
#
#   wilfnusk merge plan.toml plan.part*.journal -o plan.journal
#   wilfnusk sweep plan.toml --svg windows.svg
#
#SBATCH --job-name=roll-sweep
#SBATCH --ntasks=1
#SBATCH --time=01:00:00
#SBATCH --requeue
#SBATCH --signal=B:TERM@30
set -euo pipefail
refuse() { echo "slurm-array.sh: $*" >&2; exit 2; }

[ $# = 2 ] || refuse "it takes the plan and the number of parts, as in: sbatch --array=1-20 slurm-array.sh plan.toml 20"
plan=$1 parts=$2
[[ $parts =~ ^[1-9][0-9]{0,8}$ ]] || refuse "the number of parts is '$parts', and must be a whole number from 1 up"
usual="sbatch --array=1-$parts slurm-array.sh $plan $parts"
part=${SLURM_ARRAY_TASK_ID:-}
[ -n "$part" ] || refuse "no part is chosen: submit it as an array, as in: $usual"
# All tasks of an array that begins at 0 or ends beyond N are refused: a part would be missing, or is no part.
for task in "${SLURM_ARRAY_TASK_MIN:-$part}" "${SLURM_ARRAY_TASK_MAX:-$part}" "$part"; do
    { [[ $task =~ ^[1-9][0-9]{0,8}$ ]] && [ "$task" -le "$parts" ]; } ||
        refuse "the array has task $task, and the parts are 1 to $parts: submit it with --array within 1-$parts, as in: $usual"
done
exec wilfnusk sweep "$plan" --quiet --wait --journal "${plan%.toml}.part$part.journal" --part "$part/$parts"

#!/bin/sh
# Solves one formula in as many Slurm jobs as it takes, one after the other, each with a time limit:
#
#     sbatch examples/resume/slurm.sh formula.cnf /scratch/kept
#
# A minute before the limit, Slurm sends SIGTERM to this script only (B:), which forwards it, so
# that the current round is saved. A job that is killed loses everything after the last saved round.
# The answer is in /scratch/kept.answer at the end.
#SBATCH --array=1-100%1
#SBATCH --time=4:00:00
#SBATCH --signal=B:TERM@60
#SBATCH --cpus-per-task=16
[ "$#" -eq 2 ] || { echo "usage: sbatch $0 FORMULA RECORD" >&2; exit 2; }
formula=$1 record=$2 job='' asked=''
if [ -e "$record.answer" ]; then exit 0; fi
if [ -e "$record/command" ]; then       # the last job was killed after it had the proof
    sh "$record/command" "$formula" > "$record.out" && mv "$record.out" "$record.answer"
    exit
fi
how=--proofs
[ ! -e "$record/files" ] || how=--resume
trap 'asked=yes; [ -z "$job" ] || kill -TERM "$job"' TERM
lrup-solve -j "$(((${SLURM_CPUS_PER_TASK:-2} + 1) / 2))" "$how" "$record" "$formula" > "$record.out" &
job=$!
[ -z "$asked" ] || kill -TERM "$job"
wait "$job"
status=$?
while kill -0 "$job" 2> /dev/null; do   # the signal interrupted the wait
    wait "$job"
    status=$?
done
cat "$record.out"
case $status in 10 | 20) mv "$record.out" "$record.answer" ;; esac
[ "$status" -ne 1 ] || exit 1

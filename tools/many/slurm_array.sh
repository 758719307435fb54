#!/bin/sh
#SBATCH --job-name=scenes
#SBATCH --array=0-199
#SBATCH --output=slurm-%A.out
#SBATCH --open-mode=append
# Plays the scenes of a folder as an array job of Slurm, one scene a task, and keeps of each what `tools/gfx golden record` keeps.
#
# usage: sbatch --array=0-199 tools/many/slurm_array.sh FOLDER
#        SLURM_ARRAY_TASK_ID=7 tools/many/slurm_array.sh FOLDER     one task by hand, without Slurm
#
# It is started at the top of a checkout that all nodes see, with the program built. Task N plays the scene number N of the
# folder, in the order of the names; a task past the last scene does nothing. Where there are more scenes than tasks,
# task N plays also the scenes N + count, N + 2 count and so on. What the tasks say goes to one file, slurm-JOB.out. It needs
# Slurm (the Debian package slurm-wlm).
set -eu

case ${1:-} in
    --help | -h) sed -n '6,/^set -/{/^set -/d;s/^# \{0,1\}//;p;}' "$0"; exit 0 ;;
esac
fail() {
    echo "slurm_array.sh: $1" >&2
    exit "$2"
}
[ $# -ge 1 ] || fail "the folder is wanted; --help says more" 2
[ $# -eq 1 ] || fail "$2 is a word too many; --help says more" 2
case ${SLURM_ARRAY_TASK_ID:-} in
    '') fail "SLURM_ARRAY_TASK_ID is not set; sbatch sets it, and --help says more" 1 ;;
    *[!0-9]*) fail "SLURM_ARRAY_TASK_ID is $SLURM_ARRAY_TASK_ID, and no number" 1 ;;
esac
# Slurm runs a copy of this file, so the repository is where the job was started
cd "${SLURM_SUBMIT_DIR:-.}"
set -- "$1"/*.scene
[ -e "$1" ] || fail "there is no scene ${1#./} in $PWD" 1
count=${SLURM_ARRAY_TASK_COUNT:-1000000}
first=${SLURM_ARRAY_TASK_MIN:-0}
number=0 failed=0
for scene in "$@"; do
    if [ $((number % count)) -eq $((SLURM_ARRAY_TASK_ID - first)) ]; then
        tools/gfx golden record --jobs 1 "$scene" || failed=1
    fi
    number=$((number + 1))
done
exit $failed

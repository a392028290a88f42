#!/bin/sh
# A Slurm array, a deck each: sbatch --array=1-100 array.sh (with DECKS, COMMANDS and PROGRAM in the environment)
#SBATCH --ntasks=1 --cpus-per-task=1 --mem=64M --time=10:00 --output=transyt-%a.log
deck=$(ls "$DECKS"/*.deck | sed -n "${SLURM_ARRAY_TASK_ID}p")
cat "$deck" "$COMMANDS" | "$PROGRAM" run >"${deck%.deck}.bad" && mv "${deck%.deck}.bad" "${deck%.deck}.out"

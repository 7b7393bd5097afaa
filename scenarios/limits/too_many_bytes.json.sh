# The same scenario with one byte too many.
scenario='{"version":1,"records":[1,2],"procs":[],"clients":[]}'
printf '%s' "$scenario"
yes ' ' | tr -d '\n' | head -c "$((16777217 - ${#scenario}))"

# A scenario of 16,777,216 bytes, which is as many as there may be: spaces stand behind it.
scenario='{"version":1,"records":[1,2],"procs":[],"clients":[]}'
printf '%s' "$scenario"
yes ' ' | tr -d '\n' | head -c "$((16777216 - ${#scenario}))"

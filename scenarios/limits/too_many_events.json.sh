# One event more than there may be.
printf '{"version":1,"records":[0],"procs":[],"clients":[],"schedule":['
yes '["claim"]' | head -n 1048577 | paste -sd, -
printf ']}'

# As many events as there may be; there is no turn in which to claim.
printf '{"version":1,"records":[0],"procs":[],"clients":[],"schedule":['
yes '["claim"]' | head -n 1048576 | paste -sd, -
printf ']}'

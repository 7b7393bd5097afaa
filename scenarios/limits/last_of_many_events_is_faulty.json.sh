# A faulty event behind as many as there may be.
printf '{"version":1,"records":[0],"procs":[],"clients":[],"schedule":['
yes '["claim"]' | head -n 1048576 | paste -sd, -
printf ',["load"]]}'

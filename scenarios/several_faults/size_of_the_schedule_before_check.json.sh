# One event more than there may be, and a procedure of nine arguments.
printf '{"version":1,"records":[0],"procs":[{"name":"p","args":9,"keys":[],"body":[]}],"clients":[],"schedule":['
yes '["claim"]' | head -n 1048577 | paste -sd, -
printf ']}'

# One call more than there may be, in two scripts.
seven='{"proc":"seven","args":[]}'
printf '{"version":1,"records":[0],"procs":[{"name":"seven","args":0,"keys":[],"body":[["reply",7]]}],"clients":[['
yes "$seven" | head -n 65536 | paste -sd, -
printf '],[%s]]}' "$seven"

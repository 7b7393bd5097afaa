# 512 statements of 2 nodes each, and a reply that is 33 deep.
let='["let",0,1]'
printf '{"version":1,"records":[0],"procs":[{"name":"p","args":0,"keys":[],"body":['
yes "$let" | head -n 512 | paste -sd, -
printf ',["reply",'
yes '["not",' | head -n 31
printf '0'
yes ']' | head -n 31
printf ']]}],"clients":[]}'

# An If, its condition, and 511 statements of 2 nodes each in its two lists: 1,024 nodes.
let='["let",0,1]'
printf '{"version":1,"records":[0],"procs":[{"name":"p","args":0,"keys":[],"body":[["if",1,['
yes "$let" | head -n 255 | paste -sd, -
printf '],['
yes "$let" | head -n 256 | paste -sd, -
printf ']]]}],"clients":[[{"proc":"p","args":[]}]]}'

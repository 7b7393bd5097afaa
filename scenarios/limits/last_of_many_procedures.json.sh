# A thousand procedures in falling order; each replies the number in its name.
printf '{"version":1,"records":[0],"procs":['
printf '{"name":"p%s","args":0,"keys":[],"body":[["reply",%s]]}\n' $(paste <(seq 1000 -1 1) <(seq 1000 -1 1)) |
  paste -sd, -
printf '],"clients":[[{"proc":"p1","args":[]},{"proc":"p1000","args":[]},{"proc":"p500","args":[]}]]}'

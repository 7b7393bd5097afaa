# 600 replies of 2 nodes each: 1,200 nodes.
printf '{"version":1,"records":[0],"procs":[{"name":"p","args":0,"keys":[],"body":['
yes '["reply",1]' | head -n 600 | paste -sd, -
printf ']}],"clients":[]}'

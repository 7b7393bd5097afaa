# 512 statements of 2 nodes each: 1,024 nodes.
printf '{"version":1,\n "records":[0,0],\n "procs":[{"name":"p","args":0,"keys":[],"body":['
yes '["let",0,1]' | head -n 512 | paste -sd, - | tr -d '\n'
printf ']}],\n "clients":[[{"proc":"p","args":[]}]]}\n'

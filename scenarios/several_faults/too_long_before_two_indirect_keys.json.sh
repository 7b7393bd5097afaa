# 512 statements of 2 nodes each, an Abort, and two indirect keys.
printf '{"version":1,\n "records":[0],\n "procs":[\n'
printf '{"name":"p","args":1,"keys":[["read","arg",0],["read","through",0],["write","through",0]],"body":['
yes '["let",0,0]' | head -n 512 | paste -sd, - | tr -d '\n'
printf ',["abort",0]]}],\n "clients":[]}\n'

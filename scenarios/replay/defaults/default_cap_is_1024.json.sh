# One call runs and 1,024 wait for it; then the queue is busy.
printf '{"version":1,"records":[0],"procs":[{"name":"bump","args":1,"keys":[["write","arg",0]],'
printf '"body":[["set",0,["add",["key",0],1]],["reply",["key",0]]]}],"clients":[['
yes '{"proc":"bump","args":[0]}' | head -n 1026 | paste -sd, -
printf ']],"schedule":['
yes '["enter",0],["claim"],["admit"]' | head -n 1025 | paste -sd, -
printf ',["enter",0]]}'

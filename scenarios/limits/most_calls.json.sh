# As many calls as there may be, in two scripts; each adds 1 to the record.
bump='{"proc":"bump","args":[0]}'
printf '{"version":1,"records":[0],"procs":[{"name":"bump","args":1,"keys":[["write","arg",0]],'
printf '"body":[["set",0,["add",["key",0],1]],["reply",["key",0]]]}],"clients":[['
yes "$bump" | head -n 40000 | paste -sd, -
printf '],['
yes "$bump" | head -n 25536 | paste -sd, -
printf ']]}'

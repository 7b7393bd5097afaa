# Without bits there are 4096, so that records 0 and 4096 have one place.
printf '{"version":1,"records":['
yes 0 | head -n 4097 | paste -sd, -
printf '],"procs":[{"name":"bump","args":1,"keys":[["write","arg",0]],'
printf '"body":[["set",0,["add",["key",0],1]],["reply",["key",0]]]}],"clients":[['
printf '{"proc":"bump","args":[4096]},{"proc":"bump","args":[0]},{"proc":"bump","args":[0]}]],"schedule":['
yes '["enter",0],["claim"],["admit"]' | head -n 3 | paste -sd, -
printf ',["load",1],["store",1],["release",1],["finish",1],["scan"]]}'

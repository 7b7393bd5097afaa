# As many calls as there may be, of a body that weighs 61,507. To take its 3,936,320 turns, all of lists that do nothing,
# would take the program some 20 milliseconds a call.
nothing=$(yes '["repeat",64,[]]' | head -n 15 | paste -sd, -)
printf '{"version":2,"records":[0],"procs":[{"name":"p","args":0,"keys":[],"body":[["repeat",64,[["repeat",64,[%s]]]],' "$nothing"
printf '["reply",7]]}],"clients":[['
yes '{"proc":"p","args":[]}' | head -n 65536 | paste -sd, -
printf ']]}'

# As many calls as there may be, of five claims each. A call has an enter, an admit and a finish, and for each of its
# claims at least a claim, a load and a release: 18 events.
printf '{"version":1,"records":[0,0,0,0,0],"procs":[{"name":"all","args":0,"keys":[["read","fixed",0],["read","fixed",1],'
printf '["read","fixed",2],["read","fixed",3],["read","fixed",4]],"body":[]}],"clients":[['
yes '{"proc":"all","args":[]}' | head -n 65536 | paste -sd, -
printf ']]}'

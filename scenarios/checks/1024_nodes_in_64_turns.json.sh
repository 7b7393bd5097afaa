# A repeat of 64 turns of 1,023 statements of one node each: 1,024 nodes, and a weight of 1 + 64 * 1,023 = 65,473.
printf '{"version":2,"records":[0],"procs":[{"name":"p","args":0,"keys":[],"body":[["repeat",64,['
yes '["abort",0]' | head -n 1023 | paste -sd, -
printf ']]]}],"clients":[]}'

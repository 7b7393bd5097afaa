# As many clients as there may be, all but the last without calls.
printf '{"version":1,"records":[5],"procs":[{"name":"seven","args":0,"keys":[],"body":[["reply",7]]}],"clients":['
yes '[],' | head -n 1023
printf '[{"proc":"seven","args":[]}]]}'

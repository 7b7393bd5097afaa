# 64 clients make 100 calls each on one record, of which one may wait.
printf '{"version":1,"records":[0],"procs":[\n'
printf '{"name":"bump","args":1,"keys":[["write","arg",0]],\n'
printf ' "body":[["set",0,["add",["key",0],1]],["reply",["key",0]]]}],\n'
printf '"cap":1,"bits":1,"clients":['
for ((client = 0; client < 64; client++)); do
  ((client == 0)) || printf ','
  printf '\n['
  for ((call = 0; call < 100; call++)); do
    ((call == 0)) || printf ','
    printf '{"proc":"bump","args":[0]}'
  done
  printf ']'
done
printf ']}\n'

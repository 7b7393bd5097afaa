# 24 clients make 30 calls each on 5 records: transfers and takes, of which some are aborted, sums and bumps.
printf '{"version":1,"records":[400,400,400,400,400],"procs":[\n'
printf '{"name":"transfer","args":3,"keys":[["write","arg",0],["write","arg",1]],\n'
printf ' "body":[["set",0,["sub",["key",0],["arg",2]]],\n'
printf '         ["set",1,["add",["key",1],["arg",2]]],["reply",["key",0]]]},\n'
printf '{"name":"sum2","args":2,"keys":[["read","arg",0],["read","arg",1]],\n'
printf ' "body":[["reply",["add",["key",0],["key",1]]]]},\n'
printf '{"name":"bump","args":1,"keys":[["write","arg",0]],\n'
printf ' "body":[["set",0,["add",["key",0],1]],["reply",["key",0]]]},\n'
printf '{"name":"take","args":2,"keys":[["write","arg",0]],\n'
printf ' "body":[["if",["less",["key",0],["arg",1]],[["abort",7]],[]],\n'
printf '         ["set",0,["sub",["key",0],["arg",1]]],["reply",["key",0]]]}],\n'
printf '"clients":['
for ((client = 0; client < 24; client++)); do
  ((client == 0)) || printf ','
  printf '\n['
  for ((call = 0; call < 30; call++)); do
    ((call == 0)) || printf ','
    number=$((30 * client + call))
    from=$(((7 * number + client) % 5))
    to=$(((3 * number + 2 * client + call / 5) % 5))
    amount=$((37 * number % 61))
    case $(((number + client) % 6)) in
      0 | 1) printf '{"proc":"transfer","args":[%d,%d,%d]}' "$from" "$to" "$amount" ;;
      2 | 3) printf '{"proc":"sum2","args":[%d,%d]}' "$from" "$to" ;;
      4) printf '{"proc":"bump","args":[%d]}' "$to" ;;
      5) printf '{"proc":"take","args":[%d,%d]}' "$from" "$amount" ;;
    esac
  done
  printf ']'
done
printf ']}\n'

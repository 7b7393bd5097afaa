# 24 clients make 30 calls each on 5 records, of which each names another one: charges by an alias, aliases that are set
# anew, and calls that read what an alias names.
printf '{"version":1,"records":[401,302,203,104,5],"procs":[\n'
printf '{"name":"charge","args":2,"keys":[["read","arg",0],["write","through",0]],\n'
printf ' "body":[["if",["less",["key",1],["arg",1]],[["abort",7]],[]],\n'
printf '         ["set",1,["sub",["key",1],["arg",1]]],["reply",["key",1]]]},\n'
printf '{"name":"assign","args":2,"keys":[["write","arg",0]],\n'
printf ' "body":[["reply",["key",0]],["set",0,["arg",1]]]},\n'
printf '{"name":"follow","args":1,"keys":[["write","arg",0],["read","through",0]],\n'
printf ' "body":[["set",0,["key",1]],["reply",["key",1]]]},\n'
printf '{"name":"peek","args":2,"keys":[["read","arg",1],["read","arg",0],["read","through",1]],\n'
printf ' "body":[["reply",["key",0]],["reply",["key",2]]]}],\n'
printf '"clients":['
for ((client = 0; client < 24; client++)); do
  ((client == 0)) || printf ','
  printf '\n['
  for ((call = 0; call < 30; call++)); do
    ((call == 0)) || printf ','
    number=$((30 * client + call))
    from=$(((7 * number + client) % 5))
    to=$(((3 * number + 2 * client + call / 5) % 5))
    amount=$((37 * number % 61))
    case $(((number + client) % 6)) in
      0 | 1) printf '{"proc":"charge","args":[%d,%d]}' "$from" "$amount" ;;
      2) printf '{"proc":"assign","args":[%d,%d]}' "$to" "$((amount + 300))" ;;
      3) printf '{"proc":"follow","args":[%d]}' "$from" ;;
      4 | 5) printf '{"proc":"peek","args":[%d,%d]}' "$to" "$from" ;;
    esac
  done
  printf ']'
done
printf ']}\n'

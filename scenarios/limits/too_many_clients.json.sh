# One client more than there may be.
printf '{"version":1,\n "records":[0],\n "procs":[\n],\n "clients":['
yes '[]' | head -n 1025 | paste -sd, - | tr -d '\n'
printf ']}\n'

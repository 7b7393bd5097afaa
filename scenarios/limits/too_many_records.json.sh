# One record more than there may be.
printf '{"version":1,\n "records":['
yes 0 | head -n 65537 | paste -sd, - | tr -d '\n'
printf '],\n "procs":[\n],\n "clients":[]}\n'

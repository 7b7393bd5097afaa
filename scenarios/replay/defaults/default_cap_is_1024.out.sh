# The pair word rises by 2^32 with each claim.
printf '0 opened\n1 claimed 0 granted\n2 free 0\n'
paste -d '\n' <(seq -f '%.0f opened' 3 3 3072) \
  <(paste -d ' ' <(seq 4 3 3073) <(seq -f 'claimed %.0f denied' 4294967296 4294967296 4398046511104)) \
  <(paste -d ' ' <(seq 5 3 3074) <(seq -f 'blocked %.0f' 1 1024))
printf '3075 refused busy\n'
printf 'call 0 client 0 running\n'
seq -f 'call %.0f client 0 waiting' 1 1024
printf 'record 0 value 0 pair 4402341478400\n'

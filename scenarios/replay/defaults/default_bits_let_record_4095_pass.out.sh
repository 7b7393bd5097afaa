printf '0 opened\n1 claimed 0 granted\n2 free 0\n3 opened\n4 claimed 0 granted\n5 free 1\n'
printf '6 opened\n7 claimed 4294967296 denied\n8 blocked 2\n'
printf '9 loaded 0\n10 stored\n11 released 8589934592\n12 replied committed 1\n13 run 2\n'
printf 'call 0 client 0 running\ncall 1 client 0 committed 1\ncall 2 client 0 running\n'
printf 'record 0 value 1 pair 4294967296\n'
seq -f 'record %.0f value 0 pair 0' 1 4094
printf 'record 4095 value 0 pair 4294967296\n'
printf 'record 4096 value 0 pair 0\n'

seq -f 'call %.0f client 0 committed 7' 0 65535
printf 'record 0 value 0 pair 0\n'

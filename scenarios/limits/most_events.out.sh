seq -f '%.0f refused no turn' 0 1048575
printf 'record 0 value 0 pair 0\n'

seq -f 'record %.0f value 7 pair 0' 0 65535

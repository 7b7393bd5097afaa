# A record whose digits never end.
printf '{"version":1,"records":[1'
yes 7 | tr -d '\n'

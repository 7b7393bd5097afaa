# Spaces without end: the program has to stop reading.
yes ' '

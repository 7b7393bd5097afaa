# Lists in lists, far past the depth that is read.
yes '[' | head -n 1000000

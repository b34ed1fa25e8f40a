break pulse.c:18 if ev != 136
run
print ev
print (char *) data
next
continue

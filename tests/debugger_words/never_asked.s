_start: rdch $3,$ch24
 stop 1

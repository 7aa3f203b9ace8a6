rdch $3,$ch1

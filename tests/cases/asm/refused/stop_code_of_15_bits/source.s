stop 16384

x: y: LNOP

lnop $3

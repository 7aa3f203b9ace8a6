andbi $3,$3,256

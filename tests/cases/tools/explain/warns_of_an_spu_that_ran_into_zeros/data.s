_start: il      $3,1
        .long   0
        stop    1

_start: il      $3,-1
        hlgti   $3,-2
        stop    1

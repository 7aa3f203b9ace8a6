_start: il      $3,-5
        il      $4,-6
        hgt     $3,$4
        stop    1

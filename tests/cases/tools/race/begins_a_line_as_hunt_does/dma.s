_start: il      $3,5
        wrch    $ch19,$3
        il      $4,64
        wrch    $ch21,$4
        stop    1

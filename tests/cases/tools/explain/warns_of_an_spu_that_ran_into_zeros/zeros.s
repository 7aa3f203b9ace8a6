_start: il      $3,1

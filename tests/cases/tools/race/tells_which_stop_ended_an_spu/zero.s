_start: il      $3,0
        brz     $3,end
        stop    1
end:    stop    0

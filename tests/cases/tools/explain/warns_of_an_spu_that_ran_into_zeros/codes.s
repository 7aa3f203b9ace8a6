_start: rdch    $4,$ch29
        brz     $4,done
        stop    0x22
done:   stop    1

# The third element of the list goes beyond the end of the local store.
_start: ila     $3,0x3ffef
        wrch    $ch16,$3
        ila     $3,list
        wrch    $ch18,$3
        il      $3,24
        wrch    $ch19,$3
        il      $3,0x44
        wrch    $ch21,$3
        il      $3,1
        wrch    $ch22,$3
        il      $3,2
        wrch    $ch23,$3
        rdch    $3,$ch24
        stop    1

        .data
list:   .long   16, 0x80
        .long   1, 0x93
        .long   16, 0xe0

x: x: nop

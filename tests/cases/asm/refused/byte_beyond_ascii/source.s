nop # a
a é

.skip 0xfffffffffffffffc

.section "a"

_start: br 0

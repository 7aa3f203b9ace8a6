.skip -4

# what was to come


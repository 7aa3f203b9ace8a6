"""The words of the programs for users: one table, and what is made of it for shells and for `man`."""

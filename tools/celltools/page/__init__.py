"""Makes page/cell.html, one file that holds all that the page needs."""

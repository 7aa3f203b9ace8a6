"""The modules of the programs of tools/, by what they are about; each folder uses those above it here alone.

common       how programs start and end, read texts and write files, and where the repository's own files are
run          asks the proved programs about records and hunts: a run's steps, their effects, and the states behind them
source       the language of sources: its names, where its lines are placed, and sources of GNU as
telling      says in words what steps, states, waits and faults are
order        docs/reference/order.md as a graph, and why nothing orders two steps
witness      the two short records of a race
explain      what is wrong with a file
hint         what ./cell and ./hunt print after a refusal
hunt         what hunts print
picture      a record as a page
debugger     the commands of tools/debug
translation  Python modules written as JavaScript
page         makes page/cell.html
vectors      cases of instructions and channels with the states before and after, by the proved machine
usage        the table of forms and options, and the completions and pages for `man` that are made of it
"""

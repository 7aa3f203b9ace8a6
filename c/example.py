"""Two processors put a number into the same place of main memory. Do their steps race?"""
import cell

FILES = {
    "pair.cell": """
        cell-machine 1
        lines 1
        budget 1000
        spe
        source writer.s
        spe
        source writer.s
    """,
    "writer.s": """
_start: il   $3,16
        wrch $ch19,$3    # the size
        il   $4,0x20     # PUT, of the 16 bytes from 0 on
        wrch $ch21,$4
        stop 1
    """,
}

hunt = cell.hunt("pair.cell", FILES, runs=20)
for race in hunt.races:
    print(f"{race.first} and {race.second} race in {race.count.runs} of {hunt.runs} runs, first in run {race.count.first}")

run = cell.run("pair.cell", FILES, number=hunt.races[0].count.first)
verdict = cell.check("pair.cell", run, FILES)
steps = cell.trace("pair.cell", run, FILES)
for place in verdict.places:
    print(place, steps[place].line)

try:
    cell.assemble("_start: il $3\n")
except cell.Faulty as fault:
    print("line", fault.line, fault.kind)

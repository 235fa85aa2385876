"""Why a line misses its aim, as profiles showed it: by run and the name of a line, or by run alone."""
from __future__ import annotations

CAUSES = {
    'scripts/processes': 'a quarter is memory, 17 % the order of the processes by their names at the end',
    'scripts/processes seed 7': 'a fifth is memory; then a step itself, that order, and the choice of the'
                                ' next process, a walk down a tree of counts',
    'scripts': 'a step of a loop takes some 317 instructions; `lines` has its file as JSON on the way in',
    'engine/points': 'each question copies its statement and puts the parameters in; a quarter is memory',
    'engine/inserts': 'each question copies its statement and puts the parameters in',
    'engine/childless': 'each question copies its statement and puts the parameters in',
    'engine/update': 'a changed row takes some 3,000 instructions; a third is memory, as its values are'
                     ' lists',
    'engine/shift': 'half is the look-up and the change of keys in ordered maps; each former version is a'
                    ' list of values',
    'engine/union': 'half is the merge in one ordered map, the rest memory and the union of lineages',
    'engine/distinct': 'half is the merge in one ordered map, whose values are behind pointers',
    'engine/order': 'two fifths are the sort, which moves each answer; the reply has a list of values a row',
    'engine/join2': 'a third is memory, the rest the join and the search of an ordered map',
    'engine/join3': 'a third is memory, the rest the join and the search of an ordered map',
    'engine': 'rows are lists of values in small pieces of memory',
    'worlds': 'a tree of JSON values is made first, rows are lists of values, and keys are judged and'
              ' indexed',
    'package': '`record` runs a copy of the world and keeps what each statement needs; a replay that needs'
               ' all rows reads the trace too',
    'depends': 'the list of all events is made: links, nodes and their order take half',
    'prov': '`prov depends` reads the document, writes it once more and compares; each edge has a block of'
            ' memory',
    'table': 'what is above `replay` is the text of the table itself',
    'join': 'a row in memory takes some 150 bytes beside its values; only rows in columns would take less',
    'gen': 'it makes the world, runs it with the lineage of each row, spells a package with its digest, and'
           ' runs that again',
    'csv': 'where nearly all columns stay texts, each is looked at for what it may be',
    'calls': 'the script looks at the times of all sources first',
}


def cause_of(run: str, name: str) -> str:
    """The cause of a miss."""
    return CAUSES.get(f'{run}/{name}', CAUSES.get(run, 'not known'))

#!/usr/bin/env python3
"""Bring the definitions' and lemmas' names to the spelling of today's Rattle: words in snake case.

Run once at the top of the repository, after the toolchain's port.py: that one turns the language's names, this one ours. A name
that a function or a field has already gets `_lem`, so that no two names fall together. Functions of src/, exported names, strings,
inputs and outputs keep their names.
"""
import pathlib
import re

# the old name, the new name
NAMES = """
afterStores after_stores
allStores all_stores
anyCalls any_calls
asItWas as_it_was
badMagic bad_magic_lem
bitsOf bits_of_lem
builtAll built_all
builtValues built_values
byCoord by_coord
checkAfter check_after
checkAll check_all
checkCoded check_coded_lem
checkOne check_one
checkTile check_tile_lem
checkTiles check_tiles_lem
checkedAll checked_all
codedOne coded_one
columnAfter column_after
columnAt column_at
columnsAt columns_at
columnsOf columns_of
coordOf coord_of_lem
countsGiven counts_given
countsIn counts_in_lem
countsOf counts_of
countsTold counts_told
defaultDegrees default_degrees
defaultHeader default_header
degreeAt degree_at_lem
degreeIn degree_in
degreeValues degree_values
degreesAt degrees_at_lem
degreesIn degrees_in_lem
degreesOf degrees_of_lem
descendIn descend_in
digitsOf digits_of
dirEntry dir_entry
entryFound entry_found
entryValues entry_values
fieldBytes field_bytes
findIn find_in
findStored find_stored
firstId first_id
firstIds first_ids
firstSize first_size_lem
getD-upward get_d-upward
getD-zeros get_d-zeros
headerBy header_by
headerBytes header_bytes
headerFields header_fields
headerFor header_for
headerIn header_in_lem
headerValues header_values
headerWith header_with
idStep id_step
inData in_data
inLeaves in_leaves
inPlan in_plan
inRoot in_root
isCoord is_coord_lem
isId is_id
keptIf kept_if
leafCodes leaf_codes
leafEnd leaf_end_lem
leafLengths leaf_lengths
leafOf leaf_of
leafPlace leaf_place
leafRoom leaf_room
leafSize leaf_size
leavesHere leaves_here
leavesOf leaves_of
lentAll lent_all
lookupCoord lookup_coord_lem
lookupIn lookup_in
makingHeader making_header
maxCompression max_compression
maxCount max_count
maxId max_id
maxType max_type
nearestWhole nearest_whole
neverRefused never_refused
newCoord new_coord
newEntry new_entry
newId new_id
nextIn next_in
offsetCodes offset_codes
offsetState offset_state
offsetStep offset_step
oldMagic old_magic
onHit on_hit
onlyCovered only_covered
openedIn opened_in
otherwiseAbsent otherwise_absent
partsGiven parts_given
plainStep plain_step
publishingGiven publishing_given
putVar put_var
rangeIn range_in_lem
readAt read_at
readAt-put read_at-put
readFields read_fields_lem
readHeader read_header
readVar read_var
refusalOf refusal_of
restIn rest_in
rootColumns root_columns
rootHere root_here
rootLength root_length_lem
rootOf root_of
rootRoom root_room
rootSize root_size
rowEntry row_entry
rowsIn rows_in
saidAccepted said_accepted
saidBuilt said_built
saidChecked said_checked
saidColumn said_column
saidCoord said_coord
saidEntry said_entry
saidFound said_found
saidId said_id
saidLength said_length
saidLookup said_lookup
saidNext said_next
saidOffset said_offset
saidOpened said_opened
saidPast said_past
saidPublished said_published
saidRanged said_ranged
saidRead said_read
saidSized said_sized
saidTotal said_total
saidU32 said_u32
saidU64 said_u64
saidWritten said_written
saidZoom said_zoom
sectionOf section_of
sectionsGiven sections_given
sectionsOf sections_of
settingsIn settings_in_lem
settingsWith settings_with
settledDegrees settled_degrees
sizeFrom size_from
sizesIn sizes_in
sizesOf sizes_of
sizesTold sizes_told
stepAt step_at
storeAt store_at_lem
storeFrom store_from
storedFrom stored_from
storedOf stored_of_lem
sweepIn sweep_in
tenMillion ten_million
tileId tile_id_lem
tileOne tile_one
tilesHere tiles_here
toCoord to_coord_lem
toZoom to_zoom
toldAccepted told_accepted
toldBuilt told_built_lem
toldChecked told_checked
toldCoord told_coord_lem
toldEntry told_entry
toldFound told_found_lem
toldId told_id_lem
toldLength told_length
toldLookup told_lookup_lem
toldNext told_next
toldOffset told_offset
toldOpened told_opened
toldPublished told_published
toldRanged told_ranged
toldRead told_read
toldSized told_sized
toldTotal told_total
toldU32 told_u32
toldU64 told_u64
toldWritten told_written
toldZoom told_zoom_lem
undoneAccepted undone_accepted
undoneBuilt undone_built
undoneLength undone_length
undoneSized undone_sized
undoneU32 undone_u32
undoneU64 undone_u64
undoneWritten undone_written
withLeaves with_leaves
withLens with_lens
withOffs with_offs
withRuns with_runs
writeHeader write_header
writtenHeader written_header
zoomOf zoom_of
zoomUpTo zoom_up_to
zoomsFit zooms_fit_lem
"""

# the names of ours that port.py itself turns, for the files that it leaves as they are: edits and pages
TURNED = """
all-sound all_sound
by-ones by_ones
check-sound check_sound
codeOf code_of
fieldsOf fields_of
lastAt last_at
numberOf number_of
offsetOf offset_of
one-entry one_entry
one-found one_found
one-number one_number
one-written one_written
openIn open_in
place-after place_after
put-same put_same
range-inside range_inside
read-again read_again
read-back read_back
root-in root_in
store-at store_at
wholeOf whole_of
"""

PART = r"[A-Za-z0-9_'₀-₉]"


def pattern(names):
    return re.compile(r"(?<![A-Za-z0-9_'₀-₉-])(" + "|".join(sorted(map(re.escape, names), key=len, reverse=True)) + r")(?!%s)(?!-%s)" % (PART, PART))


def table(text):
    return dict(line.split() for line in text.strip().splitlines())


def main():
    names = table(NAMES)
    everywhere = dict(names, **table(TURNED))
    files = 0
    for path in sorted(pathlib.Path(".").rglob("*")):
        if path.suffix in (".antt", ".rt"):
            use = names
        elif path.suffix in (".edit", ".md") and path.parts[0] in ("crates", "docs", "README.md"):
            use = everywhere
        else:
            continue
        if "out" in path.parts or ".git" in path.parts or path.name in ("PORT.md",):
            continue
        old = path.read_text()
        turn = lambda text: pattern(use).sub(lambda m: use[m.group(1)], text)
        new = re.sub(r"`[^`\n]*`", lambda m: turn(m.group(0)), old) if path.suffix == ".md" else turn(old)
        if new != old:
            path.write_text(new)
            files += 1
    print(f"respell: {files} files")


if __name__ == "__main__":
    main()

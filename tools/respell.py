#!/usr/bin/env python3
"""Brings the repository's own definitions and lemmas to the library's spelling: words in snake case.

Run once at the top, behind the kit's port.py. A table says every name, so that nothing falls together unseen. In specs/ and
proofs/ and in clauses each name is turned; in other lines of the code and in prose those in camel case alone, which no code
and no English has. Names of the code stay as they are.
"""
import glob
import re
import sys

TABLE = """
above-first        above_first
admits-more        admits_more
admits-own         admits_own
admits-under       admits_under
admitsAt           admits_at
admitsCell         admits_cell
admitsIn           admits_in
admitsLine         admits_line
all-written        all_written
and-true           and_true
answerTo           answer_to
areaOf             area_of
base-is            base_is
beginningWith      beginning_with
below-handedOn     below_handed_on
below-joined       below_joined
below-parted       below_parted
below-size-le      below_size_le
below-size-more    below_size_more
belowFirst         below_first
bigEndian          big_endian
bitIn              bit_in
bitOf              bit_of
bits-joined        bits_joined
bits-parted        bits_parted
bitsOf             bits_of
block-found        block_found
block-handed       block_handed
blockBelow         block_below
blockIn            block_in
blockOf            block_of
blocks-written     blocks_written
bridge-lawful      bridge_lawful
cappedSquares      capped_squares
cell-end           cell_end
cell-step          cell_step
cellOf             cell_of
cellOf-below       cell_of_below
cellOf-front-below cell_of_front_below
cellOf-more        cell_of_more
cellOf-push        cell_of_push
codeOf             code_of
comparedFor        compared_for
countChecks        count_checks
counted-line       counted_line
counted-on         counted_on
decides-beq        decides_beq
decides-true       decides_true
defectNumber       defect_number
destination-exact  destination_exact
destinationPorts   destination_ports
digit-here         digit_here
ends-agree         ends_agree
ends-decide        ends_decide
ends-differ        ends_differ
ends-exact         ends_exact
ends-range         ends_range
endsAdmit          ends_admit
entries-bound      entries_bound
entries-few        entries_few
entry-passed       entry_passed
entry-room         entry_room
entry-written      entry_written
fieldPlace         field_place
fields-agree       fields_agree
fields-lawful      fields_lawful
finds-lowest       finds_lowest
first-withBit      first_with_bit
first-without      first_without
firstBytes         first_bytes
free-from          free_from
free-handedOn      free_handed_on
free-joined        free_joined
free-parted        free_parted
front-more         front_more
getD-blocks        get_or-blocks
getD-largest       get_or-largest
getD-movedUp       get_or-moved_up
getD-sizes         get_or-sizes
getD-starts        get_or_starts
gives-bits         gives_bits
gives-some         gives_some
handedOn           handed_on
hasPorts           has_ports
headerBeginning    header_beginning
headerLength       header_length
headerOf           header_of
in-it              in_it
in-range           in_range_between
in-rules           in_rules
inField            in_field
inPrefix           in_prefix
inRange            in_range
is-laid            is_laid
isProtocol         is_protocol
joined-sound       joined_sound
joins-without      joins_without
kept-own           kept_own
kindOf             kind_of
laid-bounds        laid_bounds
laid-fits          laid_fits
laid-part          laid_part
laid-start         laid_start
largest-below      largest_below
largest-more       largest_more
largest-push       largest_push
largestOf          largest_of
length-all         length_all
length-bits        length_bits
length-bitsOf      length-bits_of
length-joined      length_joined
length-starts      length_starts
length-withBit     length-with_bit
lengthChecks       length_checks
lineAfter          line_after
lineBeginning      line_beginning
lookedUp           looked_up
looks-walked       looks_walked
lowest-here        lowest_here
lowest-none        lowest_none
lowest-of-all      lowest_of_all
lowest-on          lowest_on
lowest-some        lowest_some
made-if            made_if
markedLines        marked_lines
mask-agrees        mask_agrees
maskAdmits         mask_admits
maskMatches        mask_matches
masked-lawful      masked_lawful
matches-here       matches_here
matches-past       matches_past
matchesAt          matches_at
matchesIn          matches_in
member-at          member_at
member-behind      member_behind
member-last        member_last
member-none        member_none
member-some        member_some
member-without     member_without
movedUp            moved_up
never-past         never_past
next-above         next_above
next-below         next_below
next-digit         next_digit
next-is            next_is
no-match           no_match
none-takes         none_takes
octetsBit          octets_bit
odd-next           odd_next
one-and            one_and
one-more-to        one_more_to
one-takes          one_takes
one-tried          one_tried
one-with           one_with
only-zero-beyond   only_zero_beyond
only-zero-past     only_zero_past
own-bit            own_bit
part-is            part_is
part-joined        part_joined
parted-sound       parted_sound
portAt             port_at
prefix-agrees      prefix_agrees
prefix-if          prefix_if_lem
prefix-made        prefix_made
prefixAdmits       prefix_admits
prefixIf           prefix_if
prefixOf           prefix_of
protocol-if        protocol_if_lem
protocol-made      protocol_made
protocolAdmits     protocol_admits
protocolIf         protocol_if
protocolIn         protocol_in
protocolOf         protocol_of
quotient-between   quotient_between
quotients-ordered  quotients_ordered
range-agrees       range_agrees
range-decides      range_decides
range-if           range_if_lem
range-made         range_made
rangeAdmits        range_admits
rangeIf            range_if
rangeOf            range_of
rising-bits        rising_bits
rising-joined      rising_joined
rising-withBit     rising-with_bit
rising-without     rising_without
routed-lawful      routed_lawful
rowBeginning       row_beginning
rule-here          rule_here
rule-made          rule_made
ruleIf             rule_if
ruleIn             rule_in
ruleOf             rule_of
rulesOf            rules_of
size-end           size_end
size-within        size_within
sizeOf             size_of
sizes-all          sizes_all
some-admitted      some_admitted
someBelow          some_below
source-exact       source_exact
sourcePorts        source_ports
squares-more       squares_more
squares-push       squares_push
squaresOf          squares_of
start-next         start_next
start-within       start_within
startsFrom         starts_from
startsOf           starts_of
tableSize          table_size
take-handedOn      take-handed_on
take-movedUp       take-moved_up
tried-all          tried_all
tried-empty        tried_empty
tried-filled       tried_filled
tried-one          tried_one
tryEntry           try_entry
weigh-last         weigh_last
weigh-le           weigh_le
weigh-more         weigh_more
widthOf            width_of
withBit            with_bit
withBit-first      with_bit_first
withBit-min-max    with_bit_min_max
withoutBit         without_bit
zero-beyond        zero_beyond
zero-past          zero_past
◌andThen◌          ◌and_then◌
"""

NAMES = dict(row.split() for row in TABLE.split("\n") if row)
EDGE = "A-Za-z0-9_'\u25cc-"


def pattern(names):
    longest = sorted(names, key=len, reverse=True)
    return re.compile(f"(?<![{EDGE}])(?:" + "|".join(map(re.escape, longest)) + f")(?![{EDGE}])")


ALL = pattern(NAMES)
# in code and prose only the names that no English words and no code could make
CAMEL = pattern([name for name in NAMES if re.search("[a-z][A-Z]", name)])
CLAUSE = re.compile(r"^\s*(?:pub )?(?:ghost|requires|ensures)\b")
# the operator, by its use and by its name
OPERATOR = re.compile("(?<=[\u25cc])andThen(?=[\u25cc])")


def renamed(found):
    return NAMES[found.group(0)]


def respell(name, text):
    if name.endswith(".antt"):
        return aligned(OPERATOR.sub("and_then", ALL.sub(renamed, text)))
    if name.endswith(".rt"):
        lines = [(ALL if CLAUSE.match(line) else CAMEL).sub(renamed, line) for line in text.split("\n")]
        return "\n".join(lines)
    return OPERATOR.sub("and_then", CAMEL.sub(renamed, text))


ROW = re.compile(r"^--     (\S+)\s{2,}(\S.*)$")


def aligned(text):
    """The tables of words at the heads of the files, one column wide."""
    lines = text.split("\n")
    at = 0
    while at < len(lines):
        end = at
        while end < len(lines) and ROW.match(lines[end]):
            end += 1
        rows = [ROW.match(line).groups() for line in lines[at:end]]
        if rows:
            width = max(len(word) for word, _ in rows) + 3
            lines[at:end] = [f"--     {word:<{width}}{what}" for word, what in rows]
        at = max(end, at + 1)
    return "\n".join(lines)


def main():
    files = sorted(glob.glob("crates/*/specs/*.antt") + glob.glob("crates/*/proofs/**/*.antt", recursive=True))
    files += sorted(glob.glob("crates/*/src/*.rt")) + ["README.md"] + sorted(glob.glob("docs/*.md"))
    changed = 0
    for name in files:
        with open(name, encoding="utf-8") as file:
            before = file.read()
        after = respell(name, before)
        if after != before:
            changed += 1
            with open(name, "w", encoding="utf-8") as file:
                file.write(after)
    print(f"respelled: {changed} of {len(files)} files")
    return 0


if __name__ == "__main__":
    sys.exit(main())
